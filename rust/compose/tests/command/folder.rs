//! A folder of a test's own, and the command run in it.

use compose::{Chroma, HeifFrame, HeifPixelFormat, Refusal};
use std::fs;
use std::io::Write;
use std::path::PathBuf;
use std::process::{Command, Output, Stdio};

/// A program, whatever the test's own terminal and language are.
pub fn program(name: &str) -> Command {
    let mut program = Command::new(name);
    for variable in ["COLUMNS", "LC_ALL", "LC_MESSAGES", "LANG"] {
        program.env_remove(variable);
    }
    program
}

/// A folder of a test's own, empty; it goes when the test has passed.
pub struct Folder(pub PathBuf);

impl Drop for Folder {
    fn drop(&mut self) {
        if !std::thread::panicking() {
            let _ = fs::remove_dir_all(&self.0);
        }
    }
}

impl Folder {
    pub fn new(name: &str) -> Self {
        let path = PathBuf::from(env!("CARGO_TARGET_TMPDIR")).join(name);
        let _ = fs::remove_dir_all(&path);
        fs::create_dir_all(&path).expect("a folder for the test");
        Self(path)
    }

    /// The folder with a picture in it: 6 × 4, 4:2:0, depth 8.
    pub fn with_picture(name: &str) -> Self {
        let folder = Self::new(name);
        let format = HeifPixelFormat::new(Chroma::Yuv420, 8, false).expect("a depth");
        let mut frame = HeifFrame::filled(6, 4, format, 128).expect("a frame");
        for x in 0..6 {
            frame.set_sample(0, x, 0, 10 * x as u16);
        }
        folder.put("a.rec", &frame.to_record().expect("a record"));
        folder
    }

    pub fn put(&self, file: &str, bytes: &[u8]) {
        fs::write(self.0.join(file), bytes).expect("a file that can be written");
    }

    pub fn get(&self, file: &str) -> Vec<u8> {
        fs::read(self.0.join(file)).expect("a file that can be read")
    }

    pub fn has(&self, file: &str) -> bool {
        self.0.join(file).exists()
    }

    /// The command in the folder, the words parted by blanks.
    pub fn command(&self, words: &str) -> Command {
        let mut command = program(env!("CARGO_BIN_EXE_compose"));
        command.args(words.split_whitespace()).current_dir(&self.0);
        command
    }

    /// Runs it, and hands it `input`.
    pub fn run_with(&self, words: &str, input: &[u8]) -> Output {
        let mut child = self
            .command(words)
            .stdin(Stdio::piped())
            .stdout(Stdio::piped())
            .stderr(Stdio::piped())
            .spawn()
            .expect("the command starts");
        let mut standard_input = child.stdin.take().expect("its input");
        // It may end without having read all of it.
        let _ = standard_input.write_all(input);
        drop(standard_input);
        child.wait_with_output().expect("the command ends")
    }

    pub fn run(&self, words: &str) -> Output {
        self.run_with(words, &[])
    }

    /// What the command prints, which must be done.
    pub fn done(&self, words: &str) -> String {
        let output = self.run(words);
        assert_eq!(status(&output), 0, "{words}: {}", complaint(&output));
        assert_eq!(complaint(&output), "", "{words}");
        String::from_utf8(output.stdout).expect("text")
    }

    /// The command ends with a status and a complaint that begins so; it prints nothing.
    pub fn fails(&self, words: &str, with: i32, beginning: &str) {
        let output = self.run(words);
        assert_eq!(status(&output), with, "{words}");
        let complaint = complaint(&output);
        assert!(complaint.starts_with(beginning), "{words}: {complaint}");
        assert_eq!(output.stdout, b"", "{words}");
    }

    /// The command is refused, and says it of a part, if one is named.
    pub fn refuses(&self, words: &str, part: &str, refusal: Refusal) {
        let command = words.split(' ').next().expect("a word");
        self.fails(words, 2, &format!("compose {command}: {part}{refusal}\n"));
    }
}

pub fn status(output: &Output) -> i32 {
    output.status.code().expect("an exit status")
}

pub fn complaint(output: &Output) -> String {
    String::from_utf8_lossy(&output.stderr).into_owned()
}
