//! How far a command is, on standard error, where that is a terminal and the work takes long.

use std::io::{IsTerminal, Write, stderr};
use std::sync::{Mutex, MutexGuard};
use std::thread;
use std::time::{Duration, Instant};

/// What is being done.
struct Stage {
    command: &'static str,
    what: String,
    since: Instant,
    /// What stands in the terminal's line.
    shown: String,
}

/// How often it is looked whether another second has passed.
const LOOK: Duration = Duration::from_millis(200);

static STAGE: Mutex<Option<Stage>> = Mutex::new(None);

fn stage() -> MutexGuard<'static, Option<Stage>> {
    STAGE
        .lock()
        .unwrap_or_else(|poisoned| poisoned.into_inner())
}

/// From here on a command runs, and says each second what it has been doing for a second or more.
pub fn start(command: &'static str) {
    if !stderr().is_terminal() {
        return;
    }
    *stage() = Some(Stage {
        command,
        what: "working".into(),
        since: Instant::now(),
        shown: String::new(),
    });
    thread::spawn(|| {
        loop {
            thread::sleep(LOOK);
            let mut stage = stage();
            let Some(stage) = stage.as_mut() else { return };
            stage.show();
        }
    });
}

/// The command does something else now.
pub fn now(what: &str) {
    if let Some(stage) = stage().as_mut() {
        stage.what = what.into();
        stage.since = Instant::now();
    }
}

/// The terminal's line is empty again, for what is printed next.
pub fn clear() {
    if let Some(stage) = stage().as_mut() {
        stage.clear();
    }
}

impl Stage {
    fn show(&mut self) {
        let seconds = self.since.elapsed().as_secs();
        if seconds == 0 {
            return;
        }
        let line = format!("compose {}: {}, {seconds} s", self.command, self.what);
        if line != self.shown {
            self.clear();
            put(&line);
            self.shown = line;
        }
    }

    fn clear(&mut self) {
        if !self.shown.is_empty() {
            let blanks = " ".repeat(self.shown.chars().count());
            put(&format!("\r{blanks}\r"));
            self.shown.clear();
        }
    }
}

fn put(text: &str) {
    let mut terminal = stderr().lock();
    // Whoever does not look on need not.
    let _ = terminal.write_all(text.as_bytes());
    let _ = terminal.flush();
}
