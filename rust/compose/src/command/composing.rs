//! Grids and overlays.

use super::Command;
use super::Failure;
use super::colour::Description;
use super::files::{counted, read, say};
use super::options::{
    ESSENTIAL, FORCE, FORMAT, MATRIX, MAX_BYTES, MAX_PIXELS, OUT, Opt, PICTURE, PREMULTIPLIED,
    STUDIO,
};
use super::parts::Files;
use super::pictures::{Pictures, Target};
use super::words::Words;
use compose::props::Colr;
use compose::scene::{Point, Scene, Shows};
use compose::{Result as Answer, composite, point, scene, tray};

/// What `--matrix` says of an overlay.
const FILL_MATRIX: Opt = Opt {
    about: "what the samples stand for, a matrix number of ITU-T H.273: for the canvas's fill, 6 where \
            nothing is said; and for R, G, B of PPM and PAM files, where it must be given",
    ..MATRIX
};

pub const GRID: Command = Command {
    name: "grid",
    takes: "BODY TRAY",
    options: PICTURE,
    about: "tiles joined to one picture",
    more: "\
BODY is a grid's descriptor body (`compose body grid` makes one), TRAY holds its tiles row by row. What
lies beyond the canvas is cut.
  compose grid field.body tiles.tray -o field.rec
",
    run: run_grid,
};

pub const OVERLAY: Command = Command {
    name: "overlay",
    takes: "BODY TRAY",
    options: &[
        OUT,
        FORCE,
        FORMAT,
        PREMULTIPLIED,
        FILL_MATRIX,
        STUDIO,
        MAX_PIXELS,
        MAX_BYTES,
    ],
    about: "pictures laid over a canvas",
    more: "\
BODY is an overlay's descriptor body (`compose body overlay` makes one), TRAY holds its inputs, the
last on top.
  compose overlay marks.body marks.tray -o marks.rec
",
    run: run_overlay,
};

pub const SCENE: Command = Command {
    name: "scene",
    takes: "grid|overlay BODY TRAY CHAIN",
    options: &[
        OUT,
        FORCE,
        FORMAT,
        ESSENTIAL,
        PREMULTIPLIED,
        FILL_MATRIX,
        STUDIO,
        MAX_PIXELS,
        MAX_BYTES,
    ],
    about: "composed, then changed by a chain",
    more: "\
As `compose grid` or `compose overlay`, then the properties of CHAIN in turn (`compose entries` makes
one), in one call. A few bytes can ask for a very large picture: --max-pixels and --max-bytes say what
may be made, and what asks for more is refused (4) before any memory is taken. It says how much each
clap took on each side.
  compose scene grid field.body tiles.tray turn.chain -o turned.rec
",
    run: run_scene,
};

pub const POINT: Command = Command {
    name: "point",
    takes: "grid|overlay BODY TRAY CHAIN X Y",
    options: &[ESSENTIAL, PREMULTIPLIED, FILL_MATRIX, STUDIO],
    about: "what a place of a scene shows",
    more: "\
X and Y are a place of the final picture, from 0. Prints the tile or input that it shows, also
from 0, with the column and the row there, or fill; then the part of the composed picture that the
chain leaves, and how that is turned. It takes no input with alpha in an overlay, and no iscl (18). What
the samples stand for has no effect: the options are there so that they can be those of the scene.
  compose point grid field.body tiles.tray turn.chain 0 0
",
    run: run_point,
};

/// More inputs than an overlay may have.
const MANY: u32 = 65_537;

/// A premultiplied list from a word such as 0,1,0.
fn list_of(words: &Words, word: &str) -> Result<Vec<u8>, Failure> {
    let byte = |part: &str| match part {
        "0" => Ok(0),
        "1" => Ok(1),
        _ => Err(words.wrong(format!("LIST is a 0 or a 1 for each input, not {word}"))),
    };
    let parts = word.split(',').filter(|part| !part.is_empty());
    parts.map(byte).collect()
}

/// The files and options of a call on several pictures, read.
struct Read {
    files: Files,
    overlay: bool,
    body: Vec<u8>,
    tray: Vec<u8>,
    chain: Vec<u8>,
    essential_only: bool,
    list: Vec<u8>,
    colr: Option<Colr>,
}

impl Read {
    /// Takes the options and the files; `more` takes what follows, and only then are files read.
    /// Where it is not said whether it is an overlay, the first word says it, and a chain follows.
    fn take<T>(
        words: &mut Words,
        overlay: Option<bool>,
        more: impl FnOnce(&mut Words) -> Result<T, Failure>,
    ) -> Result<(Self, T), Failure> {
        let given = words.option(PREMULTIPLIED.name);
        let given = given.map(|word| list_of(words, word)).transpose()?;
        let colr = Description::given(words)?.map(Description::colr);
        let sort = overlay.map_or_else(|| sort(words), Ok)?;
        let [body, tray] = words.files(["BODY", "TRAY"])?;
        let chain = match overlay {
            Some(_) => None,
            None => Some(words.file("CHAIN")?),
        };
        let more = more(words)?;
        let read = Self {
            overlay: sort,
            body: read(&body)?,
            tray: read(&tray)?,
            // No entries, where there is no chain.
            chain: chain.as_ref().map_or(Ok(vec![0]), |chain| read(chain))?,
            essential_only: words.flag(ESSENTIAL.name),
            list: given.unwrap_or_default(),
            colr,
            files: Files { body, tray, chain },
        };
        Ok((read.with_list(words), more))
    }

    /// Where no list was given, a 0 for each record that the tray says it has.
    fn with_list(mut self, words: &Words) -> Self {
        if !words.flag(PREMULTIPLIED.name) {
            let count = tray::announced(&self.tray).unwrap_or(0).min(MANY);
            self.list = vec![0; count as usize];
        }
        self
    }

    fn scene(&self) -> Scene<'_> {
        let (body, tray, chain) = (&self.body, &self.tray, &self.chain);
        let scene = match self.overlay {
            true => Scene::overlay(body, tray, chain, &self.list, self.colr.as_ref()),
            false => Scene::grid(body, tray, chain),
        };
        scene.with_essential_only(self.essential_only)
    }

    /// What a call answered, or the file that it refused.
    fn answer<T>(&self, words: &Words, answer: Answer<T>) -> Result<T, Failure> {
        answer.map_err(|refusal| {
            let part = self.files.refused(&self.scene(), refusal);
            words.refused_part(part, refusal)
        })
    }
}

/// The first word: whether it is an overlay.
fn sort(words: &mut Words) -> Result<bool, Failure> {
    match words.next("grid or overlay")?.as_str() {
        "grid" => Ok(false),
        "overlay" => Ok(true),
        sort => Err(words.wrong(format!("it takes grid or overlay, not {sort}"))),
    }
}

/// A call that makes a picture of what is read.
fn compose(
    words: &mut Words,
    overlay: Option<bool>,
    call: impl Fn(&Read) -> Answer<Vec<u8>>,
) -> Result<(), Failure> {
    let (read, target) = Read::take(words, overlay, |words| Target::take(words))?;
    let pictures = Pictures::take(words)?;
    let pictures = match read.overlay {
        true => pictures.with_fill(),
        false => pictures,
    };
    let made = read.answer(words, call(&read))?;
    pictures.write(words, &target, &made)?;
    target.out.say_of_it(&read.files.taken(&read.scene()))
}

fn run_grid(words: &mut Words) -> Result<(), Failure> {
    compose(words, Some(false), |read| {
        composite::grid(&read.body, &read.tray)
    })
}

fn run_overlay(words: &mut Words) -> Result<(), Failure> {
    compose(words, Some(true), |read| {
        composite::overlay(&read.body, &read.tray, &read.list, read.colr.as_ref())
    })
}

fn run_scene(words: &mut Words) -> Result<(), Failure> {
    compose(words, None, |read| scene(&read.scene()))
}

fn run_point(words: &mut Words) -> Result<(), Failure> {
    let (read, place) = Read::take(words, None, |words| {
        let place: [u32; 2] = words.numbers(["X", "Y"])?;
        words.end().map(|()| place)
    })?;
    let answer = point(&read.scene(), place[0], place[1]);
    say(&about(&read.answer(words, answer)?))
}

/// An answer in two lines.
fn about(point: &Point) -> String {
    let shows = match point.shows {
        Shows::Fill => "fill".into(),
        Shows::Input { index, x, y } => format!("input {index} at {x} {y}"),
    };
    let part = point.rectangle;
    let exchanged = if point.exchanged {
        ", left and right exchanged"
    } else {
        ""
    };
    let turns = counted(usize::from(point.turns), "quarter turn");
    format!(
        "{shows}\nfrom {} {}, {} × {}{exchanged}, {turns}\n",
        part.x, part.y, part.width, part.height
    )
}
