//! Showing a picture in a terminal.

use super::colour::{Description, Pixel, pixel};
use super::files::{about, say};
use super::options::{MATRIX, Opt, STUDIO};
use super::pictures::Pictures;
use super::terminal::Colours;
use super::words::Words;
use super::{Command, Failure, terminal};
use compose::HeifFrame;

pub const VIEW: Command = Command {
    name: "view",
    takes: "PICTURE",
    options: &[
        Opt {
            name: "--columns",
            value: "N",
            about: "how wide it may be; else COLUMNS, the terminal's width, or 80",
        },
        Opt {
            name: "--colour",
            value: "",
            about: "in colour; this is how it is in a terminal that has colours, unless NO_COLOR is set",
        },
        Opt {
            name: "--plain",
            value: "",
            about: "in shades of text; this is how it is elsewhere",
        },
        Opt {
            about: "what the samples stand for, a matrix number of ITU-T H.273; else what the format of \
                    the file says of them, or 6 (BT.601)",
            ..MATRIX
        },
        STUDIO,
    ],
    about: "shows a picture here",
    more: "\
Shows the picture with two pixels to a character, made smaller where it is too wide and larger where
it is very small. Where it has alpha, a board of two greys shines through. What is shown is for eyes;
`compose convert` writes a picture for other programs.
",
    run,
};

fn run(words: &mut Words) -> Result<(), Failure> {
    let columns = words.number_option("--columns")?.filter(|n| *n > 0);
    let (colour, plain) = (words.flag("--colour"), words.flag("--plain"));
    let file = words.file("PICTURE")?;
    words.end()?;
    let mut pictures = Pictures::take(words)?;
    let record = pictures.read(words, &file)?;
    let frame = HeifFrame::from_record(&record).map_err(|refusal| words.refused(refusal))?;
    let mut screen = Screen::usual();
    screen.columns = columns.unwrap_or(screen.columns);
    if plain {
        screen.colours = Colours::None;
    } else if colour && screen.colours == Colours::None {
        screen.colours = Colours::All;
    }
    let shown = screen.show(&frame, pictures.description());
    say(&format!("{shown}{}\n", about(&frame)))
}

/// Where a picture is shown.
pub struct Screen {
    /// The most characters in a line.
    pub columns: u32,
    pub colours: Colours,
}

/// How wide a screen is where there is no terminal.
const COLUMNS: u32 = 80;

/// Very small pictures are made this wide or high.
const SMALL: u32 = 32;

/// Shades from dark to light.
const SHADES: &[u8; 10] = b" .:-=+*#%@";

impl Screen {
    /// The screen that standard output is.
    pub fn usual() -> Self {
        Self {
            columns: terminal::columns().unwrap_or(COLUMNS),
            colours: Colours::usual(),
        }
    }

    /// The size at which a picture is shown: at most as wide as the screen, and twice as high.
    fn size(&self, frame: &HeifFrame) -> (u32, u32) {
        let (width, height) = (frame.width, frame.height);
        let times = (SMALL / width.max(height)).min(self.columns / width).max(1);
        let (width, height) = (u64::from(width * times), u64::from(height * times));
        let (columns, rows) = (u64::from(self.columns), 2 * u64::from(self.columns));
        // The side that goes furthest beyond, as a fraction.
        let (part, whole) = if width * rows > height * columns {
            (columns, width)
        } else {
            (rows, height)
        };
        if part >= whole {
            return (width as u32, height as u32);
        }
        let smaller = |side: u64| (side * part / whole).max(1) as u32;
        (smaller(width), smaller(height))
    }

    /// The picture as lines of characters, two pixels each.
    pub fn show(&self, frame: &HeifFrame, description: Description) -> String {
        let (columns, rows) = self.size(frame);
        let along =
            |at: u32, of: u32, side: u32| (u64::from(at) * u64::from(side) / u64::from(of)) as u32;
        let shown = |column: u32, row: u32| {
            let x = along(column, columns, frame.width);
            (row < rows).then(|| {
                let y = along(row, rows, frame.height);
                pixel(frame, description, x, y)
            })
        };
        let mut text = String::new();
        for row in (0..rows).step_by(2) {
            for column in 0..columns {
                let (above, below) = (shown(column, row), shown(column, row + 1));
                let above = above.expect("a row that is shown");
                match self.colours {
                    Colours::None => text.push(shade(above, below.unwrap_or(above))),
                    colours => text += &halves(colours, above, below),
                }
            }
            text += match self.colours {
                Colours::None => "\n",
                _ => "\x1b[0m\n",
            };
        }
        text
    }
}

/// A character whose upper half has one colour and whose lower half another, or none.
fn halves(colours: Colours, above: Pixel, below: Option<Pixel>) -> String {
    let below = match below {
        Some(below) => format!("48;{}", code(colours, below)),
        None => "49".into(),
    };
    format!("\x1b[38;{}m\x1b[{below}m▀", code(colours, above))
}

/// A colour as terminals are told it.
fn code(colours: Colours, [red, green, blue]: Pixel) -> String {
    if colours == Colours::All {
        return format!("2;{red};{green};{blue}");
    }
    // The cube's first level is 0, the others lie 40 apart from 95 on.
    let level = |part: u8| u32::from(part.saturating_sub(35) / 40);
    let place = 16 + 36 * level(red) + 6 * level(green) + level(blue);
    format!("5;{place}")
}

/// A character as light as two pixels are together.
fn shade(above: Pixel, below: Pixel) -> char {
    let light: u32 = [above, below].concat().into_iter().map(u32::from).sum();
    let shade = light as usize * SHADES.len() / (6 * 255 + 1);
    char::from(SHADES[shade])
}

#[cfg(test)]
mod tests {
    use super::{Colours, Description, Screen, code, shade};
    use compose::image::{Chroma, HeifFrame, HeifPixelFormat, Plane};

    fn plain(columns: u32) -> Screen {
        Screen {
            columns,
            colours: Colours::None,
        }
    }

    fn row(samples: &[u8]) -> HeifFrame {
        let format = HeifPixelFormat::new(Chroma::Mono, 8, false).expect("a depth");
        let plane = Plane::new(samples.len(), samples.to_vec());
        HeifFrame::new(samples.len() as u32, 1, format, vec![plane])
    }

    #[test]
    fn pictures_fit_the_screen() {
        let size = |columns, samples: &[u8]| plain(columns).size(&row(samples));
        assert_eq!(size(80, &[0; 100]), (80, 1));
        assert_eq!(size(80, &[0; 40]), (40, 1));
        assert_eq!(size(80, &[0; 4]), (32, 8));
        assert_eq!(size(10, &[0; 4]), (8, 2));
        assert_eq!(size(2, &[0; 4]), (2, 1));
        let column = HeifFrame::new(1, 4_096, row(&[0]).format, Vec::new());
        assert_eq!(plain(80).size(&column), (1, 160));
    }

    #[test]
    fn shades_go_from_dark_to_light() {
        assert_eq!(shade([0; 3], [0; 3]), ' ');
        assert_eq!(shade([255; 3], [255; 3]), '@');
        let shown = plain(2).show(&row(&[0, 255]), Description::DEFAULT);
        assert_eq!(shown, " @\n");
    }

    #[test]
    fn colours_are_terminal_codes() {
        let shown = |colours| {
            let screen = Screen {
                columns: 1,
                colours,
            };
            screen.show(&row(&[7]), Description::DEFAULT)
        };
        assert_eq!(shown(Colours::All), "\x1b[38;2;7;7;7m\x1b[49m▀\x1b[0m\n");
        assert_eq!(shown(Colours::Table), "\x1b[38;5;16m\x1b[49m▀\x1b[0m\n");
        assert_eq!(code(Colours::Table, [255, 95, 0]), "5;202");
    }
}
