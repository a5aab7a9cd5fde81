//! The options that several commands take.

use compose::Limits;

/// One option of a command.
pub struct Opt {
    /// As it is written, `-o` or `--force`.
    pub name: &'static str,
    /// What the word behind it is; none where it takes no word.
    pub value: &'static str,
    /// A few words.
    pub about: &'static str,
}

impl Opt {
    /// The option and its word.
    pub fn usage(&self) -> String {
        format!("{} {}", self.name, self.value)
            .trim_end()
            .to_string()
    }
}

pub const GERMAN: Opt = Opt {
    name: "--german",
    value: "",
    about: "says in German why something is refused, as it does where LC_ALL, else LC_MESSAGES, else LANG \
            is a German locale",
};

/// The options of every command.
pub const EVERY: &[Opt] = &[GERMAN];

pub const OUT: Opt = Opt {
    name: "-o",
    value: "OUT",
    about: "the file that is written; - is standard output",
};

pub const FORCE: Opt = Opt {
    name: "--force",
    value: "",
    about: "replaces OUT where it is there already; what is read is never replaced",
};

pub const FORMAT: Opt = Opt {
    name: "--format",
    value: "NAME",
    about: "the format of OUT: record, y4m, pgm, ppm or pam; else its ending tells it, and what ends \
            otherwise is a record",
};

pub const MATRIX: Opt = Opt {
    name: "--matrix",
    value: "N",
    about: "what the samples stand for, a matrix number of ITU-T H.273: 0 is G, B, R planes, 6 (BT.601) \
            is what holds where nothing is said",
};

pub const RGB_MATRIX: Opt = Opt {
    about: "how R, G, B of PPM and PAM files and the samples go together, a matrix number of ITU-T \
            H.273: 0, which holds where nothing is said, is G, B, R planes, exact both ways; 1 is BT.709, \
            6 is BT.601. It must be given where a file of Y, Cb, Cr or halved chroma meets one of R, G, B",
    ..MATRIX
};

pub const MAX_PIXELS: Opt = Opt {
    name: "--max-pixels",
    value: "N",
    about: "the most pixels of a picture that is made, between two properties of a chain, too; 268435456 \
            (2^28) where nothing is said, and never above 2^30",
};

pub const MAX_BYTES: Opt = Opt {
    name: "--max-bytes",
    value: "N",
    about: "the most bytes of memory for what is made: for a record; of a scene, for as many to work in; \
            of another format, for the planes and the file, too; 1073741824 (2^30) where nothing is said",
};

/// What holds where neither of them is given: photographs are smaller.
pub const USUAL_LIMITS: Limits = Limits::new()
    .with_max_pixels(1 << 28)
    .with_max_bytes(1 << 30);

/// The options of every command that makes a picture of one.
pub const PICTURE: &[Opt] = &[
    OUT, FORCE, FORMAT, RGB_MATRIX, STUDIO, MAX_PIXELS, MAX_BYTES,
];

pub const STUDIO: Opt = Opt {
    name: "--studio",
    value: "",
    about: "samples in the range that keeps clear of both ends; else the full range",
};

pub const ESSENTIAL: Opt = Opt {
    name: "--essential",
    value: "",
    about: "the essential properties alone",
};

pub const PREMULTIPLIED: Opt = Opt {
    name: "--premultiplied",
    value: "LIST",
    about: "a 0 or a 1 for each input, as 0,1,0: whether its colour is multiplied by its alpha \
            already; none is where no list is given",
};
