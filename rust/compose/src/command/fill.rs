//! Fill colours.

use super::colour::Description;
use super::files::say;
use super::options::{MATRIX, Opt, STUDIO};
use super::words::Words;
use super::{Command, Failure};
use compose::fill;

pub const FILL: Command = Command {
    name: "fill",
    takes: "RED GREEN BLUE",
    options: &[
        Opt {
            name: "--depth",
            value: "N",
            about: "the depth of the samples, 8 where none is given",
        },
        MATRIX,
        STUDIO,
    ],
    about: "the samples of a colour",
    more: "\
RED, GREEN and BLUE go from 0 to 65535. Prints luma, Cb and Cr, or for matrix 0 G, B and R.
  compose fill 65535 0 0             76 85 255
",
    run,
};

fn run(words: &mut Words) -> Result<(), Failure> {
    let depth = words.number_option("--depth")?.unwrap_or(8);
    let description = Description::take(words)?;
    let channels = words.numbers(["RED", "GREEN", "BLUE"])?;
    words.end()?;
    let samples = fill::samples(channels, depth, Some(&description.colr()));
    let [luma, cb, cr] = samples.map_err(|refusal| words.refused(refusal))?;
    say(&format!("{luma} {cb} {cr}\n"))
}
