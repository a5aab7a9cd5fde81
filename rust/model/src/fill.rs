//! Fill colours (document 01, the paragraph Fill; ITU-T H.273).

use crate::oracle::Colour;
use crate::refusal::{self, Refusal};

/// The weights of red and blue that a matrix number stands for.
fn weights(matrix: u16) -> (f64, f64) {
    match matrix {
        1 => (0.2126, 0.0722),
        4 => (0.30, 0.11),
        7 => (0.212, 0.087),
        9 | 10 => (0.2627, 0.0593),
        _ => (0.299, 0.114),
    }
}

/// The nearest whole number, a half away from zero, held to 0 and `top`.
fn whole(value: f64, top: f64) -> u16 {
    if value < 0.0 {
        return 0;
    }
    let below = value.floor();
    let up = f64::from(u8::from(value - below >= 0.5));
    (below + up).min(top) as u16
}

/// A fill's three samples, or 6 for a depth outside 8 to 16.
pub fn fill_samples(
    fill: [u16; 3],
    depth: u32,
    colour: Option<Colour>,
) -> Result<[u16; 3], Refusal> {
    if !(8..=16).contains(&depth) {
        return Err(refusal::DEPTH);
    }
    let Colour { matrix, full_range } = colour.unwrap_or(Colour {
        matrix: 6,
        full_range: true,
    });
    let two_to = |power: u32| f64::from(1u32 << power);
    let top = two_to(depth) - 1.0;
    let [red, green, blue] = fill.map(|channel| f64::from(channel) / 65_535.0);
    if matrix == 0 {
        return Ok([green, blue, red].map(|channel| whole(channel * top, top)));
    }
    let (of_red, of_blue) = weights(matrix);
    let of_green = 1.0 - of_red - of_blue;
    let luma = of_red * red + of_green * green + of_blue * blue;
    let cb = (blue - luma) / (2.0 * (1.0 - of_blue));
    let cr = (red - luma) / (2.0 * (1.0 - of_red));
    let (middle, step) = (two_to(depth - 1), two_to(depth - 8));
    let samples = if full_range {
        [luma * top, cb * top + middle, cr * top + middle]
    } else {
        let luma = (219.0 * luma + 16.0) * step;
        let [cb, cr] = [cb, cr].map(|chroma| (224.0 * chroma + 128.0) * step);
        [luma, cb, cr]
    };
    Ok(samples.map(|sample| whole(sample, top)))
}
