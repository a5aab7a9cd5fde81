//! Operations on one picture (document 01, the paragraphs clap, irot, imir, iscl and "Other
//! operations"; document 02, A1, for a crop's margins), worked out sample by sample.

use crate::chain::{Clap, Iscl};
use crate::oracle::Rectangle;
use crate::record::{Chroma, Frame, MAX_PIXELS, hold_size};
use crate::refusal::{self, Refusal};
use crate::steps::Size;

/// What a crop takes on each side of its rectangle, in pixels of the picture.
#[derive(Clone, Copy, Debug, PartialEq, Eq)]
pub struct Margins {
    pub left: u32,
    pub top: u32,
    pub right: u32,
    pub bottom: u32,
}

/// A rectangle of a picture, and the margins about it.
#[derive(Clone, Copy, Debug, PartialEq, Eq)]
pub struct Crop {
    pub rectangle: Rectangle,
    pub margins: Margins,
}

impl Crop {
    /// A rectangle with its margins in a picture of the given size. Where it passes the far edge no
    /// margin is right, and 0 stands there.
    pub fn of(rectangle: Rectangle, (width, height): Size) -> Self {
        let far = |side: u32, start: u32, size: u32| {
            let rest = i64::from(side) - i64::from(start) - i64::from(size);
            rest.max(0) as u32
        };
        Self {
            rectangle,
            margins: Margins {
                left: rectangle.x,
                top: rectangle.y,
                right: far(width, rectangle.x, rectangle.width),
                bottom: far(height, rectangle.y, rectangle.height),
            },
        }
    }

    /// A crop of its eight fields: x, y, width, height, left, top, right, bottom.
    pub fn from_fields([x, y, width, height, left, top, right, bottom]: [u32; 8]) -> Self {
        Self {
            rectangle: Rectangle {
                x,
                y,
                width,
                height,
            },
            margins: Margins {
                left,
                top,
                right,
                bottom,
            },
        }
    }

    pub fn fields(&self) -> [u32; 8] {
        let Self { rectangle, margins } = self;
        [
            rectangle.x,
            rectangle.y,
            rectangle.width,
            rectangle.height,
            margins.left,
            margins.top,
            margins.right,
            margins.bottom,
        ]
    }

    /// Whether rectangle and margins are those of a crop of a picture of the given size.
    fn fits(&self, (width, height): Size) -> bool {
        let [x, y, across, down, left, top, right, bottom] = self.fields().map(u64::from);
        let sides = [u64::from(width), u64::from(height)];
        across.min(down) > 0
            && [left, top] == [x, y]
            && [left + across + right, top + down + bottom] == sides
    }
}

/// An operation on one record.
#[derive(Clone, Copy, Debug, PartialEq, Eq)]
pub enum Operation {
    Crop(Crop),
    Clap(Clap),
    /// An angle.
    Irot(u8),
    /// An axis.
    Imir(u8),
    Iscl(Iscl),
    /// `resize_nearest`: width and height.
    Nearest(u32, u32),
    /// `rescale_depth`: the new depth.
    Depth(u32),
}

impl Operation {
    /// The picture that the operation makes of `frame`, or its own refusal.
    pub fn apply(&self, frame: &Frame) -> Result<Frame, Refusal> {
        match *self {
            Self::Crop(to) => crop(frame, to),
            Self::Clap(clap) => crop(frame, clap.resolve(frame.width, frame.height)?),
            Self::Irot(angle) => Ok(turn(frame, angle % 4)),
            Self::Imir(axis) => Ok(mirror(frame, axis % 2)),
            Self::Iscl(iscl) => scale(frame, iscl),
            Self::Nearest(width, height) => nearest(frame, (width, height)),
            Self::Depth(depth) => rescale(frame, depth),
        }
    }
}

/// The longest side that a changing iscl admits.
const MAX_SCALED_SIDE: u32 = 1 << 26;

/// The tight frame of a form, each sample worked out from its plane, column and row.
pub(crate) fn tabulate(mut form: Frame, sample: impl Fn(&Frame, usize, u32, u32) -> u16) -> Frame {
    let (size, chroma) = ((form.width, form.height), form.chroma);
    form.planes.clear();
    let planes: Vec<Vec<u16>> = (0..form.plane_count())
        .map(|plane| {
            let (columns, rows) = form.plane_size(plane);
            let places = (0..rows).flat_map(|y| (0..columns).map(move |x| (x, y)));
            places.map(|(x, y)| sample(&form, plane, x, y)).collect()
        })
        .collect();
    let planes: Vec<&[u16]> = planes.iter().map(Vec::as_slice).collect();
    Frame::tight(size, chroma, form.depth, form.alpha, &planes)
}

/// A picture of another size whose place (x, y) shows the place `shows(x, y)` of `frame`. Each
/// sample is the one that covers, in `frame`, what the sample's first place shows.
fn drawn(
    frame: &Frame,
    size: (u32, u32),
    promoted: bool,
    shows: impl Fn(u32, u32) -> (u32, u32),
) -> Frame {
    let chroma = if promoted {
        Chroma::Yuv444
    } else {
        frame.chroma
    };
    let form = Frame::empty(size, chroma, frame.depth, frame.alpha);
    tabulate(form, |form, plane, x, y| {
        let (across, down) = form.plane_halved(plane);
        let (x, y) = shows(x << u32::from(across), y << u32::from(down));
        let (across, down) = frame.plane_halved(plane);
        let (x, y) = (x >> u32::from(across), y >> u32::from(down));
        frame.sample(plane, x as usize, y as usize)
    })
}

impl Frame {
    /// The same picture, each plane's stride the bytes of a row, and no spare data.
    pub fn tightened(&self) -> Frame {
        drawn(self, (self.width, self.height), false, |x, y| (x, y))
    }
}

/// Whether an odd number falls on a halved axis.
pub(crate) fn promotes(frame: &Frame, across: &[u32], down: &[u32]) -> bool {
    let odd = |numbers: &[u32]| numbers.iter().any(|number| number % 2 == 1);
    let halved = frame.chroma.halved();
    halved.0 && odd(across) || halved.1 && odd(down)
}

fn crop(frame: &Frame, to: Crop) -> Result<Frame, Refusal> {
    if !to.fits((frame.width, frame.height)) {
        return Err(refusal::OUTSIDE);
    }
    let to = to.rectangle;
    let promoted = promotes(frame, &[to.x, to.width], &[to.y, to.height]);
    let size = (to.width, to.height);
    Ok(drawn(frame, size, promoted, |x, y| (to.x + x, to.y + y)))
}

impl Clap {
    /// The rectangle that stays of a picture, and its margins; the width axis is judged wholly before
    /// the height.
    pub fn resolve(&self, width: u32, height: u32) -> Result<Crop, Refusal> {
        let rectangle = self.stays(width, height)?;
        Ok(Crop::of(rectangle, (width, height)))
    }

    fn stays(&self, width: u32, height: u32) -> Result<Rectangle, Refusal> {
        let axis = |[n, d, off_d]: [u32; 3], off_n: i32, input: u32| {
            if d == 0 || off_d == 0 {
                return Err(refusal::ZERO_DENOMINATOR);
            }
            if n % d != 0 {
                return Err(refusal::NOT_WHOLE);
            }
            let size = n / d;
            if size == 0 || size > input {
                return Err(refusal::OUTSIDE);
            }
            let above = i128::from(input - size) * i128::from(off_d) + 2 * i128::from(off_n);
            let below = 2 * i128::from(off_d);
            if above.rem_euclid(below) != 0 {
                return Err(refusal::NOT_WHOLE);
            }
            match u32::try_from(above.div_euclid(below)) {
                Ok(edge) if edge <= input - size => Ok((edge, size)),
                _ => Err(refusal::OUTSIDE),
            }
        };
        let across = [self.width_n, self.width_d, self.horizontal_d];
        let (x, width) = axis(across, self.horizontal_n, width)?;
        let down = [self.height_n, self.height_d, self.vertical_d];
        let (y, height) = axis(down, self.vertical_n, height)?;
        Ok(Rectangle {
            x,
            y,
            width,
            height,
        })
    }
}

/// 0 to 3 quarter turns anticlockwise: the right side comes to the top.
fn turn(frame: &Frame, quarters: u8) -> Frame {
    let (width, height) = (frame.width, frame.height);
    let quarter = quarters % 2 == 1 && frame.chroma == Chroma::Yuv422;
    let promoted = quarter || promotes(frame, &[width], &[height]);
    let (right, bottom) = (width - 1, height - 1);
    match quarters {
        0 => frame.clone(),
        1 => drawn(frame, (height, width), promoted, |x, y| (right - y, x)),
        2 => drawn(frame, (width, height), promoted, |x, y| {
            (right - x, bottom - y)
        }),
        _ => drawn(frame, (height, width), promoted, |x, y| (y, bottom - x)),
    }
}

/// Axis 0 exchanges top and bottom, 1 left and right. Never promotes.
fn mirror(frame: &Frame, axis: u8) -> Frame {
    let (width, height) = (frame.width, frame.height);
    drawn(frame, (width, height), false, |x, y| match axis {
        0 => (x, height - 1 - y),
        _ => (width - 1 - x, y),
    })
}

impl Iscl {
    /// The size after scaling a picture: 7 any zero, 10 a side above 2^32 − 1, and only where the
    /// size changes 4 above L or where a side before or after exceeds 2^26.
    pub fn output_size(&self, width: u32, height: u32) -> Result<(u32, u32), Refusal> {
        if self.fields().contains(&0) {
            return Err(refusal::ZERO_DENOMINATOR);
        }
        let side = |side: u32, n: u16, d: u16| {
            let scaled = (u64::from(side) * u64::from(n)).div_ceil(u64::from(d));
            u32::try_from(scaled).map_err(|_| refusal::SIDE_OVERFLOW)
        };
        let after = (
            side(width, self.width_n, self.width_d)?,
            side(height, self.height_n, self.height_d)?,
        );
        let sides = [width, height, after.0, after.1];
        let above = u64::from(after.0) * u64::from(after.1) > MAX_PIXELS
            || sides.iter().any(|side| *side > MAX_SCALED_SIDE);
        if after != (width, height) && above {
            return Err(refusal::LIMIT);
        }
        Ok(after)
    }
}

fn scale(frame: &Frame, iscl: Iscl) -> Result<Frame, Refusal> {
    let (width, height) = iscl.output_size(frame.width, frame.height)?;
    if (width, height) == (frame.width, frame.height) {
        return Ok(frame.clone());
    }
    Ok(area(frame, (width, height)))
}

/// Along one axis: the samples that each sample of `to` is made of, with their weights in 256ths.
fn weights(from: u32, to: u32) -> Vec<Vec<(usize, u64)>> {
    let (source, target) = (u64::from(from), u64::from(to));
    let last = source - 1;
    let of = |at: u64| {
        if source == target {
            return vec![(at, 256)];
        }
        if source < target {
            // Between the two nearest centres.
            let place = ((2 * at + 1) * source * 256 / (2 * target)).saturating_sub(128);
            let (left, part) = ((place / 256).min(last), place % 256);
            return vec![(left, 256 - part), ((left + 1).min(last), part)];
        }
        // What the span from `start` to `end` has of each sample.
        let (start, end) = (at * source * 256 / target, (at + 1) * source * 256 / target);
        (start / 256..end.div_ceil(256))
            .map(|part| (part, end.min((part + 1) * 256) - start.max(part * 256)))
            .collect()
    };
    let of = |at| {
        of(at)
            .into_iter()
            .map(|(part, weight)| (part as usize, weight))
    };
    (0..target).map(|at| of(at).collect()).collect()
}

/// `resize_area`, half up.
fn area(frame: &Frame, size: (u32, u32)) -> Frame {
    let form = Frame::empty(size, frame.chroma, frame.depth, frame.alpha);
    let weights = |plane| {
        let (from, to) = (frame.plane_size(plane), form.plane_size(plane));
        (weights(from.0, to.0), weights(from.1, to.1))
    };
    let weights: Vec<_> = (0..form.plane_count()).map(weights).collect();
    tabulate(form, |_, plane, x, y| {
        let (across, down) = &weights[plane];
        let (mut sum, mut whole) = (0, 0);
        for (y, down) in &down[y as usize] {
            for (x, across) in &across[x as usize] {
                sum += u64::from(frame.sample(plane, *x, *y)) * down * across;
                whole += down * across;
            }
        }
        ((sum + whole / 2) / whole) as u16
    })
}

fn nearest(frame: &Frame, (width, height): (u32, u32)) -> Result<Frame, Refusal> {
    if (width, height) == (frame.width, frame.height) {
        return Ok(frame.clone());
    }
    hold_size((width, height))?;
    let form = Frame::empty((width, height), frame.chroma, frame.depth, frame.alpha);
    Ok(tabulate(form, |form, plane, x, y| {
        let (from, to) = (frame.plane_size(plane), form.plane_size(plane));
        let along = |at: u32, from: u32, to: u32| u64::from(at) * u64::from(from) / u64::from(to);
        let (x, y) = (along(x, from.0, to.0), along(y, from.1, to.1));
        frame.sample(plane, x as usize, y as usize)
    }))
}

fn rescale(frame: &Frame, depth: u32) -> Result<Frame, Refusal> {
    if !(8..=16).contains(&depth) {
        return Err(refusal::DEPTH);
    }
    if depth == u32::from(frame.depth) {
        return Ok(frame.clone());
    }
    let size = (frame.width, frame.height);
    let form = Frame::empty(size, frame.chroma, depth as u8, frame.alpha);
    let (old, new) = (u64::from(frame.top()), u64::from(form.top()));
    Ok(tabulate(form, |_, plane, x, y| {
        let sample = u64::from(frame.sample(plane, x as usize, y as usize));
        ((sample * new + old / 2) / old).min(new) as u16
    }))
}
