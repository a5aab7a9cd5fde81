//! Seeded inputs: frames, scenes, chains and descriptors, valid and at the borders.
//! `damage.rs` breaks them.

use crate::rng::Rng;
use model::{
    Chroma, Clap, Colour, Entry, Frame, Grid, Iscl, Overlay, OverlayInput, Plane, Property, Size,
};

/// A frame's chroma, depth and alpha number.
#[derive(Clone, Copy, Debug, PartialEq, Eq)]
pub struct Form {
    pub chroma: Chroma,
    pub depth: u8,
    pub alpha: u8,
}

pub fn form(rng: &mut Rng) -> Form {
    Form {
        chroma: rng.pick(&Chroma::ALL),
        depth: rng.pick(&[8, 8, 8, 9, 10, 11, 12, 13, 14, 15, 16]),
        alpha: rng.number(0..=1) as u8,
    }
}

/// A number at the edge of some count of bits, small, or any of 32 bits.
pub fn border(rng: &mut Rng) -> u32 {
    match rng.below(8) {
        0 | 1 => rng.number(0..=20),
        2 => rng.word() as u32,
        3 => rng.word() as u32 >> rng.below(32),
        _ => {
            let power = 1i64 << rng.pick(&[0, 8, 15, 16, 26, 30, 31, 32, 32]);
            (power + rng.within(-2..=2)).clamp(0, i64::from(u32::MAX)) as u32
        }
    }
}

/// A side: small as a rule, now and then where a row or a size needs a longer house number.
pub fn side(rng: &mut Rng) -> u32 {
    match rng.below(24) {
        0 => rng.number(9..=20),
        1 => rng.pick(&[63, 64, 65, 127, 128, 129]),
        _ => rng.number(1..=8),
    }
}

/// A size; once in a while a strip whose data length needs three bytes.
pub fn size(rng: &mut Rng) -> (u32, u32) {
    if rng.once_in(200) {
        let long = rng.pick(&[8_191, 8_192, 16_383, 16_384]);
        return if rng.flag() { (long, 1) } else { (1, long) };
    }
    (side(rng), side(rng))
}

/// The sample values that a plane holds.
#[derive(Clone, Copy, Debug, PartialEq, Eq)]
enum Values {
    Zero,
    Top,
    /// 0 or top.
    Extremes,
    /// From 0 to top.
    Within,
    /// Any that the bytes can hold, above top too.
    Any,
}

fn sample(rng: &mut Rng, values: Values, top: u16) -> u16 {
    match values {
        Values::Zero => 0,
        Values::Top => top,
        Values::Extremes => rng.pick(&[0, top]),
        Values::Within => (rng.word() % (u64::from(top) + 1)) as u16,
        Values::Any => rng.word() as u16,
    }
}

/// One plane of `frame`: rows at a stride that may exceed them by any number of bytes, padding of
/// any value, and spare bytes after the last row.
fn plane(rng: &mut Rng, frame: &Frame, index: usize, values: Values) -> Plane {
    let row = frame.row_bytes(index);
    let (width, height) = frame.plane_size(index);
    let stride = row + rng.pick(&[0, 0, 1, 2, 3, 5]);
    let spare = rng.pick(&[0, 0, 0, 1, 2, 7, stride]);
    let mut data = rng.bytes(frame.data_needed(index, stride) + spare);
    for y in 0..height as usize {
        for x in 0..width as usize {
            let value = sample(rng, values, frame.top()).to_le_bytes();
            let at = y * stride + x * frame.sample_bytes();
            data[at..at + frame.sample_bytes()].copy_from_slice(&value[..frame.sample_bytes()]);
        }
    }
    Plane { stride, data }
}

/// A frame of the given size and form. Colour samples may lie above top; alpha samples only where
/// `wild_alpha` says so.
pub fn frame_of(rng: &mut Rng, size: (u32, u32), form: Form, wild_alpha: bool) -> Frame {
    let mut frame = Frame::empty(size, form.chroma, form.depth, form.alpha);
    let tame = [
        Values::Zero,
        Values::Top,
        Values::Extremes,
        Values::Within,
        Values::Within,
    ];
    for index in 0..frame.plane_count() {
        let of_alpha = index == form.chroma.colour_planes();
        let values = if rng.once_in(3) && (wild_alpha || !of_alpha) {
            Values::Any
        } else {
            rng.pick(&tame)
        };
        let made = plane(rng, &frame, index, values);
        frame.planes.push(made);
    }
    frame
}

/// A tight frame of the given size and form, every sample from 0 to top.
pub fn even(rng: &mut Rng, size: (u32, u32), form: Form) -> Frame {
    let mut frame = Frame::empty(size, form.chroma, form.depth, form.alpha);
    for index in 0..frame.plane_count() {
        let (width, height) = frame.plane_size(index);
        let count = width as usize * height as usize;
        let bytes = frame.sample_bytes();
        let mut data = Vec::with_capacity(count * bytes);
        for _ in 0..count {
            let value = sample(rng, Values::Within, frame.top()).to_le_bytes();
            data.extend_from_slice(&value[..bytes]);
        }
        let stride = frame.row_bytes(index);
        frame.planes.push(Plane { stride, data });
    }
    frame
}

/// A valid frame of any form.
pub fn frame(rng: &mut Rng) -> Frame {
    let size = size(rng);
    let form = form(rng);
    frame_of(rng, size, form, true)
}

/// A grid with its tiles. As a rule it composes; now and then the tiles do not cover it, or one of
/// them has another size, chroma or depth.
pub fn grid_scene(rng: &mut Rng) -> (Grid, Vec<Frame>) {
    let tile = (rng.number(1..=8), rng.number(1..=8));
    let form = form(rng);
    let (rows, columns) = (rng.number(1..=4), rng.number(1..=4));
    let canvas_side = |rng: &mut Rng, covered: u32| match rng.below(12) {
        0 => covered + 1,
        1..=4 => covered,
        _ => rng.number(1..=covered),
    };
    let grid = Grid {
        rows: rows as u16,
        columns: columns as u16,
        width: canvas_side(rng, tile.0 * columns),
        height: canvas_side(rng, tile.1 * rows),
    };
    let odd_one = rng.once_in(6).then(|| rng.below(grid.cells()));
    let tiles = (0..grid.cells())
        .map(|cell| {
            let mut tile = tile;
            let mut form = Form {
                alpha: form.alpha * rng.number(0..=1) as u8,
                ..form
            };
            if odd_one == Some(cell) {
                match rng.below(3) {
                    0 if rng.flag() => tile.0 += 1,
                    0 => tile.1 += 1,
                    1 => form.chroma = rng.pick(&Chroma::ALL),
                    _ => form.depth = rng.number(8..=16) as u8,
                }
            }
            frame_of(rng, tile, form, true)
        })
        .collect();
    (grid, tiles)
}

/// The numbers below `count` in any order.
pub fn shuffled(rng: &mut Rng, count: usize) -> Vec<usize> {
    let mut order: Vec<usize> = (0..count).collect();
    for at in (1..count).rev() {
        order.swap(at, rng.below(at + 1));
    }
    order
}

/// One channel of a fill.
fn channel(rng: &mut Rng) -> u16 {
    match rng.below(5) {
        0 => 0,
        1 => 65_535,
        2 => rng.pick(&[1, 127, 128, 129, 32_767, 32_768, 65_406, 65_407, 65_534]),
        _ => rng.word() as u16,
    }
}

pub fn fill(rng: &mut Rng) -> [u16; 3] {
    [channel(rng), channel(rng), channel(rng)]
}

/// No description, a matrix that document 01 lists, or any other.
pub fn colour(rng: &mut Rng) -> Option<Colour> {
    let matrix = match rng.below(8) {
        0 | 1 => return None,
        2 => rng.word() as u16,
        _ => rng.number(0..=12) as u16,
    };
    Some(Colour {
        matrix,
        full_range: rng.flag(),
    })
}

/// An overlay with its inputs: offsets of both signs and parities, inputs on, across and off the
/// canvas, alpha on some, now and then another depth, chroma or an alpha sample above top.
pub fn overlay_scene(rng: &mut Rng) -> (Overlay, Vec<OverlayInput>) {
    let (width, height) = (rng.number(1..=12), rng.number(1..=12));
    let base = form(rng);
    let even = rng.flag();
    let evened = |number: i64| if even { number & !1 } else { number };
    let mut overlay = Overlay {
        fill: [channel(rng), channel(rng), channel(rng), channel(rng)],
        width: evened(i64::from(width) + 1) as u32,
        height: evened(i64::from(height) + 1) as u32,
        offsets: Vec::new(),
    };
    let mixed = rng.once_in(4);
    let mut inputs = Vec::new();
    for _ in 0..rng.pick(&[0, 1, 1, 2, 2, 3, 3, 4, 5]) {
        let side = |rng: &mut Rng| evened(i64::from(rng.number(2..=9))) as u32;
        let size = (side(rng), side(rng));
        let mut form = Form {
            alpha: base.alpha * rng.number(0..=1) as u8,
            ..base
        };
        if mixed {
            form.chroma = rng.pick(&Chroma::ALL);
        }
        if rng.once_in(40) {
            form.depth = rng.number(8..=16) as u8;
        }
        let wild = rng.once_in(40);
        let frame = frame_of(rng, size, form, wild);
        let offset = |rng: &mut Rng, input: u32, canvas: u32| match rng.below(16) {
            0 => rng.pick(&[
                i32::MIN,
                i32::MIN + 1,
                -32_768,
                32_767,
                i32::MAX - 1,
                i32::MAX,
            ]),
            _ => evened(rng.within(-i64::from(input) - 1..=i64::from(canvas) + 1)) as i32,
        };
        overlay.offsets.push((
            offset(rng, size.0, overlay.width),
            offset(rng, size.1, overlay.height),
        ));
        inputs.push(OverlayInput {
            frame,
            premultiplied: rng.flag(),
        });
    }
    (overlay, inputs)
}

/// Numerator and denominators of one clap axis that keep `size` pixels from `edge` on.
fn aperture(rng: &mut Rng, input: u32, size: u32, edge: u32) -> (u32, u32, i32, u32) {
    let scale = rng.number(1..=3);
    let twice = 2 * edge as i32 - (input - size) as i32;
    let times = rng.number(1..=3);
    let (off_n, off_d) = if twice % 2 == 0 && rng.flag() {
        (twice / 2, times)
    } else {
        (twice, 2 * times)
    };
    (size * scale, scale, off_n * times as i32, off_d)
}

/// A clap of a picture of the given size; once in six any of its fields is off.
pub fn clap(rng: &mut Rng, (width, height): (u32, u32)) -> Clap {
    let axis = |rng: &mut Rng, input: u32| {
        let size = if rng.flag() {
            rng.number(1..=input)
        } else {
            input - input / 4
        };
        let edge = rng.number(0..=input - size);
        aperture(rng, input, size, edge)
    };
    let (width_n, width_d, horizontal_n, horizontal_d) = axis(rng, width);
    let (height_n, height_d, vertical_n, vertical_d) = axis(rng, height);
    let clap = Clap {
        width_n,
        width_d,
        height_n,
        height_d,
        horizontal_n,
        horizontal_d,
        vertical_n,
        vertical_d,
    };
    let mut fields = clap.fields();
    if rng.once_in(6) {
        let field = &mut fields[rng.below(8)];
        *field = match rng.below(6) {
            0 => 0,
            1 => u32::MAX,
            2 => rng.pick(&[0x7fff_ffff, 0x8000_0000, 0x8000_0001]),
            3 => rng.number(0..=20),
            4 => field.wrapping_sub(1),
            _ => field.wrapping_add(1),
        };
    }
    Clap::from_fields(fields)
}

/// One axis of an aperture in an input of any side: n, d, offset n as its pattern, offset d. Of
/// four, three keep some whole pixels; the fourth, or one that cannot, is of any numbers.
fn wide_aperture(rng: &mut Rng, input: u32) -> [u32; 4] {
    if input == 0 || rng.once_in(4) {
        let below = |rng: &mut Rng| if rng.flag() { 1 } else { border(rng) };
        return [border(rng), below(rng), border(rng), below(rng)];
    }
    let size = match rng.below(3) {
        0 => input,
        1 => rng.number(1..=input),
        _ => border(rng).clamp(1, input),
    };
    let scale = border(rng).clamp(1, u32::MAX / size);
    let gap = i64::from(input - size);
    // Twice the offset of an edge that lies within 2^30 of the middle.
    let edge = (gap / 2 + rng.within(-(1 << 30) + 1..=(1 << 30) - 1)).clamp(0, gap);
    let twice = 2 * edge - gap;
    let most = match twice {
        0 => (1 << 31) - 1,
        _ => i64::from(i32::MAX) / twice.abs(),
    };
    let times = i64::from(border(rng)).clamp(1, most);
    [
        size * scale,
        scale,
        (twice * times) as i32 as u32,
        2 * times as u32,
    ]
}

/// An aperture of an input of any size; once in four one of its fields is another.
pub fn wide_clap(rng: &mut Rng, (width, height): Size) -> Clap {
    let [width_n, width_d, x_n, x_d] = wide_aperture(rng, width);
    let [height_n, height_d, y_n, y_d] = wide_aperture(rng, height);
    let mut fields = [width_n, width_d, height_n, height_d, x_n, x_d, y_n, y_d];
    if rng.once_in(4) {
        let field = &mut fields[rng.below(8)];
        *field = match rng.below(4) {
            0 => 0,
            1 => field.wrapping_sub(1),
            2 => field.wrapping_add(1),
            _ => border(rng),
        };
    }
    Clap::from_fields(fields)
}

/// An iscl of any fields: small ratios, equal terms, and terms at the ends of 16 bits.
pub fn wide_iscl(rng: &mut Rng) -> Iscl {
    let ratio = |rng: &mut Rng| match rng.below(4) {
        0 => [rng.number(1..=9), rng.number(1..=9)],
        1 => [rng.number(1..=65_535); 2],
        _ => [border(rng) % 65_536, border(rng) % 65_536],
    };
    let ([width_n, width_d], [height_n, height_d]) = (ratio(rng), ratio(rng));
    Iscl::from_fields([width_n, width_d, height_n, height_d].map(|term| term as u16))
}

/// A picture's size of any area; now and then above the limit, or of a side 0.
pub fn wide_size(rng: &mut Rng) -> Size {
    match rng.below(6) {
        0 => (border(rng), border(rng)),
        1 | 2 => (side(rng), side(rng)),
        _ => {
            let width = border(rng).clamp(1, 1 << 30);
            // The longest that the limit leaves, or less.
            let most = (1 << 30) / width;
            let height = if rng.flag() {
                most
            } else {
                border(rng).clamp(1, most)
            };
            if rng.flag() {
                (width, height)
            } else {
                (height, width)
            }
        }
    }
}

/// A chain of any length for a picture of any size; its entries follow the size as it changes.
pub fn wide_chain(rng: &mut Rng, size: Size) -> Vec<Entry> {
    let mut size = size;
    let count = match rng.below(40) {
        0 => rng.pick(&[255, 256, 257]),
        1 => rng.number(9..=40),
        _ => rng.number(0..=8),
    };
    (0..count)
        .map(|_| {
            let property = match rng.below(6) {
                0 => Property::Other,
                1 => Property::Clap(wide_clap(rng, size)),
                2 => Property::Irot(turn(rng, 3)),
                3 => Property::Imir(turn(rng, 1)),
                4 => Property::Iscl(iscl(rng)),
                _ => Property::Iscl(wide_iscl(rng)),
            };
            let entry = Entry::new(rng.flag(), property);
            size = entry.size_after(size).unwrap_or(size);
            entry
        })
        .collect()
}

/// An iscl that keeps small sizes small; once in eight a field is 0, large or off by one.
pub fn iscl(rng: &mut Rng) -> Iscl {
    let ratio = |rng: &mut Rng| {
        rng.pick(&[
            (1, 1),
            (1, 2),
            (2, 1),
            (2, 3),
            (3, 2),
            (7, 5),
            (5, 7),
            (1, 9),
            (1, 65_535),
            (65_535, 65_534),
        ])
    };
    let (width, height) = (ratio(rng), ratio(rng));
    let mut fields = [width.0, width.1, height.0, height.1];
    if rng.once_in(8) {
        fields[rng.below(4)] = rng.pick(&[0, 1, 3, 65_535]);
    }
    Iscl::from_fields(fields)
}

/// A start and a length along a side: inside as a rule, once in eight past its end or anywhere.
pub fn span(rng: &mut Rng, side: u32) -> (u32, u32) {
    let far = |rng: &mut Rng| rng.pick(&[0, 1, side, side + 1, 1 << 31, u32::MAX - 1, u32::MAX]);
    match rng.below(16) {
        0 => (far(rng), far(rng)),
        1 => {
            let start = rng.number(0..=side);
            (start, side - start + 1)
        }
        _ => {
            let start = rng.number(0..=side - 1);
            (start, rng.number(1..=side - start))
        }
    }
}

/// An angle or an axis: at most `most` as a rule, now and then any byte.
pub fn turn(rng: &mut Rng, most: u32) -> u8 {
    if rng.once_in(8) {
        return rng.byte();
    }
    rng.number(0..=most) as u8
}

/// One entry for a picture of the given size, and the size after it, were it applied whole. Only
/// where it `scales` it may be an iscl.
fn entry(rng: &mut Rng, (width, height): (u32, u32), scales: bool) -> (Entry, (u32, u32)) {
    let (property, after) = match rng.below(if scales { 6 } else { 5 }) {
        0 => (Property::Other, (width, height)),
        1 | 2 => {
            let clap = clap(rng, (width, height));
            let side = |n: u32, d: u32, input: u32| n.checked_div(d).unwrap_or(1).clamp(1, input);
            let after = (
                side(clap.width_n, clap.width_d, width),
                side(clap.height_n, clap.height_d, height),
            );
            (Property::Clap(clap), after)
        }
        3 => {
            let angle = turn(rng, 3);
            let after = if angle % 2 == 1 {
                (height, width)
            } else {
                (width, height)
            };
            (Property::Irot(angle), after)
        }
        4 => (Property::Imir(turn(rng, 1)), (width, height)),
        _ => {
            let iscl = iscl(rng);
            let side = |input: u32, n: u16, d: u16| {
                (input * u32::from(n))
                    .div_ceil(u32::from(d.max(1)))
                    .clamp(1, 1 << 12)
            };
            let after = (
                side(width, iscl.width_n, iscl.width_d),
                side(height, iscl.height_n, iscl.height_d),
            );
            (Property::Iscl(iscl), after)
        }
    };
    let essential = rng.flag();
    (Entry::new(essential, property), after)
}

/// A chain of 0 to 6 entries for a picture of the given size.
pub fn chain(rng: &mut Rng, size: (u32, u32)) -> Vec<Entry> {
    entries(rng, size, true)
}

/// The same; only where it `scales` it may have an iscl.
pub fn entries(rng: &mut Rng, size: (u32, u32), scales: bool) -> Vec<Entry> {
    let mut size = size;
    let count = rng.pick(&[0, 0, 1, 1, 2, 3, 4, 5, 6]);
    (0..count)
        .map(|_| {
            let (made, after) = entry(rng, size, scales);
            size = after;
            made
        })
        .collect()
}

/// Other flag bits and bytes after the last field, which a parser must pass over.
pub fn loosen_body(rng: &mut Rng, body: &mut Vec<u8>) {
    if let Some(flags) = body.get_mut(1)
        && rng.once_in(4)
    {
        *flags |= rng.byte() & 0xfe;
    }
    if rng.once_in(4) {
        let extra = rng.below(4);
        body.extend(rng.bytes(extra));
    }
}
