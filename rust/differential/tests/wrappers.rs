//! The crate `compose` on what its types allow and its calls do not: descriptors and frames out of
//! range, and two faults at once. What the published Rust refuses is refused, and the refusal is the
//! first of document 01's order, with its item.

mod common;

use common::{bytes, on_each_build};
use compose::props::{Clap, Imir, Irot, Iscl, Property, PropertyEntry};
use compose::{
    About, Chroma, GridCanvas, GridDescriptor, HeifFrame, HeifPixelFormat, OverlayDescriptor,
    OverlayInput, RecordFrame, Refusal, Result, apply_clap, apply_imir, apply_irot, apply_iscl,
    apply_transforms, apply_transforms_owned, attach_alpha, composite_grid, composite_overlay,
    crop, crop_with_margins, recorded, rescale_depth, resize_area, resize_nearest,
};
use differential::expected::{Stop, Want, operation, settle};
use differential::generate;
use differential::rng::Rng;
use differential::shaped::{
    self, grid, grid_descriptor, heif, hold_to, judged, overlay_descriptor, said,
};
use model::{Canvas, Crop, Frame, Grid, Operation, Oracle, Rectangle, parse_record, refusal};

/// Makes a frame one that no record holds, by one fault or two.
fn spoil(rng: &mut Rng, frame: &mut Frame) {
    for _ in 0..rng.number(1..=2) {
        let plane = rng.below(frame.planes.len().max(1));
        match (rng.below(6), frame.planes.get_mut(plane)) {
            (0, _) => frame.depth = rng.pick(&[0, 7, 17, 40, 255]),
            (1, _) => *rng.pick_side(frame) = 0,
            (2, _) => *rng.pick_side(frame) = u32::MAX,
            (3, Some(plane)) => plane.stride = 0,
            (4, Some(plane)) => plane.data.clear(),
            (_, Some(_)) if rng.flag() => drop(frame.planes.pop()),
            (_, Some(plane)) => {
                let again = plane.clone();
                frame.planes.push(again);
            }
            (_, None) => {}
        }
    }
}

/// One side or the other.
trait PickSide {
    fn pick_side<'a>(&mut self, frame: &'a mut Frame) -> &'a mut u32;
}

impl PickSide for Rng {
    fn pick_side<'a>(&mut self, frame: &'a mut Frame) -> &'a mut u32 {
        match self.flag() {
            true => &mut frame.width,
            false => &mut frame.height,
        }
    }
}

/// A frame, in most cases spoilt.
fn doubtful(rng: &mut Rng) -> Frame {
    let mut frame = generate::frame(rng);
    if !rng.once_in(4) {
        spoil(rng, &mut frame);
    }
    frame
}

/// A frame that could be the alpha of another: in most cases of its size and depth.
fn alike(rng: &mut Rng, frame: &Frame) -> Frame {
    let fits = (1..=64).contains(&frame.width) && (1..=64).contains(&frame.height);
    let mut form = generate::form(rng);
    if !fits || !(8..=16).contains(&frame.depth) {
        return doubtful(rng);
    }
    if !rng.once_in(4) {
        form.depth = frame.depth;
    }
    let size = match rng.once_in(4) {
        true => generate::size(rng),
        false => (frame.width, frame.height),
    };
    generate::frame_of(rng, size, form, true)
}

/// Mono, 2 × 2.
fn tile() -> HeifFrame {
    HeifFrame::from_record(&bytes("02 02 00 08 00 02 04 07 07 07 07")).expect("a record")
}

/// A picture of no width.
fn empty() -> HeifFrame {
    tile().with_width(0)
}

/// One of a depth that there is not.
fn deep() -> HeifFrame {
    tile().with_format(tile().format.with_bit_depth(40))
}

/// Rows or columns that a body has no room for: 19, before a side 0 of the canvas.
#[test]
fn grids_that_no_body_holds() {
    for (rows, columns, tiles) in [
        (257, 1, 1),
        (257, 1, 257),
        (1, 257, 1),
        (65_535, 65_535, 1),
        (0, 1, 256),
        (0, 1, 0),
        (1, 0, 1),
        (257, 0, 1),
    ] {
        for width in [2, 0] {
            let desc = GridDescriptor::new(rows, columns, width, 2);
            let made = composite_grid(&desc, &vec![tile(); tiles]);
            let refused = Refusal::TILING;
            assert_eq!(made, Err(refused), "{rows} rows, {columns} columns");
            let mut canvas = GridCanvas::new(&desc);
            assert_eq!(canvas.place(0, &tile()), Err(refused));
            assert_eq!(canvas.place_blank(0), Err(refused));
            assert_eq!(canvas.finish(), Err(refused));
        }
    }
    let desc = GridDescriptor::new(256, 1, 2, 2);
    assert!(composite_grid(&desc, &vec![tile(); 256]).is_ok());
}

/// Two faults at once: the first of document 01's order is the refusal.
#[test]
fn the_first_refusal_is_document_01s() {
    assert_eq!(attach_alpha(&empty(), &deep()), Err(Refusal::EMPTY));
    assert_eq!(attach_alpha(&deep(), &empty()), Err(Refusal::DEPTH));

    let row = GridDescriptor::new(1, 2, 4, 2);
    let mut canvas = GridCanvas::new(&row);
    assert_eq!(canvas.place(7, &empty()), Err(Refusal::COUNT));
    assert_eq!(canvas.place(1, &empty()), Err(Refusal::EMPTY));

    assert_eq!(composite_grid(&row, &[empty()]), Err(Refusal::COUNT));
    let none = GridDescriptor::new(1, 1, 0, 2);
    assert_eq!(composite_grid(&none, &[deep()]), Err(Refusal::EMPTY));
    assert_eq!(composite_grid(&none, &[]), Err(Refusal::EMPTY));

    let lay = |width, places, frames: &[HeifFrame]| {
        let desc = OverlayDescriptor::new([0; 4], width, 2, vec![(0, 0); places]);
        let inputs: Vec<OverlayInput> = frames
            .iter()
            .map(|frame| OverlayInput::new(frame, false))
            .collect();
        composite_overlay(&desc, &inputs, None)
    };
    assert_eq!(lay(0, 1, &[deep()]), Err(Refusal::EMPTY));
    assert_eq!(lay(0, 2, &[deep()]), Err(Refusal::EMPTY));
    assert_eq!(lay(0, 0, &[]), Err(Refusal::EMPTY));
    assert_eq!(lay(u32::MAX, 1, &[]), Err(Refusal::LIMIT));
    assert_eq!(lay(2, 1, &[]), Err(Refusal::MISSING));
    assert_eq!(lay(2, 2, &[deep()]), Err(Refusal::COUNT));
    assert_eq!(lay(2, 1, &[deep(), empty()]), Err(Refusal::COUNT));
    let first = |refusal: Refusal| Err(refusal.of_item(About::Record, 0));
    assert_eq!(lay(2, 2, &[deep(), empty()]), first(Refusal::DEPTH));
    assert_eq!(lay(2, 2, &[empty(), deep()]), first(Refusal::EMPTY));

    let long = [PropertyEntry::new(1, true, Property::Irot(Irot::new(1))); 257];
    assert_eq!(apply_transforms(&deep(), &long, false), Err(Refusal::LIMIT));
    assert_eq!(resize_area(&deep(), 0, 1), Err(Refusal::DEPTH));
    assert_eq!(resize_nearest(&deep(), 0, 1), Err(Refusal::DEPTH));
    assert_eq!(rescale_depth(&empty(), 40), Err(Refusal::EMPTY));
    assert_eq!(crop(&deep(), 9, 9, 9, 9), Err(Refusal::DEPTH));
    let broken = shaped::crop(&Crop::from_fields([0, 0, 1, 1, 1, 1, 1, 1]));
    assert_eq!(crop_with_margins(&deep(), &broken), Err(Refusal::DEPTH));
    let none = Clap::new(0, 0, 0, 0, 0, 0, 0, 0);
    assert_eq!(apply_clap(&deep(), &none), Err(Refusal::DEPTH));
    let none = Iscl::new(0, 0, 0, 0);
    assert_eq!(apply_iscl(&empty(), &none), Err(Refusal::EMPTY));
}

/// A frame of 2 rows, every sample 600, which is above the top of depth 9.
fn frame_of(width: u32, chroma: Chroma, depth: u8, alpha: bool) -> HeifFrame {
    let format = HeifPixelFormat::new(chroma, depth, alpha).expect("a depth");
    HeifFrame::filled(width, 2, format, 600).expect("a frame")
}

/// Frames and what they are refused with, in a list of others of 2 × 2, mono, depth 9.
type Faults = Vec<(HeifFrame, Refusal)>;

/// A list with a fault at each place, and with another one behind it: `call` names the frame that is
/// refused by its index. Faults are found in several walks through the list, the lowest frame first.
fn hold_index(walks: &[Faults], call: impl Fn(&[HeifFrame]) -> Option<Refusal>) {
    let of_walk = |(walk, faults)| std::iter::repeat(walk).zip::<&Faults>(faults);
    let faults: Vec<_> = walks.iter().enumerate().flat_map(of_walk).collect();
    let good = frame_of(2, Chroma::Mono, 9, false);
    for at in 1..5 {
        for (walk, (frame, refusal)) in &faults {
            let mut frames = vec![good.clone(); 6];
            assert_eq!(call(&frames), None);
            frames[at] = frame.clone();
            let own = refusal.of_item(About::Record, at as u64);
            assert_eq!(call(&frames), Some(own));
            for (later, (frame, behind)) in &faults {
                frames[5] = frame.clone();
                let first = match walk <= later {
                    true => own,
                    false => behind.of_item(About::Record, 5),
                };
                assert_eq!(call(&frames), Some(first), "{own} {behind}");
            }
        }
    }
}

/// A tile or an input that is refused is named by its place in the caller's list.
#[test]
fn frames_are_counted_as_the_caller_counts() {
    let records = vec![
        (empty(), Refusal::EMPTY),
        (tile().with_width(1 << 31), Refusal::LIMIT),
        (tile().with_planes(Vec::new()), Refusal::MALFORMED),
        (deep(), Refusal::DEPTH),
    ];
    let tiles = vec![
        (frame_of(3, Chroma::Mono, 9, false), Refusal::TILE),
        (frame_of(2, Chroma::Yuv444, 9, false), Refusal::LAYOUT),
        (frame_of(2, Chroma::Mono, 10, false), Refusal::LAYOUT),
    ];
    let depths = vec![(frame_of(3, Chroma::Yuv420, 10, true), Refusal::LAYOUT)];
    let alphas = vec![(frame_of(3, Chroma::Yuv420, 9, true), Refusal::OPACITY)];

    let grid = GridDescriptor::new(2, 3, 6, 4);
    hold_index(&[records.clone(), tiles.clone()], |tiles| {
        composite_grid(&grid, tiles).err()
    });
    let over = |frames: &[HeifFrame]| -> Vec<RecordFrame> {
        let frames = frames.iter().map(RecordFrame::from_frame);
        frames.collect::<Result<_>>().expect("frames")
    };
    hold_index(&[tiles], |tiles| {
        recorded::composite_grid(&grid, &over(tiles)).err()
    });

    let overlay = OverlayDescriptor::new([0; 4], 6, 4, vec![(1, 0); 6]);
    hold_index(&[records, depths.clone(), alphas.clone()], |frames| {
        let inputs = frames.iter().map(|frame| OverlayInput::new(frame, false));
        composite_overlay(&overlay, &inputs.collect::<Vec<_>>(), None).err()
    });
    hold_index(&[depths, alphas], |frames| {
        let frames = over(frames);
        let inputs = frames
            .iter()
            .map(|frame| recorded::OverlayInput::new(frame, false));
        recorded::composite_overlay(&overlay, &inputs.collect::<Vec<_>>(), None).err()
    });
}

/// A property that is refused is named by its place in the caller's list, whatever is skipped before it
/// and however the ones before it are drawn.
#[test]
fn properties_are_counted_as_the_caller_counts() {
    let other = (false, Property::Other);
    let kept = (false, Property::Clap(Clap::integer(9, 9, 0, 0)));
    let whole = (true, Property::Clap(Clap::integer(2, 2, 0, 0)));
    let turn = (true, Property::Irot(Irot::new(1)));
    let none = (true, Property::Irot(Irot::new(4)));
    let mirror = (true, Property::Imir(Imir::new(1)));
    let scale = (true, Property::Iscl(Iscl::new(3, 2, 1, 1)));
    let outside = (true, Property::Clap(Clap::integer(9, 9, 0, 0)));
    let zero = (true, Property::Iscl(Iscl::new(1, 1, 0, 1)));
    let befores: [&[(bool, Property)]; 9] = [
        &[],
        &[other],
        &[other, kept, other],
        &[kept, whole, other],
        &[turn, kept],
        &[whole, mirror, kept, turn],
        &[kept, none],
        &[scale, other, none],
        &[kept, scale, turn, kept],
    ];
    for before in befores {
        for (refused, refusal) in [(outside, Refusal::OUTSIDE), (zero, Refusal::ZERO)] {
            for after in [&[][..], &[zero], &[kept, turn, outside]] {
                let chain = [before, &[refused], after].concat();
                let entry = |(essential, property)| PropertyEntry::new(7, essential, property);
                let entries: Vec<PropertyEntry> = chain.into_iter().map(entry).collect();
                let own = refusal.of_item(About::Entry, before.len() as u64);
                let over = RecordFrame::from_frame(&tile()).expect("a frame");
                let changed = [
                    apply_transforms(&tile(), &entries, true).err(),
                    apply_transforms_owned(tile(), &entries, true).err(),
                    recorded::apply_transforms(&over, &entries, true).err(),
                    recorded::apply_transforms_owned(over, &entries, true).err(),
                ];
                assert_eq!(changed, [Some(own); 4], "{entries:?}");
                // The frame's own refusal is no entry's.
                let spoilt = apply_transforms(&deep(), &entries, true);
                assert_eq!(spoilt, Err(Refusal::DEPTH));
            }
        }
    }
}

/// More inputs than an overlay may have, with as many places and with one.
#[test]
fn overlays_of_too_many_inputs() {
    let frame = deep();
    let inputs = vec![OverlayInput::new(&frame, false); 65_537];
    for places in [1, 65_537] {
        let desc = OverlayDescriptor::new([0; 4], 2, 2, vec![(0, 0); places]);
        assert_eq!(composite_overlay(&desc, &inputs, None), Err(Refusal::LIMIT));
    }
    let desc = OverlayDescriptor::new([0; 4], 2, 2, vec![(0, 0); 65_537]);
    let refused = composite_overlay(&desc, &inputs[..1], None);
    assert_eq!(refused, Err(Refusal::COUNT));
}

#[test]
fn operations_on_doubtful_frames() {
    let wanted = |oracle: &dyn Oracle, frame: &Frame, what: &Operation| -> Want<Frame> {
        Ok(parse_record(&operation(oracle, &frame.record(), what)?)?)
    };
    on_each_build(|oracle| {
        let mut rng = Rng::new(21);
        for _ in 0..2_000 {
            let frame = doubtful(&mut rng);
            let ours = heif(&frame);
            let (angle, axis) = (rng.byte(), rng.byte());
            let turned = apply_irot(&ours, &Irot::new(angle));
            hold_to(
                turned,
                wanted(oracle, &frame, &Operation::Irot(angle)),
                "irot",
            );
            let mirrored = apply_imir(&ours, &Imir::new(axis));
            hold_to(
                mirrored,
                wanted(oracle, &frame, &Operation::Imir(axis)),
                "imir",
            );

            let [x, y, width, height] = std::array::from_fn(|_| rng.number(0..=5));
            let rectangle = Rectangle {
                x,
                y,
                width,
                height,
            };
            let to = Crop::of(rectangle, (frame.width, frame.height));
            let cropped = crop(&ours, x, y, width, height);
            hold_to(
                cropped,
                wanted(oracle, &frame, &Operation::Crop(to)),
                "crop",
            );
            let sized = resize_nearest(&ours, width, height);
            let nearest = Operation::Nearest(width, height);
            hold_to(sized, wanted(oracle, &frame, &nearest), "nearest");
            let sized = resize_area(&ours, width, height);
            let want =
                judged(&frame).and_then(|frame| settle(oracle.resize_area(&frame, width, height)));
            hold_to(sized, want, "area");

            let depth = rng.pick(&[0, 7, 8, 10, 16, 17, 40]);
            let rescaled = rescale_depth(&ours, depth);
            let depth = Operation::Depth(u32::from(depth));
            hold_to(rescaled, wanted(oracle, &frame, &depth), "depth");

            let fields = generate::iscl(&mut rng);
            let [wn, wd, hn, hd] = fields.fields();
            let want = wanted(oracle, &frame, &Operation::Iscl(fields));
            if want != Err(Stop::Large) {
                let scaled = apply_iscl(&ours, &Iscl::new(wn, wd, hn, hd));
                hold_to(scaled, want, "iscl");
            }

            let promoted = ours.promote_to_444();
            hold_to(promoted, shaped::promote_to_444(oracle, &frame), "promote");

            let alpha = doubtful(&mut rng);
            let attached = attach_alpha(&ours, &heif(&alpha));
            hold_to(
                attached,
                shaped::attach_alpha(oracle, &frame, &alpha),
                "attach",
            );
            let alpha = alike(&mut rng, &frame);
            let with = ours.with_alpha_plane(&heif(&alpha));
            let want = shaped::with_alpha_plane(oracle, &frame, &alpha);
            hold_to(with, want, "with_alpha_plane");
            let valid = ours.validate().map(|()| ours.clone());
            hold_to(valid, judged(&frame), "validate");
        }
    });
}

/// A chain's frame is judged where an entry is applied.
#[test]
fn chains_on_doubtful_frames() {
    on_each_build(|oracle| {
        let mut rng = Rng::new(22);
        for _ in 0..1_000 {
            let frame = doubtful(&mut rng);
            let chain = generate::chain(&mut rng, (frame.width.clamp(1, 20), 7));
            let entries = compose::chain::entries(&model::chain_bytes(&chain)).expect("a chain");
            let essential_only = rng.flag();
            let applied = chain
                .iter()
                .any(|entry| entry.applied(essential_only).is_some());
            let want = match applied {
                true => judged(&frame).and_then(|frame| {
                    shaped::apply_transforms(oracle, &frame, &chain, essential_only)
                }),
                false => Ok(frame.clone()),
            };
            let ours = apply_transforms(&heif(&frame), &entries, essential_only);
            hold_to(ours, want.clone(), "apply_transforms");
            let ours = apply_transforms_owned(heif(&frame), &entries, essential_only);
            hold_to(ours, want, "apply_transforms_owned");
        }
    });
}

/// Rows, columns or sides that may be out of range.
fn doubtful_grid(rng: &mut Rng, grid: &mut Grid) {
    match rng.below(8) {
        0 => grid.rows = rng.pick(&[0, 256, 257, 512, 65_535]),
        1 => grid.columns = rng.pick(&[0, 256, 257, 512, 65_535]),
        2 => grid.width = rng.pick(&[0, 1, 1 << 31]),
        3 => grid.height = rng.pick(&[0, 1, 1 << 31]),
        _ => {}
    }
}

#[test]
fn grids_of_doubtful_tiles() {
    on_each_build(|oracle| {
        let mut rng = Rng::new(23);
        for _ in 0..4_000 {
            let (mut desc, mut tiles) = generate::grid_scene(&mut rng);
            doubtful_grid(&mut rng, &mut desc);
            if rng.once_in(3) {
                let tile = rng.below(tiles.len());
                spoil(&mut rng, &mut tiles[tile]);
            }
            match rng.below(10) {
                0 => drop(tiles.pop()),
                1 => tiles.push(tiles[0].clone()),
                _ => {}
            }
            let ours: Vec<HeifFrame> = tiles.iter().map(heif).collect();
            let made = composite_grid(&grid_descriptor(&desc), &ours);
            hold_to(made, shaped::composite_grid(oracle, &desc, &tiles), "grid");
        }
    });
}

#[test]
fn overlays_of_doubtful_inputs() {
    on_each_build(|oracle| {
        let mut rng = Rng::new(24);
        for _ in 0..4_000 {
            let (mut desc, mut inputs) = generate::overlay_scene(&mut rng);
            match rng.below(8) {
                0 => desc.width = rng.pick(&[0, u32::MAX]),
                1 => desc.height = rng.pick(&[0, u32::MAX]),
                2 => drop(desc.offsets.pop()),
                3 => desc.offsets.push((1, 1)),
                _ => {}
            }
            if rng.once_in(3) && !inputs.is_empty() {
                let input = rng.below(inputs.len());
                spoil(&mut rng, &mut inputs[input].frame);
            }
            let colour = generate::colour(&mut rng);
            let frames: Vec<HeifFrame> = inputs.iter().map(|input| heif(&input.frame)).collect();
            let ours = lent(&frames, &inputs);
            let colr = colour.map(|colour| compose::props::Colr::Nclx {
                primaries: 1,
                transfer: 13,
                matrix: colour.matrix,
                full_range: colour.full_range,
            });
            let made = composite_overlay(&overlay_descriptor(&desc), &ours, colr.as_ref());
            let want = shaped::composite_overlay(oracle, &desc, &inputs, colour);
            hold_to(made, want, "overlay");
        }
    });
}

/// Overlay inputs that stand on `frames`.
fn lent<'a>(frames: &'a [HeifFrame], inputs: &[model::OverlayInput]) -> Vec<OverlayInput<'a>> {
    let lent = frames.iter().zip(inputs);
    lent.map(|(frame, input)| OverlayInput::new(frame, input.premultiplied))
        .collect()
}

/// What document 01 wants of placing a tile: the grid's, 11, the record's, 12 to 14.
fn wanted_place(canvas: &mut dyn Canvas, desc: &Grid, index: usize, tile: &Frame) -> Want<()> {
    grid(desc)?;
    if index >= desc.cells() {
        return Err(Stop::Refused(refusal::COUNT));
    }
    settle(canvas.place(index, &judged(tile)?))
}

/// The same of a blank cell: the grid's, 15, 11.
fn wanted_blank(canvas: &mut dyn Canvas, desc: &Grid, index: usize) -> Want<()> {
    grid(desc)?;
    settle(canvas.place_blank(index))
}

#[test]
fn canvases_with_doubtful_tiles() {
    on_each_build(|oracle| {
        let mut rng = Rng::new(25);
        for _ in 0..1_500 {
            let (mut desc, tiles) = generate::grid_scene(&mut rng);
            doubtful_grid(&mut rng, &mut desc);
            let mut ours = GridCanvas::new(&grid_descriptor(&desc));
            let mut theirs = oracle.canvas(&desc);
            for tile in &tiles {
                let mut tile = tile.clone();
                if rng.once_in(4) {
                    spoil(&mut rng, &mut tile);
                }
                let index = match rng.below(6) {
                    0 => rng.pick(&[desc.cells(), 1 << 16, 1 << 32, usize::MAX]),
                    _ => rng.below(desc.cells().max(1)),
                };
                if rng.once_in(5) {
                    let blank = said(ours.place_blank(index));
                    assert_eq!(blank, wanted_blank(&mut *theirs, &desc, index));
                    continue;
                }
                let placed = said(ours.place(index, &heif(&tile)));
                assert_eq!(placed, wanted_place(&mut *theirs, &desc, index, &tile));
            }
            let want = grid(&desc).and_then(|()| settle(theirs.finish()));
            hold_to(ours.finish(), want, "finish");
        }
    });
}
