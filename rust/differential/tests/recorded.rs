//! Frames over records beside frames of planes: the same operations make the same pictures and give
//! the same refusals, and no bytes are copied that need not be.

use compose::props::{Colr, Imir, Irot};
use compose::recorded::{self, RecordFrame};
use compose::{GridCanvas, HeifFrame, OverlayInput, Refusal, chain, tray};
use differential::generate;
use differential::ours::refusal;
use differential::rng::Rng;
use differential::shaped::{self, grid_descriptor, heif, overlay_descriptor};
use model::refusal::MISSING;
use model::{Frame, chain_bytes, tray_bytes};

/// The frame in both shapes.
fn both(frame: &Frame) -> (HeifFrame, RecordFrame<'static>) {
    let over = RecordFrame::from_record(frame.record()).expect("a record");
    (heif(frame), over)
}

fn hold(of_planes: compose::Result<HeifFrame>, over: compose::Result<RecordFrame>, what: &str) {
    if let Ok(over) = &over {
        let again = RecordFrame::from_record(over.as_record());
        assert_eq!(again.as_ref(), Ok(over), "{what}");
    }
    assert_eq!(over.map(|frame| frame.to_frame()), of_planes, "{what}");
}

#[test]
fn operations_are_those_of_planes() {
    let mut rng = Rng::new(41);
    for _ in 0..1_500 {
        let frame = generate::frame(&mut rng);
        let size = (frame.width, frame.height);
        let (planes, over) = both(&frame);

        let angle = Irot::new(generate::turn(&mut rng, 3));
        let turned = recorded::apply_irot(&over, &angle);
        hold(compose::apply_irot(&planes, &angle), turned, "irot");

        let axis = Imir::new(generate::turn(&mut rng, 1));
        let mirrored = recorded::apply_imir(&over, &axis);
        hold(compose::apply_imir(&planes, &axis), mirrored, "imir");

        let (x, w) = generate::span(&mut rng, size.0);
        let (y, h) = generate::span(&mut rng, size.1);
        let part = recorded::crop(&over, x, y, w, h);
        hold(compose::crop(&planes, x, y, w, h), part, "crop");

        let clap = shaped::clap(&generate::clap(&mut rng, size));
        let part = recorded::apply_clap(&over, &clap);
        hold(compose::apply_clap(&planes, &clap), part, "clap");

        let iscl = shaped::iscl(&generate::iscl(&mut rng));
        let scaled = recorded::apply_iscl(&over, &iscl);
        hold(compose::apply_iscl(&planes, &iscl), scaled, "iscl");

        let (w, h) = (rng.number(0..=9), rng.number(0..=9));
        let sized = recorded::resize_area(&over, w, h);
        hold(compose::resize_area(&planes, w, h), sized, "area");
        let sized = recorded::resize_nearest(&over, w, h);
        hold(compose::resize_nearest(&planes, w, h), sized, "nearest");

        let depth = rng.number(7..=17) as u8;
        let rescaled = recorded::rescale_depth(&over, depth);
        hold(compose::rescale_depth(&planes, depth), rescaled, "depth");

        let (alpha, over_alpha) = both(&generate::frame(&mut rng));
        let attached = recorded::attach_alpha(&over, &over_alpha);
        hold(compose::attach_alpha(&planes, &alpha), attached, "attach");

        let bytes = chain_bytes(&generate::chain(&mut rng, size));
        let entries = chain::entries(&bytes).expect("a chain");
        for essential in [false, true] {
            let of_planes = || compose::apply_transforms(&planes, &entries, essential);
            // Refused as the whole chain is, which has an entry for each property.
            let whole = compose::operation::transforms(over.as_record(), &bytes, essential);
            assert_eq!(of_planes().err(), whole.err());
            let changed = recorded::apply_transforms(&over, &entries, essential);
            hold(of_planes(), changed, "chain");
            let changed = recorded::apply_transforms_owned(over.clone(), &entries, essential);
            hold(of_planes(), changed, "chain, owned");
        }
    }
}

#[test]
fn grids_and_canvases_are_those_of_planes() {
    let mut rng = Rng::new(42);
    for _ in 0..700 {
        let (grid, tiles) = generate::grid_scene(&mut rng);
        let desc = grid_descriptor(&grid);
        let (planes, over): (Vec<_>, Vec<_>) = tiles.iter().map(both).unzip();
        let joined = recorded::composite_grid(&desc, &over);
        // Refused as the model has it, which names the tile.
        let want = model::composite_grid(&grid, &tiles).err();
        assert_eq!(joined.as_ref().err().map(|said| refusal(*said)), want);
        hold(compose::composite_grid(&desc, &planes), joined, "grid");
        let fewer = recorded::composite_grid(&desc, &over[1..]);
        assert_eq!(fewer, Err(Refusal::COUNT));

        let (mut canvas, mut over_canvas) = (GridCanvas::new(&desc), GridCanvas::new(&desc));
        for index in generate::shuffled(&mut rng, tiles.len()) {
            let placed = over_canvas.place_record(index, &over[index]);
            assert_eq!(canvas.place(index, &planes[index]), placed);
        }
        let outside = over_canvas.place_record(tiles.len(), &over[0]);
        assert_eq!(outside, Err(Refusal::COUNT));
        hold(canvas.finish(), over_canvas.finish_record(), "canvas");
    }
}

#[test]
fn overlays_are_those_of_planes() {
    let mut rng = Rng::new(43);
    for _ in 0..300 {
        let (overlay, inputs) = generate::overlay_scene(&mut rng);
        let desc = overlay_descriptor(&overlay);
        let (planes, over): (Vec<_>, Vec<_>) =
            inputs.iter().map(|input| both(&input.frame)).unzip();
        let marks = inputs.iter().map(|input| input.premultiplied);
        let planes: Vec<OverlayInput> = planes
            .iter()
            .zip(marks.clone())
            .map(|(frame, mark)| OverlayInput::new(frame, mark))
            .collect();
        let over: Vec<recorded::OverlayInput> = over
            .iter()
            .zip(marks)
            .map(|(frame, mark)| recorded::OverlayInput::new(frame, mark))
            .collect();
        let colr = Some(&Colr::MIAF_DEFAULT);
        let laid = recorded::composite_overlay(&desc, &over, colr);
        let want = match inputs.is_empty() {
            true => Some(MISSING),
            false => model::composite_overlay(&overlay, &inputs, None).err(),
        };
        assert_eq!(laid.as_ref().err().map(|said| refusal(*said)), want);
        let of_planes = compose::composite_overlay(&desc, &planes, colr);
        hold(of_planes, laid, "overlay");
    }
}

/// Samples, rows and planes are those of the frame of planes, and are changed where they stand.
#[test]
fn planes_are_parts_of_the_record() {
    let mut rng = Rng::new(44);
    for _ in 0..300 {
        let frame = generate::frame(&mut rng);
        let (mut planes, mut over) = both(&frame);
        assert_eq!(RecordFrame::from_frame(&planes).as_ref(), Ok(&over));
        assert_eq!((over.width(), over.height()), (frame.width, frame.height));
        assert_eq!(over.format(), planes.format);
        for plane in 0..frame.plane_count() {
            assert_eq!(over.plane(plane), planes.planes[plane].data);
            assert_eq!(over.stride(plane), planes.planes[plane].stride);
            let (columns, rows) = over.plane_dims(plane);
            assert_eq!((columns, rows), planes.plane_dims(plane));
            let (x, y) = (rng.number(0..=columns - 1), rng.number(0..=rows - 1));
            assert_eq!(over.row(plane, y), planes.row(plane, y));
            assert_eq!(over.sample(plane, x, y), planes.sample(plane, x, y));
            over.set_sample(plane, x, y, 77);
            planes.set_sample(plane, x, y, 77);
        }
        assert_eq!(over.to_frame(), planes);
        assert_eq!(Ok(over.into_record()), planes.to_record());
        let format = planes.format;
        let zeroed = RecordFrame::zeroed(frame.width, frame.height, format);
        hold(
            HeifFrame::zeroed(frame.width, frame.height, format),
            zeroed,
            "zeroed",
        );
    }
}

/// A record that is handed over is the frame's own, and a borrowed one is not copied.
#[test]
fn records_are_not_copied() {
    let frame = heif(&Frame::mono(2, 2, &[1, 2, 3, 4]));
    let record = frame.to_record().expect("a record");
    let at = record.as_ptr();
    let over = RecordFrame::from_record(record).expect("a record");
    let over = recorded::apply_transforms_owned(over, &[], false).expect("a frame");
    assert_eq!(over.as_record().as_ptr(), at);
    let record = over.into_record();
    assert_eq!(record.as_ptr(), at);

    let tray = tray_bytes(&[Frame::mono(1, 1, &[7]), Frame::mono(1, 1, &[9])]);
    for record in tray::records(&tray).expect("a tray") {
        let over = RecordFrame::from_record(record).expect("a record");
        assert_eq!(over.plane(0).as_ptr(), record[7..].as_ptr());
        let mut own = over.clone();
        own.set_sample(0, 0, 0, 8);
        assert_eq!(
            (own.sample(0, 0, 0), over.sample(0, 0, 0)),
            (8, record[7].into())
        );
    }
}
