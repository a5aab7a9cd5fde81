//! Ceilings that a caller sets, and with them the room that the crate works out before it lends it: as
//! many bytes as the call then writes.

use compose::limits::{Ceiling, Excess, Limits};
use compose::props::{Clap, Colr, Imir, Irot, Iscl, Property, PropertyEntry};
use compose::{
    GridCanvas, HeifFrame, HeifPixelFormat, Refusal, Scene, composite, operation, record, scene,
    sys,
};
use differential::rng::Rng;
use differential::shaped::{clap, grid_descriptor, heif, iscl};
use differential::{generate, ours};
use model::refusal::LIMIT;
use model::{Frame, SceneParts, chain_bytes, grid_bytes, overlay_bytes, tray_bytes};

/// Nothing may be made.
const NOTHING: Limits = Limits::new().with_max_pixels(0).with_max_bytes(0);

fn excess(what: Ceiling, asked: u64, most: u64) -> Option<Excess> {
    Some(Excess { what, asked, most })
}

/// What is above a ceiling of the caller's; its refusal is 4, of no item.
fn above_ceiling(refusal: Refusal) -> Option<Excess> {
    assert_eq!(ours::refusal(refusal), LIMIT);
    refusal.excess()
}

/// How many pixels a record has.
fn pixels(bytes: &[u8]) -> u64 {
    let info = record::inspect(bytes).expect("a record");
    u64::from(info.width) * u64::from(info.height)
}

/// A call asks for the bytes that it writes, and no more; what is refused is refused as ever.
fn hold(what: &str, call: impl Fn() -> compose::Result<Vec<u8>>) {
    let made = match call() {
        Ok(made) => made,
        Err(refusal) => {
            assert_eq!(NOTHING.within(&call), Err(refusal), "{what}");
            return;
        }
    };
    let (pixels, bytes) = (pixels(&made), made.len() as u64);
    let just = Limits::new().with_max_pixels(pixels).with_max_bytes(bytes);
    assert_eq!(just.within(&call), Ok(made), "{what}");
    let above = |limits: Limits| above_ceiling(limits.within(&call).expect_err(what));
    let few = just.with_max_pixels(pixels - 1);
    assert_eq!(
        above(few),
        excess(Ceiling::Pixels, pixels, pixels - 1),
        "{what}"
    );
    let few = just.with_max_bytes(bytes - 1);
    assert_eq!(
        above(few),
        excess(Ceiling::Bytes, bytes, bytes - 1),
        "{what}"
    );
}

#[test]
fn operations_ask_for_what_they_write() {
    let mut rng = Rng::new(31);
    for _ in 0..1_500 {
        let frame = generate::frame(&mut rng);
        let (size, record) = ((frame.width, frame.height), frame.record());
        let (across, down) = (
            generate::span(&mut rng, size.0),
            generate::span(&mut rng, size.1),
        );
        hold("crop", || {
            operation::crop(&record, across.0, down.0, across.1, down.1)
        });
        let aperture = clap(&generate::clap(&mut rng, size));
        hold("clap", || operation::clap(&record, &aperture));
        let angle = generate::turn(&mut rng, 3);
        hold("irot", || operation::irot(&record, angle));
        let axis = generate::turn(&mut rng, 1);
        hold("imir", || operation::imir(&record, axis));
        let scale = iscl(&generate::iscl(&mut rng));
        hold("iscl", || operation::iscl(&record, &scale));
        let to = (rng.number(0..=9), rng.number(0..=9));
        hold("nearest", || operation::resize_nearest(&record, to.0, to.1));
        hold("nearest", || {
            operation::resize_nearest(&record, size.0, size.1)
        });
        let depth = rng.number(7..=17);
        hold("depth", || operation::rescale_depth(&record, depth));
        let alike = generate::Form {
            depth: frame.depth,
            ..generate::form(&mut rng)
        };
        let alpha = match rng.flag() {
            true => generate::frame(&mut rng),
            false => generate::frame_of(&mut rng, size, alike, false),
        };
        hold("attach", || {
            operation::attach_alpha(&record, &alpha.record())
        });
    }
}

/// What a scene asks for, without its chain and with it.
fn hold_scene(scene_of: &Scene, room: Result<usize, model::Refusal>) {
    let call = || scene(scene_of);
    let said = NOTHING.within(call).expect_err("nothing is made");
    let room = match room {
        Ok(room) => room as u64,
        Err(refusal) => {
            assert_eq!((ours::refusal(said), said.excess()), (refusal, None));
            return;
        }
    };
    // An output and a spare.
    let bytes = Limits::new().with_max_bytes(0).within(call).unwrap_err();
    assert_eq!(above_ceiling(bytes), excess(Ceiling::Bytes, 2 * room, 0));
    let just = Limits::new().with_max_bytes(2 * room);
    assert_eq!(just.within(call), call());
    assert!(call().is_ok());
}

#[test]
fn grids_ask_for_what_they_write() {
    let mut rng = Rng::new(32);
    for _ in 0..1_000 {
        let (grid, tiles) = generate::grid_scene(&mut rng);
        let (body, tray) = (grid_bytes(&grid, rng.flag()), tray_bytes(&tiles));
        hold("grid", || composite::grid(&body, &tray));
        let chain = generate::chain(&mut rng, (grid.width, grid.height));
        let chain = chain_bytes(&chain);
        let essential_only = rng.flag();
        let parts = SceneParts {
            body: &body,
            tray: &tray,
            chain: &chain,
            essential_only,
        };
        let want = model::grid_scene(&parts);
        let made = Scene::grid(&body, &tray, &chain).with_essential_only(essential_only);
        hold_scene(&made, want.map(|scene| scene.room));
    }
}

#[test]
fn overlays_ask_for_what_they_write() {
    let mut rng = Rng::new(33);
    for _ in 0..300 {
        let (overlay, inputs) = generate::overlay_scene(&mut rng);
        let frames: Vec<Frame> = inputs.iter().map(|input| input.frame.clone()).collect();
        let list: Vec<u8> = inputs.iter().map(|one| one.premultiplied.into()).collect();
        let body = overlay_bytes(&overlay, true);
        let tray = tray_bytes(&frames);
        hold("overlay", || {
            composite::overlay(&body, &tray, &list, Some(&Colr::MIAF_DEFAULT))
        });
        let chain = generate::chain(&mut rng, (overlay.width, overlay.height));
        let chain = chain_bytes(&chain);
        let parts = SceneParts {
            body: &body,
            tray: &tray,
            chain: &chain,
            essential_only: false,
        };
        let marks = model::Marks {
            premultiplied: &list,
            colour: None,
        };
        let want = model::overlay_scene(&parts, &marks);
        let made = Scene::overlay(&body, &tray, &chain, &list, None);
        hold_scene(&made, want.map(|scene| scene.room));
    }
}

/// The largest picture counts, also where a later entry makes it small again.
#[test]
fn pictures_between_two_entries_count() {
    let body = [0, 0, 0, 0, 0, 2, 0, 2];
    let tray = [1, 2, 2, 0, 8, 0, 2, 4, 1, 2, 3, 4];
    // Four times as wide and high, then a quarter of that.
    let chain = [2, 4, 0, 4, 1, 4, 1, 4, 0, 1, 4, 1, 4];
    let call = || scene(&Scene::grid(&body, &tray, &chain));
    assert_eq!(call(), Ok(tray[1..].to_vec()));
    let above = Limits::new().with_max_pixels(63).within(call);
    let above = above_ceiling(above.unwrap_err());
    assert_eq!(above, excess(Ceiling::Pixels, 64, 63));
    assert!(Limits::new().with_max_pixels(64).within(call).is_ok());
}

/// The first tile that is accepted asks for the canvas with its reserved alpha plane.
#[test]
fn a_canvas_asks_for_what_it_takes() {
    let mut rng = Rng::new(34);
    for _ in 0..500 {
        let (grid, tiles) = generate::grid_scene(&mut rng);
        let (desc, tile) = (grid_descriptor(&grid), heif(&tiles[0]));
        let place = |limits: Limits| {
            let mut canvas = GridCanvas::new(&desc);
            limits.within(|| canvas.place(0, &tile))
        };
        if let Err(refusal) = place(Limits::new()) {
            assert_eq!(place(NOTHING), Err(refusal));
            continue;
        }
        let all = u64::from(grid.width) * u64::from(grid.height);
        let above = place(NOTHING.with_max_bytes(u64::MAX)).unwrap_err();
        assert_eq!(above_ceiling(above), excess(Ceiling::Pixels, all, 0));
        let above = above_ceiling(place(NOTHING.with_max_pixels(all)).unwrap_err());
        let room = above.expect("a ceiling of bytes").asked;
        assert_eq!(place(Limits::new().with_max_bytes(room)), Ok(()));

        // No byte less would do.
        let mut state = [0; compose::canvas::STATE_WORDS];
        sys::compose_canvas_start(&desc.to_bytes(), &mut state).expect("a canvas");
        let record = tiles[0].record();
        let mut lent = |room: u64| {
            sys::compose_canvas_place(&mut state, 0, &record, &mut vec![0; room as usize])
        };
        assert_eq!((lent(room - 1), lent(room)), (Err(Refusal::ROOM), Ok(0)));
    }
}

/// A frame that the crate makes by itself, and one that a call makes.
#[test]
fn frames_keep_to_ceilings() {
    let format = HeifPixelFormat::new(compose::Chroma::Yuv420, 8, false).expect("a depth");
    let limits = Limits::new().with_max_pixels(24);
    let above = limits
        .within(|| HeifFrame::zeroed(5, 5, format))
        .unwrap_err();
    assert_eq!(above_ceiling(above), excess(Ceiling::Pixels, 25, 24));
    let frame = limits
        .within(|| HeifFrame::zeroed(6, 4, format))
        .expect("a frame");
    let twice = || compose::resize_nearest(&frame, 12, 4);
    let above = limits.within(twice).unwrap_err();
    assert_eq!(above_ceiling(above), excess(Ceiling::Pixels, 48, 24));
    assert_eq!((above.number(), above.name()), (4, "limit"));
    assert!(twice().is_ok());
}

/// A ceiling is judged for a chain as a whole, and is no entry's.
#[test]
fn a_ceiling_of_a_chain_is_no_entrys() {
    let format = HeifPixelFormat::new(compose::Chroma::Yuv420, 8, false).expect("a depth");
    let frame = HeifFrame::zeroed(6, 4, format).expect("a frame");
    let twice = Property::Iscl(Iscl::new(2, 1, 1, 1));
    for before in [
        Property::Other,
        Property::Clap(Clap::integer(6, 4, 0, 0)),
        Property::Irot(Irot::new(1)),
        Property::Irot(Irot::new(0)),
    ] {
        let chain = [before, twice].map(|property| PropertyEntry::new(1, true, property));
        let above = Limits::new()
            .with_max_pixels(24)
            .within(|| compose::apply_transforms(&frame, &chain, false))
            .unwrap_err();
        assert_eq!(above_ceiling(above), excess(Ceiling::Pixels, 48, 24));
        assert_eq!((above.about(), above.index()), (None, None));
    }
}

/// What is made of a frame's bands is judged as a whole.
#[test]
fn frames_by_bands_keep_to_ceilings() {
    let mut rng = Rng::new(35);
    for _ in 0..500 {
        let frame = generate::frame(&mut rng);
        let (record, planes) = (frame.record(), heif(&frame));
        let (x, w) = generate::span(&mut rng, frame.width);
        let (y, h) = generate::span(&mut rng, frame.height);
        let (axis, depth) = (rng.number(0..=1) as u8, rng.number(8..=16));
        for limits in [NOTHING, NOTHING.with_max_pixels(1 << 30)] {
            let part = limits.within(|| compose::crop(&planes, x, y, w, h));
            let want = limits.within(|| operation::crop(&record, x, y, w, h));
            assert_eq!(part.err(), want.err());
            let mirrored = limits.within(|| compose::apply_imir(&planes, &Imir::new(axis)));
            let want = limits.within(|| operation::imir(&record, axis));
            assert!(
                want.as_ref()
                    .is_err_and(|refusal| refusal.excess().is_some())
            );
            assert_eq!(mirrored.err(), want.err());
            let deep = limits.within(|| compose::rescale_depth(&planes, depth as u8));
            let want = limits.within(|| operation::rescale_depth(&record, depth));
            assert_eq!(deep.err(), want.err());
        }
    }
}
