//! Descriptors, chains, apertures, scaled sizes and steps of the composer and of `compose`, held to
//! the model: every cut, every changed byte, every small aperture, and document 01's own cases. The
//! published Rust is not needed here.

use compose::{GridDescriptor, OverlayDescriptor, chain, props, steps};
use differential::compare::hex;
use differential::damage::{
    BodyFault, each_choice, faulty_body, faulty_chain, first_refusal, triples,
};
use differential::expected::{self, Stop};
use differential::ours::{Composer, Linked, fills, refusal, writes};
use differential::rng::Rng;
use differential::shaped;
use model::refusal::{LIMIT, MALFORMED};
use model::{
    Clap, Entry, Grid, Iscl, Overlay, Property, Refusal, chain_bytes, grid_bytes, overlay_bytes,
    parse_chain, parse_grid, parse_overlay, steps_text,
};

/// What `compose` reads of a grid's body, held to the model: the number of its refusal.
fn read_grid(body: &[u8]) -> Option<u8> {
    let ours = GridDescriptor::parse(body).map(|grid| Grid {
        rows: grid.rows,
        columns: grid.columns,
        width: grid.output_width,
        height: grid.output_height,
    });
    let ours = ours.map_err(refusal);
    assert_eq!(ours, parse_grid(body), "{}", hex(body));
    alone(ours.err())
}

/// The number of a refusal that is of no item.
fn alone(refusal: Option<Refusal>) -> Option<u8> {
    let refusal = refusal?;
    assert_eq!(refusal, Refusal::new(refusal.number));
    Some(refusal.number)
}

/// What `compose` reads of an overlay's body, each offset with it, held to the model.
fn read_overlay(body: &[u8], inputs: usize) -> Option<u8> {
    let ours = OverlayDescriptor::parse(body, inputs).map(|overlay| Overlay {
        fill: overlay.canvas_fill,
        width: overlay.output_width,
        height: overlay.output_height,
        offsets: overlay.offsets,
    });
    let ours = ours.map_err(refusal);
    assert_eq!(ours, parse_overlay(body, inputs), "{}", hex(body));
    alone(ours.err())
}

fn property(of: &props::Property) -> Property {
    match *of {
        props::Property::Clap(clap) => Property::Clap(Clap {
            width_n: clap.width_n,
            width_d: clap.width_d,
            height_n: clap.height_n,
            height_d: clap.height_d,
            horizontal_n: clap.horiz_off_n,
            horizontal_d: clap.horiz_off_d,
            vertical_n: clap.vert_off_n,
            vertical_d: clap.vert_off_d,
        }),
        props::Property::Irot(irot) => Property::Irot(irot.angle),
        props::Property::Imir(imir) => Property::Imir(imir.axis),
        props::Property::Iscl(iscl) => Property::Iscl(Iscl {
            width_n: iscl.width_num,
            width_d: iscl.width_den,
            height_n: iscl.height_num,
            height_d: iscl.height_den,
        }),
        _ => Property::Other,
    }
}

/// What `compose` reads of a chain, held to the model and to its numbers, and written back to the same
/// bytes.
fn read_chain(bytes: &[u8]) -> Option<Refusal> {
    let read = chain::entries(bytes);
    let ours = read.as_ref().map(|entries| {
        let entry =
            |entry: &props::PropertyEntry| Entry::new(entry.essential, property(&entry.property));
        entries.iter().map(entry).collect::<Vec<_>>()
    });
    let ours = ours.map_err(|said| refusal(*said));
    assert_eq!(ours, parse_chain(bytes), "{}", hex(bytes));
    let want = expected::chain(bytes);
    assert_eq!(
        want.err(),
        ours.as_ref().err().map(|refusal| Stop::Refused(*refusal))
    );
    if let Ok(entries) = &read {
        assert_eq!(chain::join(entries).as_deref(), Ok(bytes));
    }
    ours.err()
}

/// The text of the composer, and of `compose`, held to the model.
fn read_steps(input: &[u8]) -> String {
    let text = steps_text(input, |entry, size| Ok::<_, ()>(entry.size_after(size)));
    let text = text.expect("no other error");
    let want = Ok(text.clone().into_bytes());
    let departs = writes(&want, |output| Linked.steps(input, output));
    assert_eq!(departs, None, "{}", hex(input));
    assert_eq!(steps::text(input), text);
    text
}

/// What an aperture leaves of a size and the margins about it: the composer, and `compose`, held to the
/// model.
fn hold_clap(clap: Clap, size: (u32, u32)) -> Result<[u32; 8], Refusal> {
    let crop = clap.resolve(size.0, size.1);
    let want = crop.map(|crop| crop.fields());
    let departs = fills(&want, |words| Linked.clap_resolve(&clap, size, words));
    assert_eq!(departs, None, "{clap:?} of {size:?}");
    let ours = shaped::clap(&clap).resolve(size.0, size.1);
    let crop = crop.map(|crop| shaped::crop(&crop));
    assert_eq!(ours.map_err(refusal), crop);
    want
}

fn hold_iscl(iscl: Iscl, size: (u32, u32)) -> Result<[u32; 2], Refusal> {
    let want = iscl.output_size(size.0, size.1);
    let want = want.map(|(width, height)| [width, height]);
    let departs = fills(&want, |words| Linked.iscl_size(&iscl, size, words));
    assert_eq!(departs, None, "{iscl:?} of {size:?}");
    want
}

/// Every beginning of `bytes`, then `bytes` with each byte changed to each other value.
fn each_damage<T>(bytes: &[u8], read: impl Fn(&[u8]) -> T) {
    for end in 0..=bytes.len() {
        read(&bytes[..end]);
    }
    let mut changed = bytes.to_vec();
    for at in 0..bytes.len() {
        for change in 1..=255 {
            changed[at] = bytes[at] ^ change;
            read(&changed);
        }
        changed[at] = bytes[at];
    }
}

#[test]
fn bodies_cut_and_changed_anywhere() {
    let offsets = vec![(0, -1), (i32::MAX, i32::MIN), (-32_768, 32_767)];
    let overlay = Overlay {
        fill: [0, 1, 65_534, 65_535],
        width: 40_000,
        height: 3,
        offsets,
    };
    let grid = Grid {
        rows: 256,
        columns: 1,
        width: 32_768,
        height: 32_768,
    };
    for wide in [false, true] {
        let body = grid_bytes(&grid, wide);
        assert_eq!(read_grid(&body), None);
        each_damage(&body, read_grid);
        let body = overlay_bytes(&overlay, wide);
        for inputs in 0..=4 {
            let number = if inputs > 3 { Some(1) } else { None };
            assert_eq!(read_overlay(&body, inputs), number);
            each_damage(&body, |body| read_overlay(body, inputs));
        }
    }
}

#[test]
fn faulty_bodies_have_the_first_faults_number() {
    let mut rng = Rng::new(2);
    for faults in triples::<BodyFault>() {
        let number = first_refusal(&faults).number;
        for _ in 0..5 {
            let (body, inputs) = faulty_body(&mut rng, &faults, true);
            assert_eq!(read_overlay(&body, inputs), Some(number), "{faults:?}");
            if faults.iter().all(|fault| fault.in_grid()) {
                let (body, _) = faulty_body(&mut rng, &faults, false);
                assert_eq!(read_grid(&body), Some(number), "{faults:?}");
            }
        }
    }
}

/// 65,536 inputs are taken, each with its offset; one more is 4, and one byte less is 1.
#[test]
fn the_most_inputs() {
    let overlay = Overlay {
        fill: [0; 4],
        width: 1,
        height: 1,
        offsets: (0..65_536).map(|at| (at, -at)).collect(),
    };
    let mut body = overlay_bytes(&overlay, true);
    assert_eq!(read_overlay(&body, 65_536), None);
    for inputs in [65_537, u32::MAX as usize, usize::MAX] {
        assert_eq!(read_overlay(&body, inputs), Some(4));
    }
    body.pop();
    assert_eq!(read_overlay(&body, 65_536), Some(1));
}

#[test]
fn chains_cut_and_changed_anywhere() {
    let clap = Clap::from_fields([62, 1, 300, 128, u32::MAX, 2, 1 << 31, 16_384]);
    let entries = [
        Property::Other,
        Property::Clap(clap),
        Property::Irot(255),
        Property::Imir(0),
        Property::Iscl(Iscl::from_fields([0, 65_535, 127, 128])),
    ];
    let entries = entries.map(|property| Entry::new(property == Property::Other, property));
    let bytes = chain_bytes(&entries);
    assert_eq!(read_chain(&bytes), None);
    each_damage(&bytes, read_chain);
    // A chain that ends in an entry, or before it, is that entry's 5.
    for end in 1..bytes.len() {
        let whole = (0..entries.len()).rfind(|whole| chain_bytes(&entries[..*whole]).len() <= end);
        let entry = whole.expect("an entry that is cut");
        let refusal = MALFORMED.of_entry(entry);
        assert_eq!(read_chain(&bytes[..end]), Some(refusal), "{end}");
    }
    assert_eq!(read_chain(&[]), Some(MALFORMED));
    assert_eq!(read_chain(&[&bytes[..], &[0]].concat()), Some(MALFORMED));
}

#[test]
fn faulty_chains_have_the_first_faults_refusal() {
    for (faults, bytes, refusal) in each_choice(20, faulty_chain) {
        assert_eq!(read_chain(&bytes), Some(refusal), "{faults:?}");
    }
}

/// 256 entries are taken, 257 are 4 once the count is read, whatever follows.
#[test]
fn the_longest_chain() {
    for count in [0, 1, 255, 256, 257] {
        let chain = chain_bytes(&vec![Entry::new(true, Property::Other); count]);
        let refusal = if count > 256 { Some(LIMIT) } else { None };
        assert_eq!(read_chain(&chain), refusal);
    }
    assert_eq!(read_chain(&[0x81, 2]), Some(LIMIT));
    assert_eq!(read_chain(&[0x81]), Some(MALFORMED));
    let mirror = props::Property::Imir(props::Imir::new(1));
    let entries = vec![props::PropertyEntry::new(1, true, mirror); 257];
    assert_eq!(chain::join(&entries), Err(compose::Refusal::LIMIT));
}

/// Document 01's cases of an aperture 64 wide.
#[test]
fn apertures_of_the_paper() {
    let resolve = |n: u32, d: u32, off_n: i32, off_d: u32| {
        let clap = Clap::from_fields([n, d, 1, 1, off_n.cast_unsigned(), off_d, 0, 1]);
        hold_clap(clap, (64, 1)).map(|[x, ..]| x)
    };
    for (fields, edge) in [
        ((62, 1, 0, 1), Ok(1)),
        ((63, 1, 0, 1), Err(8)),
        ((63, 1, 1, 2), Ok(1)),
        ((63, 1, -1, 2), Ok(0)),
        ((64, 1, 1, 1), Err(9)),
        ((3, 2, 0, 1), Err(8)),
        ((0, 1, 0, 1), Err(9)),
    ] {
        let (n, d, off_n, off_d) = fields;
        let edge = edge.map_err(Refusal::new);
        assert_eq!(resolve(n, d, off_n, off_d), edge, "{fields:?}");
    }
}

/// The fields of a crop with across and down in each other's place.
fn exchanged([x, y, width, height, left, top, right, bottom]: [u32; 8]) -> [u32; 8] {
    [y, x, height, width, top, left, bottom, right]
}

/// Of every aperture with small terms that every small size takes: left and top are the rectangle's
/// edges, and left, width and right make up the width, top, height and bottom the height.
#[test]
fn margins_of_every_small_aperture() {
    let mut axes = Vec::new();
    for (n, d) in (0..=8).flat_map(|n| [(n, 1), (n, 2)]) {
        for (off_n, off_d) in (-4..=4i32).flat_map(|n| [(n, 1), (n, 2)]) {
            axes.push([n, d, off_n.cast_unsigned(), off_d]);
        }
    }
    let (mut taken, mut most) = (0, [0; 4]);
    for size in (1..=4).flat_map(|width| (1..=4).map(move |height| (width, height))) {
        for [wn, wd, xn, xd] in &axes {
            for [hn, hd, yn, yd] in &axes {
                let clap = Clap::from_fields([*wn, *wd, *hn, *hd, *xn, *xd, *yn, *yd]);
                let Ok(fields) = hold_clap(clap, size) else {
                    continue;
                };
                let [x, y, width, height, left, top, right, bottom] = fields;
                assert_eq!((left, top), (x, y), "{clap:?} of {size:?}");
                let sums = (left + width + right, top + height + bottom);
                assert_eq!(sums, size, "{clap:?}");
                taken += 1;
                for (most, margin) in most.iter_mut().zip([left, top, right, bottom]) {
                    *most = margin.max(*most);
                }
            }
        }
    }
    assert!(taken > 3_000, "{taken}");
    assert_eq!(most, [3; 4]);
}

/// Every aperture with small terms of every small input, along each axis.
#[test]
fn every_small_aperture() {
    for input in 0..=4 {
        for n in 0..=6 {
            for d in 0..=3 {
                for off_n in -5..=5i32 {
                    for off_d in 0..=3 {
                        let off_n = off_n.cast_unsigned();
                        let across = Clap::from_fields([n, d, 1, 1, off_n, off_d, 0, 1]);
                        let down = Clap::from_fields([1, 1, n, d, 0, 1, off_n, off_d]);
                        let stays = hold_clap(across, (input, 1));
                        let turned = hold_clap(down, (1, input));
                        assert_eq!(turned, stays.map(exchanged));
                    }
                }
            }
        }
    }
}

/// The largest numbers there are: products of 64 bits, edges at both ends.
#[test]
fn the_largest_apertures() {
    const MOST: u32 = u32::MAX;
    let ends = [0, 1, 2, 1 << 31, (1 << 31) - 1, MOST - 1, MOST];
    for n in ends {
        for off_n in ends {
            for off_d in ends {
                for input in ends {
                    let clap = Clap::from_fields([n, 1, 1, 1, off_n, off_d, 0, 1]);
                    let _ = hold_clap(clap, (input, 1));
                }
            }
        }
    }
    // The middle of the longest side.
    let clap = Clap::from_fields([1, 1, 1, 1, 0, MOST, 0, 1]);
    let middle = [MOST / 2, 0, 1, 1, MOST / 2, 0, MOST / 2, 0];
    assert_eq!(hold_clap(clap, (MOST, 1)), Ok(middle));
}

/// Document 01's case, the limits of a size that changes, and none for one that does not.
#[test]
fn scaled_sizes() {
    const SIDE: u32 = 1 << 26;
    for (fields, size, want) in [
        ([1, 2, 1, 1], (5, 1), Ok([3, 1])),
        ([1, 1, 1, 0], (0, 0), Err(7)),
        ([0, 1, 1, 1], (u32::MAX, 1), Err(7)),
        ([2, 1, 1, 1], (1 << 31, 1), Err(10)),
        ([2, 1, 1, 1], ((1 << 31) - 1, 1), Err(4)),
        ([1, 1, 65_535, 1], (1, 65_538), Err(10)),
        ([65_535, 1, 65_535, 1], (1, 1), Err(4)),
        ([1, 65_535, 1, 1], (SIDE + 1, 1), Err(4)),
        ([1, 65_535, 1, 1], (SIDE, 1), Ok([1_025, 1])),
        ([2, 1, 1, 1], (SIDE / 2, 1), Ok([SIDE, 1])),
        ([2, 1, 1, 1], (SIDE / 2 + 1, 1), Err(4)),
        ([1, 1, 1, 2], (SIDE + 1, 2), Err(4)),
        ([1, 2, 1, 1], (2, SIDE + 1), Err(4)),
        ([7, 7, 1, 1], (u32::MAX, u32::MAX), Ok([u32::MAX, u32::MAX])),
        ([65_535, 65_534, 1, 1], (0, 0), Ok([0, 0])),
    ] {
        let want = want.map_err(Refusal::new);
        assert_eq!(hold_iscl(Iscl::from_fields(fields), size), want);
    }
}

/// Every ratio of small terms of every small side, each axis with the other.
#[test]
fn every_small_ratio() {
    for size in (0..=3).flat_map(|width| (0..=3).map(move |height| (width, height))) {
        for code in 0..5u32.pow(4) {
            let term = |at: u32| (code / 5u32.pow(at) % 5) as u16;
            let iscl = Iscl::from_fields([term(0), term(1), term(2), term(3)]);
            let _ = hold_iscl(iscl, size);
        }
    }
}

#[test]
fn steps_of_the_paper() {
    assert_eq!(
        read_steps(&[6, 4, 2, 2, 1, 1, 3, 0, 1]),
        "step kind width height\n0 2 4 6\n1 3 4 6\n"
    );
}

#[test]
fn steps_cut_and_changed_anywhere() {
    let entries = [
        Property::Other,
        Property::Clap(Clap::from_fields([62, 1, 24, 1, 0, 1, u32::MAX - 11, 1])),
        Property::Irot(1),
        Property::Imir(0),
        Property::Iscl(Iscl::from_fields([1, 2, 3, 2])),
        Property::Iscl(Iscl::from_fields([65_535, 1, 65_535, 1])),
        Property::Other,
    ];
    let entries = entries.map(|property| Entry::new(false, property));
    let input = steps::input(64, 48, &chain_bytes(&entries));
    assert_eq!(
        read_steps(&input),
        "step kind width height\n0 0 64 48\n1 1 62 24\n2 2 24 62\n3 3 24 62\n4 4 12 93\n\
         5 4 refused 4\n"
    );
    each_damage(&input, read_steps);
}

/// The longest text that there is, and bytes that no text depends on.
#[test]
fn the_longest_steps() {
    let limit = 1u32 << 30;
    let chain = chain_bytes(&vec![Entry::new(false, Property::Irot(2)); 256]);
    let mut input = steps::input(limit, 1, &chain);
    let text = read_steps(&input);
    assert_eq!(text.lines().count(), 257);
    // Bytes left over are 5, however many they are.
    input.resize(1 << 20, 0);
    assert_eq!(read_steps(&input), "refused 5\n");
}
