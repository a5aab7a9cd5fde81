//! Records and trays, read by the model and by the composer: the same refusal, or the same form and
//! places, on every fault and every few faults at once, every cut and every changed byte.

use compose::{sys, tray};
use differential::compare::{Sides, hex};
use differential::damage::{each_choice, faulty_record, faulty_tray};
use differential::expected::{self, Stop};
use differential::generate::{self, Form};
use differential::ours::{self, Composer, Linked};
use differential::rng::Rng;
use model::refusal::{DEPTH, MALFORMED, ROOM};
use model::{
    Chroma, Frame, Item, Layout, Place, Refusal, number_bytes, parse_record, parse_tray,
    tray_bytes, tray_count,
};
use std::io::Cursor;

/// Both readings of a record, held together.
fn read_record(bytes: &[u8]) -> Result<Layout, Refusal> {
    let read = parse_record(bytes).map(|frame| frame.layout());
    assert_eq!(Linked.record(bytes).as_ref(), Some(&read), "{}", hex(bytes));
    let outline = compose::record::outline(&mut Cursor::new(bytes)).expect("a file");
    assert_eq!(
        compose::record::inspect(&outline),
        compose::record::inspect(bytes),
        "{}",
        hex(bytes)
    );
    read
}

/// Both readings of a tray, held together: its count, or the record that is refused.
fn read_tray(bytes: &[u8]) -> Result<u32, Refusal> {
    let read = parse_tray(bytes).map(|frames| frames.len() as u32);
    assert_eq!(Linked.tray(bytes).as_ref(), Some(&read), "{}", hex(bytes));
    let outline = tray::outline(&mut Cursor::new(bytes)).expect("a file");
    assert_eq!(tray::count(&outline), tray::count(bytes), "{}", hex(bytes));
    let index = tray::count(bytes).err().and_then(compose::Refusal::index);
    let item = read.err().and_then(|refusal| refusal.item);
    assert_eq!(index.map(Item::Record), item, "{}", hex(bytes));
    // Without a count there is no record.
    assert!(tray_count(bytes).is_ok() || item.is_none());
    read
}

/// A record's refusal, which is of no item.
fn record_refusal(bytes: &[u8]) -> Option<u8> {
    let refusal = read_record(bytes).err()?;
    assert_eq!(refusal.item, None);
    Some(refusal.number)
}

fn tray_refusal(bytes: &[u8]) -> Option<Refusal> {
    read_tray(bytes).err()
}

/// A record's bytes with the given header and the planes that follow.
fn record(header: [u32; 5], planes: &[u8]) -> Vec<u8> {
    let mut bytes: Vec<u8> = header.into_iter().flat_map(number_bytes).collect();
    bytes.extend_from_slice(planes);
    bytes
}

#[test]
fn each_refusal_of_a_record() {
    let one = [1, 1, 7];
    for (header, planes, number) in [
        ([1, 1, 0, 8, 0], &one[..], None),
        // 5: chroma above 3, alpha above 1, judged as numbers and before depth and sides.
        ([0, 0, 4, 0, 0], &one, Some(5)),
        ([0, 0, 0, 0, 2], &one, Some(5)),
        ([1, 1, 256, 8, 0], &one, Some(5)),
        ([1, 1, 0, 8, 256], &one, Some(5)),
        // 6: depth outside 8 to 16, before the sides.
        ([0, 0, 0, 7, 0], &one, Some(6)),
        ([0, 0, 3, 17, 1], &one, Some(6)),
        ([1, 1, 0, 264, 0], &one, Some(6)),
        // 3: a side 0, before the limit.
        ([0, u32::MAX, 0, 8, 0], &one, Some(3)),
        ([u32::MAX, 0, 0, 8, 0], &one, Some(3)),
        // 4: above 2^30 pixels; at 2^30 the planes are judged.
        ([1 << 30, 2, 0, 8, 0], &one, Some(4)),
        ([32_768, 32_769, 0, 8, 0], &one, Some(4)),
        ([32_768, 32_768, 0, 8, 0], &one, Some(5)),
        ([1 << 30, 1, 0, 8, 0], &one, Some(5)),
        // 5: stride below a row, data short, data past the end, bytes left over.
        ([1, 1, 0, 8, 0], &[0, 1, 7], Some(5)),
        ([1, 1, 0, 8, 0], &[1, 0], Some(5)),
        ([1, 1, 0, 8, 0], &[1, 2, 7], Some(5)),
        ([1, 1, 0, 8, 0], &[1, 1, 7, 0], Some(5)),
        ([1, 1, 0, 8, 0], &[], Some(5)),
        ([1, 1, 0, 8, 0], &[1], Some(5)),
        ([1, 1, 0, 8, 0], &[0x81, 0x00, 1, 7], Some(5)),
        // The last row need not be as long as the stride; spare data is legal.
        ([1, 2, 0, 8, 0], &[3, 4, 7, 0, 0, 7], None),
        ([1, 2, 0, 8, 0], &[3, 3, 7, 0, 0], Some(5)),
        ([1, 2, 0, 8, 0], &[3, 5, 7, 0, 0, 7, 9], None),
        // An odd stride with two-byte samples is legal.
        ([1, 2, 0, 9, 0], &[3, 5, 7, 1, 0, 7, 1], None),
        // A missing plane.
        ([1, 1, 0, 8, 1], &one, Some(5)),
        ([1, 1, 0, 8, 1], &[1, 1, 7, 1, 1, 7], None),
        ([1, 1, 1, 8, 0], &[1, 1, 7, 1, 1, 7], Some(5)),
        ([1, 1, 1, 8, 0], &[1, 1, 7, 1, 1, 7, 1, 1, 7], None),
    ] {
        let bytes = record(header, planes);
        assert_eq!(record_refusal(&bytes), number, "{}", hex(&bytes));
    }
    // The header cut at every byte.
    let header = record([300, 300, 0, 8, 0], &[]);
    for end in 0..header.len() {
        assert_eq!(record_refusal(&header[..end]), Some(5));
    }
}

#[test]
fn faulty_records_have_the_first_faults_number() {
    for (faults, bytes, refusal) in each_choice(20, faulty_record) {
        let shows = format!("{faults:?} {}", hex(&bytes));
        assert_eq!(record_refusal(&bytes), Some(refusal.number), "{shows}");
    }
}

#[test]
fn a_tray_is_its_records_and_nothing_after() {
    let one = Frame::mono(1, 1, &[7]);
    assert_eq!(tray_refusal(&[]), Some(MALFORMED));
    assert_eq!(tray_refusal(&[0]), None);
    assert_eq!(tray_refusal(&[0, 0]), Some(MALFORMED));
    assert_eq!(tray_refusal(&[1]), Some(MALFORMED.of_record(0)));
    let mut tray = tray_bytes(&[one.clone(), one]);
    assert_eq!(tray_refusal(&tray), None);
    // The second record's fault comes before the bytes left over.
    let depth = tray.len() - 5;
    tray[depth] = 17;
    tray.push(0);
    assert_eq!(tray_refusal(&tray), Some(DEPTH.of_record(1)));
    // A count of 2^32 − 1 is read record by record.
    let most = [0xff, 0xff, 0xff, 0xff, 0x0f];
    assert_eq!(tray_refusal(&most), Some(MALFORMED.of_record(0)));
    // A count that is cut, padded, above 2^32 − 1 or too long is no record's.
    let counts: [&[u8]; 4] = [
        &[0x81],
        &[0x81, 0],
        &[0xff, 0xff, 0xff, 0xff, 0x10],
        &[0x80, 0x80, 0x80, 0x80, 0x80, 1],
    ];
    for count in counts {
        assert_eq!(tray_refusal(count), Some(MALFORMED), "{}", hex(count));
    }
}

/// By the model, by the composer and where the oracle judges the planes.
#[test]
fn faulty_trays_have_the_first_faults_refusal() {
    let choices = each_choice(2, faulty_tray);
    for (faults, bytes, refusal) in &choices {
        let shows = format!("{faults:?} {}", hex(bytes));
        assert_eq!(tray_refusal(bytes), Some(*refusal), "{shows}");
    }
    for (_, build) in Sides::open().iter().flat_map(Sides::builds) {
        for (faults, bytes, refusal) in &choices {
            let want = expected::tray(build, bytes);
            assert_eq!(want, Err(Stop::Refused(*refusal)), "{faults:?}");
        }
    }
}

/// A place by its three numbers.
fn place([start, length, stride]: [usize; 3]) -> Place {
    Place {
        start,
        length,
        stride,
    }
}

#[test]
fn a_layout_says_where_the_planes_stand() {
    for (header, planes, places) in [
        // Mono: the other parts have no bytes, and stand where they would.
        (
            [2, 1, 0, 8, 0],
            &[2, 3, 10, 20, 99][..],
            [[7, 3, 2], [10, 0, 0], [10, 0, 0], [10, 0, 0]],
        ),
        // Mono with alpha: Cb and Cr stand between the two.
        (
            [1, 1, 0, 8, 1],
            &[1, 1, 10, 3, 2, 20, 99],
            [[7, 1, 1], [8, 0, 0], [8, 0, 0], [10, 2, 3]],
        ),
        // 4:2:2 of depth 9, Cb at an odd stride.
        (
            [3, 1, 2, 9, 0],
            &[6, 6, 1, 0, 2, 0, 3, 0, 5, 4, 4, 0, 5, 0, 4, 4, 6, 0, 7, 0],
            [[7, 6, 6], [15, 4, 5], [21, 4, 4], [25, 0, 0]],
        ),
        // A width, a stride and a length of two bytes each.
        (
            [128, 1, 0, 8, 0],
            &[&[0x80, 1, 0x80, 1][..], &[7; 128]].concat(),
            [[10, 128, 128], [138, 0, 0], [138, 0, 0], [138, 0, 0]],
        ),
    ] {
        let places = places.map(place);
        assert_eq!(
            read_record(&record(header, planes)),
            Ok(Layout { header, places })
        );
    }
}

/// A frame of each chroma, with alpha and without, at three depths and each of `sizes`.
fn frames(sizes: &[(u32, u32)]) -> Vec<Frame> {
    let mut rng = Rng::new(5);
    let mut frames = Vec::new();
    for chroma in Chroma::ALL {
        for (alpha, depth) in [(0, 8), (0, 9), (0, 16), (1, 8), (1, 9), (1, 16)] {
            let form = Form {
                chroma,
                depth,
                alpha,
            };
            let made = sizes
                .iter()
                .map(|size| generate::frame_of(&mut rng, *size, form, true));
            frames.extend(made);
        }
    }
    frames
}

/// Small records, most with padding or spare bytes.
fn small_frames() -> Vec<Frame> {
    frames(&[(1, 1), (2, 1), (1, 2), (3, 2)])
}

/// Small trays of none to three records.
fn small_trays() -> Vec<Vec<u8>> {
    let frames = frames(&[(1, 1), (1, 2)]);
    let mut trays: Vec<Vec<u8>> = frames.chunks(3).map(tray_bytes).collect();
    trays.extend([
        tray_bytes(&[]),
        tray_bytes(&frames[..1]),
        tray_bytes(&frames[..2]),
    ]);
    trays
}

/// Every beginning of `bytes`, the rest standing behind it.
fn each_cut(bytes: &[u8], read: impl Fn(&[u8])) {
    for end in 0..=bytes.len() {
        read(&bytes[..end]);
    }
}

/// `bytes` with each byte changed to each other value.
fn each_change(bytes: &[u8], read: impl Fn(&[u8])) {
    let mut changed = bytes.to_vec();
    for at in 0..bytes.len() {
        for change in 1..=255 {
            changed[at] = bytes[at] ^ change;
            read(&changed);
        }
        changed[at] = bytes[at];
    }
}

fn hold_record(bytes: &[u8]) {
    let _ = read_record(bytes);
}

fn hold_tray(bytes: &[u8]) {
    let _ = read_tray(bytes);
}

#[test]
fn records_cut_anywhere() {
    for frame in frames(&[(1, 1), (3, 2), (20, 7), (130, 3)]) {
        let bytes = frame.record();
        assert_eq!(record_refusal(&bytes), None);
        each_cut(&bytes, hold_record);
    }
}

#[test]
fn records_with_any_byte_changed() {
    for frame in small_frames() {
        each_change(&frame.record(), hold_record);
    }
}

#[test]
fn the_smallest_record_with_any_two_bytes_changed() {
    let bytes = Frame::mono(1, 1, &[7]).record();
    each_change(&bytes, |changed| each_change(changed, hold_record));
}

/// A tray that ends in a record, or before it, is that record's 5.
#[test]
fn trays_cut_anywhere() {
    for bytes in small_trays() {
        assert_eq!(tray_refusal(&bytes), None);
        let frames = parse_tray(&bytes).expect("a tray");
        let mut ends = vec![1];
        for frame in &frames {
            ends.push(ends[ends.len() - 1] + frame.record().len());
        }
        each_cut(&bytes, |cut| {
            let whole = ends.iter().filter(|end| **end <= cut.len()).count();
            let refusal = match whole {
                0 => Some(MALFORMED),
                whole if whole > frames.len() => None,
                whole => Some(MALFORMED.of_record(whole - 1)),
            };
            assert_eq!(tray_refusal(cut), refusal, "{}", hex(cut));
        });
    }
}

#[test]
fn trays_with_any_byte_changed() {
    for bytes in small_trays() {
        each_change(&bytes, hold_tray);
    }
}

/// The 17 words of a layout.
fn words(layout: &Layout) -> Vec<u64> {
    let places = layout.places.iter();
    let places = places.flat_map(|place| [place.start, place.length, place.stride]);
    let header = layout.header.map(u64::from).into_iter();
    header.chain(places.map(|word| word as u64)).collect()
}

/// Lends answers of no word to 20. 17 comes after every other refusal; a refusal leaves each word
/// as it was; words past the seventeenth stay.
fn lend_answers(bytes: &[u8]) {
    const BEFORE: u64 = 0xa5a5_a5a5_a5a5_a5a5;
    let read = read_record(bytes);
    for length in 0..=20 {
        let mut answer = vec![BEFORE; length];
        let said = sys::compose_record(bytes, &mut answer).map_err(ours::refusal);
        let mut after = vec![BEFORE; length];
        let wanted = match &read {
            Err(refusal) => Err(*refusal),
            Ok(_) if length < 17 => Err(ROOM),
            Ok(layout) => {
                after[..17].copy_from_slice(&words(layout));
                Ok(0)
            }
        };
        assert_eq!((said, answer), (wanted, after), "{}", hex(bytes));
    }
}

#[test]
fn answers_of_any_length() {
    for frame in small_frames() {
        lend_answers(&frame.record());
    }
    for (_, bytes, _) in each_choice(2, faulty_record) {
        lend_answers(&bytes);
    }
}
