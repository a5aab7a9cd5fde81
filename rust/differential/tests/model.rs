//! The model of document 01's formats: house numbers, chains and what is written back.

use differential::damage::{BOUNDARIES, each_choice, faulty_chain};
use differential::generate;
use differential::rng::Rng;
use model::refusal::{LIMIT, MALFORMED};
use model::{
    Chroma, Clap, Entry, Frame, Property, Reader, Refusal, chain_bytes, number_bytes, parse_chain,
    parse_record, parse_tray, tray_bytes, tray_count,
};

#[test]
fn faulty_chains_have_the_first_faults_refusal() {
    for (faults, bytes, refusal) in each_choice(20, faulty_chain) {
        assert_eq!(
            parse_chain(&bytes).err(),
            Some(refusal),
            "{faults:?} {bytes:02x?}"
        );
    }
}

#[test]
fn valid_inputs_come_back() {
    let mut rng = Rng::new(2);
    for _ in 0..2_000 {
        let frames: Vec<Frame> = (0..rng.below(3))
            .map(|_| generate::frame(&mut rng))
            .collect();
        for frame in &frames {
            assert_eq!(parse_record(&frame.record()).as_ref(), Ok(frame));
        }
        let tray = tray_bytes(&frames);
        assert_eq!(tray_count(&tray), Ok(frames.len() as u32));
        assert_eq!(parse_tray(&tray), Ok(frames));
        let chain = generate::chain(&mut rng, (5, 7));
        assert_eq!(parse_chain(&chain_bytes(&chain)), Ok(chain));
    }
}

/// The number at the front of `bytes`, and how many bytes are left.
fn read_number(bytes: &[u8]) -> Result<(u32, usize), Refusal> {
    let mut reader = Reader::new(bytes);
    Ok((reader.number()?, reader.rest().len()))
}

#[test]
fn house_numbers_have_one_form() {
    let lengths = [1, 1, 1, 2, 2, 3, 3, 4, 4, 5, 5, 5];
    for (value, length) in BOUNDARIES.into_iter().zip(lengths) {
        let bytes = number_bytes(value);
        assert_eq!(bytes.len(), length, "{value}");
        assert_eq!(read_number(&bytes), Ok((value, 0)));
        assert_eq!(read_number(&[&bytes[..], &[9, 9]].concat()), Ok((value, 2)));
        for end in 0..bytes.len() {
            let cut = read_number(&bytes[..end]);
            assert_eq!(cut, Err(MALFORMED), "{value} cut to {end}");
        }
    }
}

#[test]
fn malformed_house_numbers_are_5() {
    for bytes in [
        &[][..],
        &[0x80],
        // A last group of 0 in a longer form.
        &[0x80, 0x00],
        &[0xff, 0x80, 0x00],
        &[0xff, 0xff, 0xff, 0xff, 0x00],
        // 2^32, and the largest that five bytes can say.
        &[0x80, 0x80, 0x80, 0x80, 0x10],
        &[0xff, 0xff, 0xff, 0xff, 0x7f],
        // Longer than five bytes.
        &[0x80, 0x80, 0x80, 0x80, 0x80, 0x01],
        &[0xff, 0xff, 0xff, 0xff, 0x8f, 0x00],
    ] {
        assert_eq!(read_number(bytes), Err(MALFORMED), "{bytes:02x?}");
    }
    assert_eq!(
        read_number(&[0xff, 0xff, 0xff, 0xff, 0x0f]),
        Ok((u32::MAX, 0))
    );
}

#[test]
fn chroma_sides_are_halved_and_rounded_up() {
    for (chroma, size) in Chroma::ALL
        .into_iter()
        .zip([(5, 3), (3, 2), (3, 3), (5, 3)])
    {
        let frame = Frame::tight((5, 3), chroma, 8, 0, &[]);
        assert_eq!(frame.plane_size(0), (5, 3));
        assert_eq!(frame.plane_size(1), size);
    }
    let with_alpha = Frame::tight((5, 3), Chroma::Yuv420, 8, 1, &[]);
    assert_eq!(with_alpha.plane_size(3), (5, 3));
}

#[test]
fn a_chain_holds_256_entries() {
    let other = Entry::new(true, Property::Other);
    assert_eq!(
        parse_chain(&chain_bytes(&[other; 256])).map(|chain| chain.len()),
        Ok(256)
    );
    let above = parse_chain(&chain_bytes(&[other; 257]));
    assert_eq!(above.err(), Some(LIMIT));
    // 4 once the count is read, whatever follows; an unreadable count is 5.
    assert_eq!(parse_chain(&[0x81, 0x02]).err(), Some(LIMIT));
    assert_eq!(parse_chain(&[0x81]).err(), Some(MALFORMED));
    let angle = parse_chain(&[1, 2, 1, 0x80, 0x02]);
    assert_eq!(angle.err(), Some(MALFORMED.of_entry(0)));
    assert_eq!(
        parse_chain(&[1, 2, 1, 0xff, 0x01]).map(|chain| chain.len()),
        Ok(1)
    );
}

#[test]
fn clap_offsets_are_signed_patterns() {
    let fields = [3, 1, 3, 1, u32::MAX, 2, 0x8000_0000, 1];
    let numbers = fields.into_iter().flat_map(number_bytes);
    let chain: Vec<u8> = [1, 1, 1].into_iter().chain(numbers).collect();
    let clap = Clap::from_fields(fields);
    assert_eq!((clap.horizontal_n, clap.vertical_n), (-1, i32::MIN));
    assert_eq!(clap.fields(), fields);
    let entry = Entry::new(true, Property::Clap(clap));
    assert_eq!(parse_chain(&chain), Ok(vec![entry]));
}
