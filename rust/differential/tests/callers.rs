//! Programs written against oxideav-heif's names, one for each caller and one more for the names
//! that these have no need of. Each is one source that is
//! compiled twice, with the crate `compose` as `heif` and with the published Rust, and gives the
//! same pictures and turns the same things away.

use compose::{About, Refusal};

/// A program as its own module, where `heif` is `$heif`.
macro_rules! callers {
    ($heif:path) => {
        pub mod slope_importer {
            use $heif as heif;
            include!("callers/slope_importer.rs");
        }
        pub mod marker_desk {
            use $heif as heif;
            include!("callers/marker_desk.rs");
        }
        pub mod projector {
            use $heif as heif;
            include!("callers/projector.rs");
        }
        pub mod names {
            use $heif as heif;
            include!("callers/names.rs");
        }
    };
}

/// Over the proved calls.
mod ours {
    callers! { ::compose }
}

oracle::where_present! {
    /// Over the published Rust.
    mod published {
        callers! { ::oracle }
    }

    /// Both runs of a program, frame by frame and field by field.
    macro_rules! alike {
        ($program:ident, $pictures:literal) => {
            let ours = ours::$program::run().expect("pictures");
            let theirs = published::$program::run().expect("pictures");
            assert_eq!((ours.len(), theirs.len()), ($pictures, $pictures));
            for (at, (ours, theirs)) in ours.iter().zip(&theirs).enumerate() {
                assert_eq!((ours.width, ours.height), (theirs.width, theirs.height), "{at}");
                let (one, other) = (ours.format, theirs.format);
                assert_eq!(one.chroma.idc(), other.chroma.idc(), "{at}");
                assert_eq!(one.bit_depth, other.bit_depth, "{at}");
                assert_eq!(one.has_alpha, other.has_alpha, "{at}");
                assert_eq!(ours.planes.len(), theirs.planes.len(), "{at}");
                for (one, other) in ours.planes.iter().zip(&theirs.planes) {
                    assert_eq!(one.stride, other.stride, "{at}");
                    assert!(one.data == other.data, "{at}");
                }
            }
            let ours = ours::$program::turned_away();
            let theirs = published::$program::turned_away();
            assert_eq!(ours.len(), theirs.len());
            for (at, (ours, theirs)) in ours.iter().zip(&theirs).enumerate() {
                assert_eq!(ours.is_some(), theirs.is_some(), "{at}");
            }
        };
    }

    #[test]
    fn the_slope_importer_sees_the_same_pictures() {
        alike!(slope_importer, 4);
    }

    #[test]
    fn the_marker_desk_sees_the_same_pictures() {
        alike!(marker_desk, 4);
    }

    #[test]
    fn the_projector_sees_the_same_pictures() {
        alike!(projector, 76);
    }

    #[test]
    fn names_stand_for_the_same() {
        alike!(names, 5);
    }
}

#[test]
fn the_callers_run_over_the_proved_calls() {
    assert_eq!(ours::slope_importer::run().map(|made| made.len()), Ok(4));
    assert_eq!(ours::marker_desk::run().map(|made| made.len()), Ok(4));
    assert_eq!(ours::projector::run().map(|made| made.len()), Ok(76));
    assert_eq!(ours::names::run().map(|made| made.len()), Ok(5));
}

/// What the proved calls turn away, and the tile, the input or the property that it is about.
#[test]
fn the_callers_are_told_what_is_refused() {
    let second = |refusal: Refusal| Some(refusal.of_item(About::Record, 1));
    let property = |refusal: Refusal| Some(refusal.of_item(About::Entry, 0));
    let (count, missing) = (Some(Refusal::COUNT), Some(Refusal::MISSING));
    assert_eq!(
        ours::slope_importer::turned_away(),
        [count, second(Refusal::TILE), Some(Refusal::COVER), None]
    );
    assert_eq!(
        ours::marker_desk::turned_away(),
        [missing, count, second(Refusal::LAYOUT), None]
    );
    let (fraction, zero) = (property(Refusal::FRACTION), property(Refusal::ZERO));
    assert_eq!(
        ours::projector::turned_away(),
        [fraction, zero, None, Some(Refusal::OUTSIDE)]
    );
    assert_eq!(
        ours::names::turned_away(),
        [Refusal::LIMIT, Refusal::LIMIT, Refusal::TILE].map(Some)
    );
}
