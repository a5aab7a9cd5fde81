// The projector: a slope shown as the properties of its file say, and by single turns of the
// operator's knob; written against oxideav-heif's names.

use heif::compose::{
    apply_clap, apply_imir, apply_irot, apply_transforms, apply_transforms_owned, crop,
};
use heif::error::{Error, Result};
use heif::image::{Chroma, HeifFrame, HeifPixelFormat};
use heif::props::{Clap, CropRect, Imir, Irot, Iscl, Property, PropertyEntry};

fn slope(chroma: Chroma, depth: u8, alpha: bool) -> Result<HeifFrame> {
    let format = HeifPixelFormat::new(chroma, depth, alpha)?;
    let mut frame = HeifFrame::zeroed(37, 26, format)?;
    for plane in 0..format.plane_count() {
        let (width, height) = frame.plane_dims(plane);
        for y in 0..height {
            for x in 0..width {
                let sample = (x * 31 + y * 17 + plane as u32 * 101) % (u32::from(format.max_value()) + 1);
                frame.set_sample(plane, x, y, sample as u16);
            }
        }
    }
    Ok(frame)
}

/// Each form of slope under each chain, all entries and the essential ones alone, then step by step.
pub fn run() -> Result<Vec<HeifFrame>> {
    let part = CropRect {
        x: 3,
        y: 2,
        width: 20,
        height: 17,
    };
    let chains = [
        vec![],
        vec![PropertyEntry::new(1, true, Property::Irot(Irot::new(1)))],
        vec![
            PropertyEntry::new(1, true, Property::Clap(Clap::for_rect(37, 26, part))),
            PropertyEntry::new(2, false, Property::Irot(Irot::new(3))),
            PropertyEntry::new(3, true, Property::Imir(Imir::new(0))),
        ],
        vec![
            PropertyEntry::new(4, false, Property::Iscl(Iscl::new(2, 3, 5, 4))),
            PropertyEntry::new(5, true, Property::Imir(Imir::new(1))),
            PropertyEntry::new(6, false, Property::Clap(Clap::integer(15, 9, 0, 0))),
            PropertyEntry::new(7, true, Property::Irot(Irot::new(2))),
        ],
    ];
    let mut shown = Vec::new();
    for (chroma, depth, alpha) in [
        (Chroma::Mono, 8, false),
        (Chroma::Yuv420, 8, true),
        (Chroma::Yuv422, 12, false),
        (Chroma::Yuv444, 16, true),
    ] {
        let slope = slope(chroma, depth, alpha)?;
        for chain in &chains {
            for essential_only in [false, true] {
                shown.push(apply_transforms(&slope, chain, essential_only)?);
                shown.push(apply_transforms_owned(slope.clone(), chain, essential_only)?);
            }
        }
        let turned = apply_irot(&slope, &Irot::new(1))?;
        let mirrored = apply_imir(&turned, &Imir::new(1))?;
        shown.push(apply_clap(&mirrored, &Clap::integer(24, 35, 0, 0))?);
        shown.push(crop(&mirrored, 2, 4, 10, 12)?);
        shown.push(mirrored);
    }
    Ok(shown)
}

/// What the projector turns away: an aperture that has no whole edge, a scale of 0, a part outside.
pub fn turned_away() -> Vec<Option<Error>> {
    let slope = slope(Chroma::Yuv420, 8, false).expect("a frame");
    let one = |property| {
        let chain = [PropertyEntry::new(1, true, property)];
        apply_transforms(&slope, &chain, true).err()
    };
    vec![
        one(Property::Clap(Clap::integer(36, 26, 0, 0))),
        one(Property::Iscl(Iscl::new(1, 0, 1, 1))),
        one(Property::Irot(Irot::new(200))),
        crop(&slope, 30, 0, 8, 1).err(),
    ]
}
