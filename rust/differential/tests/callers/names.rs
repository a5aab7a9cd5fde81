// Names of the composing part that no caller above needs, each used once; written against
// oxideav-heif's names.

use heif::compose::{GridCanvas, needs_444, resize_area};
use heif::derived::{GridDescriptor, MAX_CANVAS_PIXELS, MAX_DERIVATION_INPUTS, OverlayDescriptor};
use heif::error::{Error, Result};
#[allow(deprecated)]
use heif::image::HeifPlane;
use heif::image::{Chroma, HeifFrame, HeifPixelFormat, MAX_FRAME_PIXELS};
use heif::props::Colr;

/// A row of four, 4:2:2, with the shape of the old plane.
#[allow(deprecated)]
fn row() -> Result<HeifFrame> {
    let planes = [vec![1, 2, 3, 4], vec![5, 6], vec![7, 8]];
    let planes = planes.map(|data| HeifPlane::new(data.len(), data)).to_vec();
    let format = HeifPixelFormat::new(Chroma::Yuv422, 8, false)?;
    Ok(HeifFrame::new(4, 1, format, planes))
}

pub fn run() -> Result<Vec<HeifFrame>> {
    let row = row()?;
    assert!(needs_444(Chroma::Yuv422, true, false) && !needs_444(Chroma::Yuv422, false, true));
    assert!(!Colr::MIAF_DEFAULT.is_icc());
    let alpha = HeifFrame::filled(4, 1, HeifPixelFormat::new(Chroma::Mono, 8, false)?, 200)?;
    let shining = row.with_alpha_plane(&alpha)?;
    let mut canvas = GridCanvas::new(&GridDescriptor::new(1, 2, 8, 1));
    canvas.place(1, &shining)?;
    canvas.place_blank(0)?;
    Ok(vec![
        row.promote_to_444()?,
        shining.promote_to_444()?,
        alpha.promote_to_444()?,
        canvas.finish()?,
        resize_area(&row, 3, 2)?,
    ])
}

/// A canvas and a list of inputs above their limits, and an alpha of another size.
pub fn turned_away() -> Vec<Option<Error>> {
    let side = u32::try_from(MAX_CANVAS_PIXELS.min(MAX_FRAME_PIXELS)).expect("a side");
    let grid = [&[0, 1, 0, 0], &side.to_be_bytes()[..], &[0, 0, 0, 2]].concat();
    let overlay = OverlayDescriptor::new([0; 4], 1, 1, vec![(0, 0)]);
    let mono = HeifPixelFormat::new(Chroma::Mono, 8, false).expect("a depth");
    let alpha = HeifFrame::zeroed(3, 1, mono).expect("a frame");
    vec![
        GridDescriptor::parse(&grid).err(),
        OverlayDescriptor::parse(&overlay.to_bytes(), MAX_DERIVATION_INPUTS + 1).err(),
        row().expect("a frame").with_alpha_plane(&alpha).err(),
    ]
}
