// The slope importer: a photograph that comes as tiles of 10 bits, its last row and column cut by the
// canvas, with a mask of what lies in the shade; written against oxideav-heif's names.

use heif::compose::{apply_iscl, attach_alpha, composite_grid, crop, rescale_depth, resize_nearest};
use heif::derived::GridDescriptor;
use heif::error::{Error, Result};
use heif::image::{Chroma, HeifFrame, HeifPixelFormat, Plane};
use heif::props::Iscl;

/// One tile of a photograph: snow that darkens to the right and downward, with debris in it.
fn tile(column: u32, row: u32, format: HeifPixelFormat) -> Result<HeifFrame> {
    let mut tile = HeifFrame::zeroed(20, 16, format)?;
    for plane in 0..format.plane_count() {
        let (width, height) = tile.plane_dims(plane);
        for y in 0..height {
            for x in 0..width {
                let place = (column * width + x) * 7 + (row * height + y) * 11;
                let debris = place * 7_919 % 97;
                let light = 900 - place % 600 - debris;
                tile.set_sample(plane, x, y, light as u16);
            }
        }
    }
    Ok(tile)
}

/// What is kept of a photograph: the slope at 8 bits with the shade as alpha, a small picture of it,
/// and one for the list of slopes.
pub fn run() -> Result<Vec<HeifFrame>> {
    // Two rows of three tiles; the canvas is 57 × 31.
    let body = [0, 0, 1, 2, 0, 57, 0, 31];
    let grid = GridDescriptor::parse(&body)?;
    let format = HeifPixelFormat::new(Chroma::Yuv420, 10, false)?;
    let mut tiles = Vec::new();
    for row in 0..u32::from(grid.rows) {
        for column in 0..u32::from(grid.columns) {
            tiles.push(tile(column, row, format)?);
        }
    }
    assert_eq!(tiles.len(), grid.tile_count());
    let slope = rescale_depth(&composite_grid(&grid, &tiles)?, 8)?;

    // The shade comes at half the size, in one plane whose rows are padded.
    let shade = HeifPixelFormat::new(Chroma::Mono, 8, false)?;
    let data = (0..32 * 16).map(|at| (at * 13 % 256) as u8).collect();
    let shade = HeifFrame::new(28, 15, shade, vec![Plane::new(32, data)]);
    shade.validate()?;
    let shaded = attach_alpha(&slope, &shade)?;

    let small = apply_iscl(&shaded, &Iscl::new(1, 3, 2, 5))?;
    let listed = resize_nearest(&crop(&slope, 3, 2, 40, 25)?, 16, 10)?;
    Ok(vec![slope, shaded, small, listed])
}

/// What the importer turns away: too few tiles, tiles of another size, tiles that do not cover it.
pub fn turned_away() -> Vec<Option<Error>> {
    let format = HeifPixelFormat::new(Chroma::Yuv422, 8, false).expect("a depth");
    let of = |width, height| HeifFrame::filled(width, height, format, 9).expect("a frame");
    let grid = GridDescriptor::new(1, 2, 30, 16);
    [
        vec![of(20, 16)],
        vec![of(20, 16), of(20, 15)],
        vec![of(14, 16), of(14, 16)],
        vec![of(20, 16), of(20, 16)],
    ]
    .iter()
    .map(|tiles| composite_grid(&grid, tiles).err())
    .collect()
}
