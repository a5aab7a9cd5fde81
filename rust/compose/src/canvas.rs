//! A grid's canvas that takes its tiles one by one, with oxideav-heif's name.
//!
//! ```
//! use compose::image::{Chroma, HeifFrame, HeifPixelFormat};
//! use compose::{GridCanvas, GridDescriptor, composite_grid};
//!
//! let format = HeifPixelFormat::new(Chroma::Mono, 8, false)?;
//! let tiles = [HeifFrame::filled(2, 2, format, 1)?, HeifFrame::filled(2, 2, format, 5)?];
//! let desc = GridDescriptor::new(1, 2, 3, 2);
//!
//! let mut canvas = GridCanvas::new(&desc);
//! canvas.place(1, &tiles[1])?;
//! canvas.place_blank(0)?;
//! // A cell that is placed again is overwritten.
//! canvas.place(0, &tiles[0])?;
//! assert_eq!(canvas.finish()?, composite_grid(&desc, &tiles)?);
//!
//! let refusal = GridCanvas::new(&desc).finish().unwrap_err();
//! assert_eq!((refusal.number(), refusal.name()), (15, "missing"));
//! # Ok::<(), compose::Refusal>(())
//! ```

use crate::composite::Recorded;
use crate::derived::GridDescriptor;
use crate::form::Form;
use crate::image::HeifFrame;
use crate::lend::buffer;
use crate::recorded::RecordFrame;
use crate::{Refusal, Result, sys};
use std::mem;

/// How many words a session's state has: the grid's four numbers, the first tile's five, whether a
/// tile had alpha, and a bit for each of 65,536 cells.
pub const STATE_WORDS: usize = 1034;

/// A canvas on which tiles are placed in any order; a tile is not kept. When no cell is blank the
/// picture is that of [`composite_grid`](crate::composite_grid) over the same tiles.
#[derive(Clone, Debug)]
pub struct GridCanvas {
    desc: GridDescriptor,
    /// Or why there is no canvas for `desc`, which every call then refuses with.
    state: Result<Box<[u64]>>,
    buffer: Vec<u8>,
    /// The record of the tile that is being placed.
    tile: Vec<u8>,
}

/// The index of a cell; one that is too great for a call is outside.
fn cell(index: usize) -> u32 {
    u32::try_from(index).unwrap_or(u32::MAX)
}

impl GridCanvas {
    /// A canvas on which nothing is placed.
    pub fn new(desc: &GridDescriptor) -> Self {
        let mut words = vec![0; STATE_WORDS].into_boxed_slice();
        let body = desc.body();
        let started = body.and_then(|body| sys::compose_canvas_start(&body, &mut words));
        Self {
            desc: *desc,
            state: started.map(|_| words),
            buffer: Vec::new(),
            tile: Vec::new(),
        }
    }

    /// A tile in its cell, over what is there; one without alpha leaves the alpha there. Refusals:
    /// 11 an index outside; the frame's; 12, 13, 14.
    pub fn place(&mut self, index: usize, t: &HeifFrame) -> Result<()> {
        // The cell is judged before the frame.
        self.state.as_ref().map_err(|refusal| *refusal)?;
        if index < self.desc.tile_count() {
            t.validate()?;
            self.tile.clear();
            t.push_record(&mut self.tile);
        }
        let tile = mem::take(&mut self.tile);
        let placed = self.place_bytes(index, &tile, t.form());
        self.tile = tile;
        placed
    }

    /// The same of a tile over its record, which is not copied.
    pub fn place_record(&mut self, index: usize, t: &RecordFrame) -> Result<()> {
        self.place_bytes(index, t.as_record(), t.info().form())
    }

    /// A tile's record in its cell.
    fn place_bytes(&mut self, index: usize, tile: &[u8], form: Form) -> Result<()> {
        let state = self.state.as_mut().map_err(|refusal| *refusal)?;
        let index = cell(index);
        match sys::compose_canvas_place(state, index, tile, &mut self.buffer) {
            Err(refusal) if refusal.is(Refusal::ROOM) => {}
            answer => return answer.map(drop),
        }
        // Only the first tile that is accepted finds too little room: the canvas's record has an
        // alpha plane reserved.
        let format = form.format.with_alpha();
        let canvas = Form { format, ..form }.on_grid(&self.desc);
        let mut buffer = buffer(canvas.ok_or(Refusal::ROOM)?.into())?;
        sys::compose_canvas_place(state, index, tile, &mut buffer)?;
        self.buffer = buffer;
        Ok(())
    }

    /// A blank cell: middle grey in the first tile's form, opaque. Refusals: 15 nothing is placed
    /// yet; 11 an index outside.
    pub fn place_blank(&mut self, index: usize) -> Result<()> {
        let state = self.state.as_mut().map_err(|refusal| *refusal)?;
        sys::compose_canvas_blank(state, cell(index), &mut self.buffer).map(drop)
    }

    /// The picture. Refusal: 15 a cell is missing.
    pub fn finish(self) -> Result<HeifFrame> {
        HeifFrame::from_record(&self.finished()?)
    }

    /// The same over its record, which is the canvas's own.
    pub fn finish_record(self) -> Result<RecordFrame<'static>> {
        RecordFrame::from_record(self.finished()?)
    }

    /// The picture's record.
    fn finished(mut self) -> Result<Vec<u8>> {
        let length = sys::compose_canvas_finish(&self.state?, &self.buffer)?;
        let length = usize::try_from(length).expect("a length of the buffer");
        self.buffer.truncate(length);
        Ok(self.buffer)
    }
}

#[cfg(test)]
mod tests {
    use super::{GridCanvas, STATE_WORDS};
    use crate::image::{Chroma, HeifFrame, HeifPixelFormat, Plane};
    use crate::{GridDescriptor, Refusal, composite_grid, sys};

    fn mono(width: u32, height: u32, data: Vec<u8>) -> HeifFrame {
        let format = HeifPixelFormat::new(Chroma::Mono, 8, false).expect("a depth");
        HeifFrame::new(
            width,
            height,
            format,
            vec![Plane::new(width as usize, data)],
        )
    }

    /// 256 rows of 256 cells, one pixel each, from the last to the first.
    #[test]
    fn a_canvas_of_65536_cells() {
        let desc = GridDescriptor::new(256, 256, 256, 256);
        let mut canvas = GridCanvas::new(&desc);
        for index in (1..65_536).rev() {
            canvas
                .place(index, &mono(1, 1, vec![(index % 251) as u8]))
                .expect("a cell");
        }
        assert_eq!(canvas.clone().finish(), Err(Refusal::MISSING));
        canvas.place(0, &mono(1, 1, vec![0])).expect("a cell");
        let outside = canvas.place(65_536, &mono(1, 1, vec![0]));
        assert_eq!(outside, Err(Refusal::COUNT));
        assert_eq!(
            canvas.place(1 << 32, &mono(1, 1, vec![0])),
            Err(Refusal::COUNT)
        );
        let samples = &canvas.finish().expect("a picture").planes[0].data;
        assert!((0..65_536).all(|at| samples[at] == (at % 251) as u8));
    }

    /// Sides above 65,535 are of 32 bits in the body.
    #[test]
    fn a_canvas_of_70000_columns() {
        let desc = GridDescriptor::new(1, 2, 70_000, 1);
        let tile = |from: u8| {
            mono(
                40_000,
                1,
                (0..40_000).map(|x| from + (x % 97) as u8).collect(),
            )
        };
        let tiles = [tile(1), tile(100)];
        let mut canvas = GridCanvas::new(&desc);
        canvas.place(1, &tiles[1]).expect("a cell");
        canvas.place(0, &tiles[0]).expect("a cell");
        let made = canvas.finish().expect("a picture");
        assert_eq!((made.width, made.height), (70_000, 1));
        assert_eq!(
            (made.sample(0, 39_999, 0), made.sample(0, 40_000, 0)),
            (1 + 35, 100)
        );
        assert_eq!(Ok(made), composite_grid(&desc, &tiles));
    }

    /// The last cell's origin, 255 × 16,843,010, is 2^32 + 254: it is beyond the canvas.
    #[test]
    fn an_origin_above_32_bits() {
        let body = [0, 0, 0, 0xff, 0x01, 0x2c, 0, 1];
        let mut state = [0; STATE_WORDS];
        sys::compose_canvas_start(&body, &mut state).expect("a canvas");
        let record = mono(16_843_010, 1, vec![7; 16_843_010])
            .to_record()
            .expect("a record");
        let mut buffer = vec![9; 700];
        sys::compose_canvas_place(&mut state, 255, &record, &mut buffer).expect("a cell");
        // Width, height, chroma, depth and alpha; stride and length; then the samples.
        assert_eq!(buffer[..10], [0xac, 2, 1, 0, 8, 0, 0xac, 2, 0xac, 2]);
        assert!(buffer[10..310].iter().all(|sample| *sample == 0));
        assert_eq!(state[10..14], [0, 0, 0, 1 << 63]);
        sys::compose_canvas_place(&mut state, 0, &record, &mut buffer).expect("a cell");
        assert!(buffer[10..310].iter().all(|sample| *sample == 7));
    }

    /// A state that no call can have made is 5, whatever is wrong with it, and is left as it is.
    #[test]
    fn a_state_that_no_call_has_made() {
        let body = [0, 0, 0, 1, 0, 4, 0, 2];
        let record = mono(2, 2, vec![1, 2, 3, 4]).to_record().expect("a record");
        let mut made = [0; STATE_WORDS];
        let mut buffer = [0; 64];
        sys::compose_canvas_start(&body, &mut made).expect("a canvas");
        let mut states = vec![([0; STATE_WORDS], "all zero")];
        let mut change = |from: &[u64; STATE_WORDS], word: usize, to: u64, what| {
            let mut state = *from;
            state[word] = to;
            states.push((state, what));
        };
        for word in 0..10 {
            // 2^32 more: the low 32 bits are those of the state that was made.
            change(&made, word, made[word] + (1 << 32), "above 32 bits, bare");
        }
        change(&made, 9, 1, "alpha without a tile");
        change(&made, 10, 1, "a mark without a tile");
        change(&made, 5, 1, "half a form");
        sys::compose_canvas_place(&mut made, 0, &record, &mut buffer).expect("a cell");
        for word in 0..10 {
            change(&made, word, made[word] + (1 << 32), "above 32 bits, tiled");
        }
        change(&made, 0, 257, "too many rows");
        change(&made, 6, 4, "chroma above 3");
        change(&made, 7, 17, "depth above 16");
        change(&made, 9, 2, "alpha above 1");
        change(&made, 8, 1, "a first tile with more alpha than the canvas");
        change(&made, 4, 1, "tiles that do not cover the canvas");
        change(&made, 10, 0, "a tile and no mark");
        change(&made, 10, 5, "a mark beyond the grid");
        change(&made, 1033, 1, "a mark far beyond the grid");
        for (state, what) in states {
            let (mut words, mut bytes) = (state, buffer);
            let calls = [
                sys::compose_canvas_place(&mut words, 1, &record, &mut bytes),
                sys::compose_canvas_blank(&mut words, 1, &mut bytes),
                sys::compose_canvas_finish(&words, &bytes),
            ];
            assert_eq!(calls, [Err(Refusal::MALFORMED); 3], "{what}");
            assert!(words == state && bytes == buffer, "{what}");
        }
        let mut words = made;
        assert_eq!(sys::compose_canvas_blank(&mut words, 1, &mut buffer), Ok(0));
    }

    #[test]
    fn a_descriptor_that_is_refused() {
        let mut canvas = GridCanvas::new(&GridDescriptor::new(1, 1, 0, 1));
        assert_eq!(canvas.place(0, &mono(1, 1, vec![0])), Err(Refusal::EMPTY));
        assert_eq!(canvas.place_blank(0), Err(Refusal::EMPTY));
        assert_eq!(canvas.finish(), Err(Refusal::EMPTY));
    }
}
