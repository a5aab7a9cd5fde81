//! The numbers of a record or a tray that is a file, without its samples: a call that looks at no
//! sample judges them as it judges the whole.

use crate::record::{LONGEST_NUMBER, read_number};
use std::io::{self, Read, Seek, SeekFrom};

/// A copy of a file that is 0 where nothing was read. Memory that is never touched is never taken.
pub(crate) struct Outline<'a, F> {
    file: &'a mut F,
    bytes: Vec<u8>,
    /// Where the next number begins.
    at: usize,
}

impl<'a, F: Read + Seek> Outline<'a, F> {
    pub fn of(file: &'a mut F) -> io::Result<Self> {
        let length = file.seek(SeekFrom::End(0))?;
        let length = usize::try_from(length).map_err(io::Error::other)?;
        Ok(Self {
            file,
            bytes: vec![0; length],
            at: 0,
        })
    }

    pub fn into_bytes(self) -> Vec<u8> {
        self.bytes
    }

    /// The next number; none where there is none whole.
    pub fn number(&mut self) -> io::Result<Option<u32>> {
        let end = self.bytes.len().min(self.at + LONGEST_NUMBER);
        let Some(part) = self.bytes.get_mut(self.at..end) else {
            return Ok(None);
        };
        self.file.seek(SeekFrom::Start(self.at as u64))?;
        self.file.read_exact(part)?;
        let mut rest = &*part;
        let number = read_number(&mut rest);
        self.at = end - rest.len();
        Ok(number)
    }

    /// Goes over one record; none where it has not all its numbers.
    pub fn record(&mut self) -> io::Result<Option<()>> {
        let mut header = [0; 5];
        for field in &mut header {
            let Some(number) = self.number()? else {
                return Ok(None);
            };
            *field = number;
        }
        let [_, _, chroma, _, alpha] = header;
        let colour_planes = if chroma == 0 { 1 } else { 3 };
        // More planes than these no record has.
        for _ in 0..colour_planes + alpha.min(1) {
            let (Some(_), Some(length)) = (self.number()?, self.number()?) else {
                return Ok(None);
            };
            self.at = self.at.saturating_add(length as usize);
        }
        Ok(Some(()))
    }
}

#[cfg(test)]
mod tests {
    use crate::record;
    use std::io::{self, Cursor, Read, Seek, SeekFrom};

    /// A record of 20,000 × 20,000, mono, whose samples are 0, and how much of it was read.
    struct Large {
        numbers: Cursor<Vec<u8>>,
        read: usize,
    }

    const SIDE: u32 = 20_000;

    impl Large {
        fn new() -> Self {
            let mut numbers = Vec::new();
            for number in [SIDE, SIDE, 0, 8, 0, SIDE, SIDE * SIDE] {
                record::push_number(&mut numbers, number);
            }
            let numbers = Cursor::new(numbers);
            Self { numbers, read: 0 }
        }
    }

    impl Read for Large {
        fn read(&mut self, part: &mut [u8]) -> io::Result<usize> {
            part.fill(0);
            self.read += part.len();
            let from = self.numbers.position();
            self.numbers.read(part)?;
            self.numbers.set_position(from + part.len() as u64);
            Ok(part.len())
        }
    }

    impl Seek for Large {
        fn seek(&mut self, to: SeekFrom) -> io::Result<u64> {
            let length = self.numbers.get_ref().len() as u64 + u64::from(SIDE * SIDE);
            let to = match to {
                SeekFrom::Start(place) => place,
                _ => length,
            };
            self.numbers.set_position(to);
            Ok(to)
        }
    }

    #[test]
    fn a_large_record_is_judged_by_its_numbers() {
        let mut large = Large::new();
        let numbers = record::outline(&mut large).expect("a file");
        let info = record::inspect(&numbers).expect("a record");
        assert_eq!((info.width, info.height, info.depth), (SIDE, SIDE, 8));
        assert_eq!(info.planes[0].len as u32, SIDE * SIDE);
        assert!(large.read < 100, "{} bytes", large.read);
    }
}
