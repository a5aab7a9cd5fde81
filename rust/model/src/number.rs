//! House numbers (document 01, "What is handed in"): 1 to 5 bytes of seven bits each, lowest group
//! first, top bit set on all but the last; below 2^32 and in shortest form.

use crate::refusal::{self, Refusal};

/// Appends `value` in shortest form.
pub fn push_number(out: &mut Vec<u8>, value: u32) {
    let mut rest = value;
    while rest > 127 {
        out.push((rest & 127) as u8 | 128);
        rest >>= 7;
    }
    out.push(rest as u8);
}

/// `value` in shortest form.
pub fn number_bytes(value: u32) -> Vec<u8> {
    let mut out = Vec::new();
    push_number(&mut out, value);
    out
}

/// Reads numbers and data from the front of `bytes`. What cannot be read is refusal 5.
#[derive(Clone, Debug)]
pub struct Reader<'a> {
    bytes: &'a [u8],
}

impl<'a> Reader<'a> {
    /// A reader at the first of `bytes`.
    pub fn new(bytes: &'a [u8]) -> Self {
        Self { bytes }
    }

    /// The bytes not read yet.
    pub fn rest(&self) -> &'a [u8] {
        self.bytes
    }

    /// The next `count` bytes.
    pub fn take(&mut self, count: usize) -> Result<&'a [u8], Refusal> {
        let (head, tail) = self
            .bytes
            .split_at_checked(count)
            .ok_or(refusal::MALFORMED)?;
        self.bytes = tail;
        Ok(head)
    }

    /// The next house number. Malformed is: cut, longer than five bytes, 2^32 or more, or a last
    /// group of 0 in a longer form.
    pub fn number(&mut self) -> Result<u32, Refusal> {
        let mut value = 0u64;
        for group in 0..5 {
            let byte = self.take(1)?[0];
            value |= u64::from(byte & 127) << (7 * group);
            if byte < 128 {
                if byte == 0 && group > 0 {
                    return Err(refusal::MALFORMED);
                }
                return u32::try_from(value).map_err(|_| refusal::MALFORMED);
            }
        }
        Err(refusal::MALFORMED)
    }

    /// The next house number, at most `most`.
    pub fn number_to(&mut self, most: u32) -> Result<u32, Refusal> {
        let value = self.number()?;
        if value > most {
            return Err(refusal::MALFORMED);
        }
        Ok(value)
    }

    /// Nothing may be left over.
    pub fn end(&self) -> Result<(), Refusal> {
        if self.bytes.is_empty() {
            Ok(())
        } else {
            Err(refusal::MALFORMED)
        }
    }
}
