//! Chains of properties (document 01, "What is handed in" and "Refusals in order", *Scene*).

use crate::number::{Reader, push_number};
use crate::refusal::{self, Refusal};

/// The most entries a chain may have.
pub const MAX_ENTRIES: u32 = 256;

/// A clap's fields in document 01's order.
#[derive(Clone, Copy, Debug, PartialEq, Eq)]
pub struct Clap {
    pub width_n: u32,
    pub width_d: u32,
    pub height_n: u32,
    pub height_d: u32,
    pub horizontal_n: i32,
    pub horizontal_d: u32,
    pub vertical_n: i32,
    pub vertical_d: u32,
}

impl Clap {
    /// From the eight fields of a chain; an offset's n is the unsigned pattern of a signed number.
    pub fn from_fields(fields: [u32; 8]) -> Self {
        let [
            width_n,
            width_d,
            height_n,
            height_d,
            across_n,
            across_d,
            down_n,
            down_d,
        ] = fields;
        Self {
            width_n,
            width_d,
            height_n,
            height_d,
            horizontal_n: across_n.cast_signed(),
            horizontal_d: across_d,
            vertical_n: down_n.cast_signed(),
            vertical_d: down_d,
        }
    }

    /// The eight fields as a chain holds them.
    pub fn fields(&self) -> [u32; 8] {
        [
            self.width_n,
            self.width_d,
            self.height_n,
            self.height_d,
            self.horizontal_n.cast_unsigned(),
            self.horizontal_d,
            self.vertical_n.cast_unsigned(),
            self.vertical_d,
        ]
    }
}

/// An iscl's fields in document 01's order.
#[derive(Clone, Copy, Debug, PartialEq, Eq)]
pub struct Iscl {
    pub width_n: u16,
    pub width_d: u16,
    pub height_n: u16,
    pub height_d: u16,
}

impl Iscl {
    /// From the four fields in document 01's order.
    pub fn from_fields([width_n, width_d, height_n, height_d]: [u16; 4]) -> Self {
        Self {
            width_n,
            width_d,
            height_n,
            height_d,
        }
    }

    /// The four fields as a chain holds them.
    pub fn fields(&self) -> [u16; 4] {
        [self.width_n, self.width_d, self.height_n, self.height_d]
    }
}

/// What an entry holds, by kind 0 to 4.
#[derive(Clone, Copy, Debug, PartialEq, Eq)]
pub enum Property {
    Other,
    Clap(Clap),
    Irot(u8),
    Imir(u8),
    Iscl(Iscl),
}

/// One entry of a chain.
#[derive(Clone, Copy, Debug, PartialEq, Eq)]
pub struct Entry {
    pub essential: bool,
    pub property: Property,
}

impl Entry {
    pub fn new(essential: bool, property: Property) -> Self {
        Self {
            essential,
            property,
        }
    }

    /// The entry's numbers: kind, essential, fields.
    pub fn numbers(&self) -> Vec<u32> {
        let (kind, fields) = match self.property {
            Property::Other => (0, Vec::new()),
            Property::Clap(clap) => (1, clap.fields().to_vec()),
            Property::Irot(angle) => (2, vec![u32::from(angle)]),
            Property::Imir(axis) => (3, vec![u32::from(axis)]),
            Property::Iscl(iscl) => (4, iscl.fields().map(u32::from).to_vec()),
        };
        let mut numbers = vec![kind, u32::from(self.essential)];
        numbers.extend(fields);
        numbers
    }

    fn read(reader: &mut Reader) -> Result<Self, Refusal> {
        let kind = reader.number_to(4)?;
        let essential = reader.number_to(1)? == 1;
        let property = match kind {
            0 => Property::Other,
            1 => {
                let mut fields = [0u32; 8];
                for field in &mut fields {
                    *field = reader.number()?;
                }
                Property::Clap(Clap::from_fields(fields))
            }
            2 => Property::Irot(reader.number_to(255)? as u8),
            3 => Property::Imir(reader.number_to(255)? as u8),
            _ => {
                let mut fields = [0u16; 4];
                for field in &mut fields {
                    *field = reader.number_to(65_535)? as u16;
                }
                Property::Iscl(Iscl::from_fields(fields))
            }
        };
        Ok(Self::new(essential, property))
    }
}

/// The entries of a chain; 5 where it is malformed, an entry's own where an entry is, 4 once a count
/// above 256 is read.
pub fn parse_chain(bytes: &[u8]) -> Result<Vec<Entry>, Refusal> {
    let mut reader = Reader::new(bytes);
    let count = reader.number()?;
    if count > MAX_ENTRIES {
        return Err(refusal::LIMIT);
    }
    let mut entries = Vec::new();
    for index in 0..count as usize {
        let entry = Entry::read(&mut reader);
        entries.push(entry.map_err(|refusal| refusal.of_entry(index))?);
    }
    reader.end()?;
    Ok(entries)
}

/// The chain of `entries`.
pub fn chain_bytes(entries: &[Entry]) -> Vec<u8> {
    let mut out = Vec::new();
    push_number(&mut out, entries.len() as u32);
    for number in entries.iter().flat_map(Entry::numbers) {
        push_number(&mut out, number);
    }
    out
}
