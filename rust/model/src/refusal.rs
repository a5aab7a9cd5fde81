//! The refusals of document 01 ("Refusals in order") and of document 02 by name, and the items that
//! have their own (document 02, A2).

/// A refusal.
#[derive(Clone, Copy, Debug, PartialEq, Eq)]
pub struct Refusal {
    pub number: u8,
    /// The item, where it is an item's own refusal.
    pub item: Option<Item>,
}

/// An item by its index in its list, from 0.
#[derive(Clone, Copy, Debug, PartialEq, Eq)]
pub enum Item {
    /// A record of the tray.
    Record(u64),
    /// An entry of the chain.
    Entry(u64),
}

impl Item {
    /// The item of a sort as the calls have it: 1 a record, 2 an entry; 0 is none.
    pub fn of_sort(sort: u8, index: u64) -> Option<Self> {
        match sort {
            1 => Some(Self::Record(index)),
            2 => Some(Self::Entry(index)),
            _ => None,
        }
    }
}

impl Refusal {
    /// A refusal of no item.
    pub const fn new(number: u8) -> Self {
        Self { number, item: None }
    }

    /// The same as the own refusal of a record of the tray.
    pub fn of_record(self, index: usize) -> Self {
        self.of(Item::Record(index as u64))
    }

    /// The same as the own refusal of an entry of the chain.
    pub fn of_entry(self, index: usize) -> Self {
        self.of(Item::Entry(index as u64))
    }

    fn of(self, item: Item) -> Self {
        Self {
            item: Some(item),
            ..self
        }
    }
}

/// A descriptor body that is empty or short.
pub const SHORT: Refusal = Refusal::new(1);
/// A descriptor version other than 0.
pub const VERSION: Refusal = Refusal::new(2);
/// A side of 0.
pub const ZERO_SIDE: Refusal = Refusal::new(3);
/// Above a limit: 2^30 pixels, 65,536 inputs, 256 chain entries, iscl's 2^26.
pub const LIMIT: Refusal = Refusal::new(4);
/// A malformed number, record, tray or chain.
pub const MALFORMED: Refusal = Refusal::new(5);
/// A depth outside 8 to 16.
pub const DEPTH: Refusal = Refusal::new(6);
/// A zero denominator (for iscl any zero).
pub const ZERO_DENOMINATOR: Refusal = Refusal::new(7);
/// A clap size or edge that is not whole.
pub const NOT_WHOLE: Refusal = Refusal::new(8);
/// A clap size or edge, or a crop, outside the picture; margins that are not the crop's.
pub const OUTSIDE: Refusal = Refusal::new(9);
/// A scaled side above 2^32 − 1.
pub const SIDE_OVERFLOW: Refusal = Refusal::new(10);
/// A tray count, list length or cell index that does not fit the descriptor.
pub const COUNT: Refusal = Refusal::new(11);
/// Tiles that do not cover the canvas.
pub const COVER: Refusal = Refusal::new(12);
/// A tile of another size.
pub const TILE_SIZE: Refusal = Refusal::new(13);
/// A tile or input of another chroma or depth.
pub const FORM: Refusal = Refusal::new(14);
/// No inputs, nothing placed, or a cell missing.
pub const MISSING: Refusal = Refusal::new(15);
/// An alpha sample above top.
pub const ALPHA: Refusal = Refusal::new(16);
/// A lent buffer that is too short.
pub const ROOM: Refusal = Refusal::new(17);
/// What the point call does not answer.
pub const POINT: Refusal = Refusal::new(18);
/// Rows or columns of tiles outside 1 to 256 (document 02, A4).
pub const TILING: Refusal = Refusal::new(19);
