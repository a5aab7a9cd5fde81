//! Modules that the published source names and this repository lacks: file and item lookup, and
//! codec configurations. Document 01 leaves them out, and so no value of these types is ever made:
//! each holds something that cannot exist, and every parser refuses.

#![allow(dead_code)]

use crate::boxes::FourCc;
use crate::error::{HeifError, Result};
use std::convert::Infallible;

/// What a parser of a module left out answers.
fn left_out<T>() -> Result<T> {
    Err(HeifError::unsupported("left out of this build"))
}

/// A codec configuration that is never made: `parse` refuses, `$write` has nothing to write.
macro_rules! codec {
    ($name:ident, $write:ident) => {
        #[derive(Clone, Debug, PartialEq, Eq)]
        pub struct $name {
            pub flags: u32,
            never: std::convert::Infallible,
        }

        impl $name {
            pub fn parse(_: &[u8]) -> crate::error::Result<Self> {
                super::left_out()
            }

            pub fn $write(&self) -> Vec<u8> {
                match self.never {}
            }
        }
    };
}

pub mod avcc {
    codec!(AvcConfig, serialize);
}

pub mod vvcc {
    codec!(VvcConfig, to_bytes);
}

pub mod hvcc {
    codec!(HevcConfig, to_bytes);

    /// A parameter set array, as the layered configuration keeps it.
    #[derive(Clone, Debug, PartialEq, Eq)]
    pub struct NalArray {
        pub complete: bool,
        pub reserved_bit: bool,
        pub nal_unit_type: u8,
        pub nal_units: Vec<Vec<u8>>,
    }
}

pub mod pixel_transform {
    #[derive(Clone, Debug, PartialEq, Eq)]
    pub enum PixelTransform {}

    impl PixelTransform {
        pub fn parse(_: &[u8], _: usize) -> crate::error::Result<Self> {
            super::left_out()
        }
    }
}

pub mod file {
    use super::{Infallible, Result, meta};
    use std::borrow::Cow;
    use std::marker::PhantomData;

    pub struct HeifFile<D> {
        never: Infallible,
        data: PhantomData<D>,
    }

    impl<D> HeifFile<D> {
        pub fn meta(&self) -> Result<&meta::Meta> {
            match self.never {}
        }

        pub fn primary_item(&self) -> Result<&meta::ItemInfo> {
            match self.never {}
        }

        pub fn item_data(&self, _: u32) -> Result<Cow<'_, [u8]>> {
            match self.never {}
        }
    }
}

pub mod meta {
    use super::{FourCc, Infallible};

    pub const ITEM_TYPE_CFEN: FourCc = *b"cfen";
    pub const ITEM_TYPE_GRID: FourCc = *b"grid";
    pub const ITEM_TYPE_IDEN: FourCc = *b"iden";
    pub const ITEM_TYPE_IOVL: FourCc = *b"iovl";
    pub const ITEM_TYPE_SATO: FourCc = *b"sato";
    pub const ITEM_TYPE_TILI: FourCc = *b"tili";
    pub const ITEM_TYPE_TMAP: FourCc = *b"tmap";

    pub mod reference {
        pub const DIMG: crate::boxes::FourCc = *b"dimg";
    }

    /// A property box as it stands in a file. This one is made: it is a chain's kind 0.
    #[derive(Clone, Debug, PartialEq, Eq)]
    pub struct RawProperty {
        pub box_type: FourCc,
        pub user_type: Option<[u8; 16]>,
        pub body: Vec<u8>,
    }

    #[derive(Clone, Debug, PartialEq, Eq)]
    pub struct ItemInfo {
        pub id: u32,
        pub item_type: FourCc,
        never: Infallible,
    }

    impl ItemInfo {
        pub fn is_image(&self) -> bool {
            match self.never {}
        }
    }

    pub struct Meta {
        pub properties: Vec<RawProperty>,
        never: Infallible,
    }

    impl Meta {
        pub fn item(&self, _: u32) -> Option<&ItemInfo> {
            match self.never {}
        }

        pub fn properties_of(&self, _: u32) -> Vec<(u16, &RawProperty, bool)> {
            match self.never {}
        }

        pub fn derivation_inputs(&self, _: u32) -> Vec<u32> {
            match self.never {}
        }

        pub fn auxiliaries_of(&self, _: u32) -> Vec<u32> {
            match self.never {}
        }

        pub fn thumbnails_of(&self, _: u32) -> Vec<u32> {
            match self.never {}
        }

        pub fn metadata_of(&self, _: u32) -> Vec<u32> {
            match self.never {}
        }

        pub fn is_premultiplied(&self, _: u32, _: u32) -> bool {
            match self.never {}
        }
    }
}
