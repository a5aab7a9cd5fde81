//! Properties that move or describe a picture, with the names and shapes of oxideav-heif's module
//! `props`.

use crate::{Result, sys};

/// A clean aperture (`clap`, ISO/IEC 14496-12): a size and the offset of its centre, as fractions.
#[derive(Clone, Copy, Debug, PartialEq, Eq)]
#[non_exhaustive]
pub struct Clap {
    /// The width's numerator.
    pub width_n: u32,
    /// The width's denominator.
    pub width_d: u32,
    /// The height's numerator.
    pub height_n: u32,
    /// The height's denominator.
    pub height_d: u32,
    /// The horizontal offset's numerator.
    pub horiz_off_n: i32,
    /// The horizontal offset's denominator.
    pub horiz_off_d: u32,
    /// The vertical offset's numerator.
    pub vert_off_n: i32,
    /// The vertical offset's denominator.
    pub vert_off_d: u32,
}

impl Clap {
    /// An aperture of its eight fields.
    #[allow(clippy::too_many_arguments)]
    pub fn new(
        width_n: u32,
        width_d: u32,
        height_n: u32,
        height_d: u32,
        horiz_off_n: i32,
        horiz_off_d: u32,
        vert_off_n: i32,
        vert_off_d: u32,
    ) -> Self {
        Self {
            width_n,
            width_d,
            height_n,
            height_d,
            horiz_off_n,
            horiz_off_d,
            vert_off_n,
            vert_off_d,
        }
    }

    /// The rectangle that stays of a picture of the given size, and what is taken about it. Refusals,
    /// the width axis wholly before the height: 7 a zero denominator, 8 a size that is not whole, 9 one
    /// of 0 or above the picture's, 8 an edge that is not whole, 9 one outside.
    ///
    /// ```
    /// use compose::props::{Clap, CropRect, Margins};
    ///
    /// // 61 of 64 about a centre that lies half a pixel to the right.
    /// let stays = Clap::new(61, 1, 48, 1, 1, 2, 0, 1).resolve(64, 48)?;
    /// assert_eq!(stays.rect, CropRect { x: 2, y: 0, width: 61, height: 48 });
    /// assert_eq!(stays.margins, Margins { left: 2, top: 0, right: 1, bottom: 0 });
    /// // About the middle itself they have no whole edge.
    /// let refusal = Clap::integer(61, 48, 0, 0).resolve(64, 48).unwrap_err();
    /// assert_eq!((refusal.number(), refusal.name()), (8, "fraction"));
    /// # Ok::<(), compose::Refusal>(())
    /// ```
    pub fn resolve(&self, width: u32, height: u32) -> Result<Crop> {
        let mut words = [0; 8];
        sys::compose_clap_resolve(
            self.width_n,
            self.width_d,
            self.height_n,
            self.height_d,
            self.horiz_off_n.cast_unsigned(),
            self.horiz_off_d,
            self.vert_off_n.cast_unsigned(),
            self.vert_off_d,
            width,
            height,
            &mut words,
        )?;
        let [x, y, width, height, left, top, right, bottom] = words;
        Ok(Crop {
            rect: CropRect::new(x, y, width, height),
            margins: Margins {
                left,
                top,
                right,
                bottom,
            },
        })
    }

    /// An aperture of whole numbers.
    pub fn integer(width: u32, height: u32, horiz_off: i32, vert_off: i32) -> Self {
        Self::new(width, 1, height, 1, horiz_off, 1, vert_off, 1)
    }

    /// The aperture that selects `rect` out of a picture of the given size; its offsets are in
    /// halves, so that any rectangle has one.
    pub fn for_rect(width: u32, height: u32, rect: CropRect) -> Self {
        let offset = |edge: u32, size: u32, side: u32| {
            let halves = 2 * i64::from(edge) - (i64::from(side) - i64::from(size));
            halves as i32
        };
        Self::new(
            rect.width,
            1,
            rect.height,
            1,
            offset(rect.x, rect.width, width),
            2,
            offset(rect.y, rect.height, height),
            2,
        )
    }
}

/// A rectangle in pixels of a picture.
#[derive(Clone, Copy, Debug, PartialEq, Eq)]
pub struct CropRect {
    /// The leftmost column.
    pub x: u32,
    /// The topmost row.
    pub y: u32,
    /// Width.
    pub width: u32,
    /// Height.
    pub height: u32,
}

impl CropRect {
    pub(crate) fn new(x: u32, y: u32, width: u32, height: u32) -> Self {
        Self {
            x,
            y,
            width,
            height,
        }
    }
}

/// What a crop takes on each side of its rectangle, in pixels of the picture that is cropped.
#[derive(Clone, Copy, Debug, PartialEq, Eq)]
pub struct Margins {
    /// Columns to the left of the rectangle.
    pub left: u32,
    /// Rows above it.
    pub top: u32,
    /// Columns to the right of it.
    pub right: u32,
    /// Rows below it.
    pub bottom: u32,
}

/// A rectangle of a picture, and the margins about it.
#[derive(Clone, Copy, Debug, PartialEq, Eq)]
pub struct Crop {
    /// What stays.
    pub rect: CropRect,
    /// What is taken.
    pub margins: Margins,
}

impl Crop {
    /// A rectangle with the margins that it has in a picture of the given size: left and top are its
    /// edges, right and bottom what is left behind it. Where it passes the picture's far edge that is
    /// 0, and such a crop is refused (9).
    ///
    /// ```
    /// use compose::props::{Crop, CropRect, Margins};
    ///
    /// let rect = CropRect { x: 4, y: 2, width: 24, height: 16 };
    /// let part = Crop::of(rect, 32, 24);
    /// assert_eq!(part.margins, Margins { left: 4, top: 2, right: 4, bottom: 6 });
    /// assert!(part.fits(32, 24) && !part.fits(32, 25));
    /// assert!(!Crop::of(rect, 27, 24).fits(27, 24));
    /// ```
    pub fn of(rect: CropRect, width: u32, height: u32) -> Self {
        let behind =
            |edge: u32, size: u32, side: u32| side.saturating_sub(edge).saturating_sub(size);
        Self {
            rect,
            margins: Margins {
                left: rect.x,
                top: rect.y,
                right: behind(rect.x, rect.width, width),
                bottom: behind(rect.y, rect.height, height),
            },
        }
    }

    /// Whether it is one of a picture of the given size: no side is 0, left and top are the rectangle's
    /// edges, left + width + right is the picture's width, and top + height + bottom its height.
    pub fn fits(&self, width: u32, height: u32) -> bool {
        let Self { rect, margins } = self;
        let axis = |[edge, before, size, behind]: [u32; 4], side: u32| {
            let sum = u64::from(before) + u64::from(size) + u64::from(behind);
            size > 0 && before == edge && sum == u64::from(side)
        };
        axis([rect.x, margins.left, rect.width, margins.right], width)
            && axis([rect.y, margins.top, rect.height, margins.bottom], height)
    }
}

impl From<Crop> for CropRect {
    /// What stays.
    fn from(crop: Crop) -> Self {
        crop.rect
    }
}

/// A rotation (`irot`): quarter turns anticlockwise.
#[derive(Clone, Copy, Debug, PartialEq, Eq)]
#[non_exhaustive]
pub struct Irot {
    /// How many, taken mod 4.
    pub angle: u8,
}

impl Irot {
    /// A rotation by a number of quarter turns.
    pub fn new(angle: u8) -> Self {
        Self { angle }
    }
}

/// A mirror (`imir`).
#[derive(Clone, Copy, Debug, PartialEq, Eq)]
#[non_exhaustive]
pub struct Imir {
    /// Taken mod 2: 0 exchanges top and bottom, 1 left and right.
    pub axis: u8,
}

impl Imir {
    /// A mirror about an axis.
    pub fn new(axis: u8) -> Self {
        Self { axis }
    }
}

/// A scaling (`iscl`): two ratios.
#[derive(Clone, Copy, Debug, PartialEq, Eq)]
#[non_exhaustive]
pub struct Iscl {
    /// The width ratio's numerator.
    pub width_num: u16,
    /// The width ratio's denominator.
    pub width_den: u16,
    /// The height ratio's numerator.
    pub height_num: u16,
    /// The height ratio's denominator.
    pub height_den: u16,
}

impl Iscl {
    /// A scaling of its four fields.
    pub fn new(width_num: u16, width_den: u16, height_num: u16, height_den: u16) -> Self {
        Self {
            width_num,
            width_den,
            height_num,
            height_den,
        }
    }

    /// The size that it makes of a size, each side rounded up. Refusals: 7 a zero; 10 a side above
    /// 2^32 − 1; and where the size changes 4 above 2^30 pixels, or a side above 2^26 before or
    /// after.
    ///
    /// ```
    /// use compose::{Refusal, props::Iscl};
    ///
    /// assert_eq!(Iscl::new(1, 2, 2, 3).output_size(5, 5), Ok((3, 4)));
    /// assert_eq!(Iscl::new(1, 2, 0, 3).output_size(5, 5), Err(Refusal::ZERO));
    /// ```
    #[inline]
    pub fn output_size(&self, width: u32, height: u32) -> Result<(u32, u32)> {
        let mut words = [0; 2];
        sys::compose_iscl_size(
            self.width_num,
            self.width_den,
            self.height_num,
            self.height_den,
            width,
            height,
            &mut words,
        )?;
        let [width, height] = words;
        Ok((width, height))
    }
}

/// One property of a picture, as far as a chain tells them apart.
#[derive(Clone, Copy, Debug, PartialEq, Eq)]
#[non_exhaustive]
pub enum Property {
    /// Any other, which is skipped.
    Other,
    /// A clean aperture.
    Clap(Clap),
    /// A rotation.
    Irot(Irot),
    /// A mirror.
    Imir(Imir),
    /// A scaling.
    Iscl(Iscl),
}

impl Property {
    /// Its kind in a chain, 0 to 4.
    pub fn kind(&self) -> u32 {
        match self {
            Self::Other => 0,
            Self::Clap(_) => 1,
            Self::Irot(_) => 2,
            Self::Imir(_) => 3,
            Self::Iscl(_) => 4,
        }
    }

    /// Whether it moves a picture: every kind but 0.
    pub fn is_transformative(&self) -> bool {
        *self != Self::Other
    }
}

/// One property of a picture, and whether a reader must honour it.
#[derive(Clone, Copy, Debug, PartialEq, Eq)]
pub struct PropertyEntry {
    /// Its number in the file that it came from. Chains have none.
    pub index: u16,
    /// Whether it is essential.
    pub essential: bool,
    /// The property.
    pub property: Property,
}

impl PropertyEntry {
    /// An entry of its three fields.
    pub fn new(index: u16, essential: bool, property: Property) -> Self {
        Self {
            index,
            essential,
            property,
        }
    }
}

/// A colour description (`colr`).
#[derive(Clone, Debug, PartialEq, Eq)]
#[non_exhaustive]
pub enum Colr {
    /// Code points of ITU-T H.273.
    Nclx {
        /// Colour primaries.
        primaries: u16,
        /// Transfer characteristics.
        transfer: u16,
        /// Matrix coefficients.
        matrix: u16,
        /// Full range, or studio range.
        full_range: bool,
    },
    /// An ICC profile.
    Icc {
        /// A restricted one (`rICC`), or any (`prof`).
        restricted: bool,
        /// The profile's bytes.
        profile: Vec<u8>,
    },
    /// Any other description.
    Other {
        /// Its four letters.
        colour_type: [u8; 4],
        /// The bytes after them.
        payload: Vec<u8>,
    },
}

impl Colr {
    /// What holds where a picture has no description: BT.709 primaries, sRGB transfer, BT.601
    /// matrix, full range.
    pub const MIAF_DEFAULT: Colr = Colr::Nclx {
        primaries: 1,
        transfer: 13,
        matrix: 6,
        full_range: true,
    };

    /// Whether it is an ICC profile.
    pub fn is_icc(&self) -> bool {
        matches!(self, Self::Icc { .. })
    }

    /// As the calls take it: whether there is an nclx description, its matrix and its range.
    #[inline]
    pub(crate) fn words(colr: Option<&Self>) -> (u8, u16, u8) {
        match colr {
            Some(Self::Nclx {
                matrix, full_range, ..
            }) => (1, *matrix, u8::from(*full_range)),
            _ => (0, 0, 0),
        }
    }
}
