//! One operation on one record: a record in, a record out. [`crate::transform`] has the same on
//! frames.
//!
//! ```
//! use compose::operation;
//!
//! // 2 × 1, mono, depth 8, no alpha; one plane of stride 2 and 2 bytes: 10, 20.
//! let record = [2, 1, 0, 8, 0, 2, 2, 10, 20];
//! assert_eq!(operation::imir(&record, 1)?, [2, 1, 0, 8, 0, 2, 2, 20, 10]);
//! assert_eq!(operation::irot(&record, 1)?, [1, 2, 0, 8, 0, 1, 2, 20, 10]);
//! assert_eq!(operation::crop(&record, 1, 0, 1, 1)?, [1, 1, 0, 8, 0, 1, 1, 20]);
//!
//! let refusal = operation::crop(&record, 1, 0, 2, 1).unwrap_err();
//! assert_eq!((refusal.number(), refusal.name()), (9, "outside"));
//! # Ok::<(), compose::Refusal>(())
//! ```

use crate::Result;
use crate::form::Form;
use crate::lend::{composed, written};
use crate::plan::{self, Asked};
use crate::props::{Clap, Crop, CropRect, Iscl, Property};
use crate::record::{RecordInfo, inspect};
use crate::sys::Fresh;

/// A tight record of another form; of the same, the record is handed back as it is.
fn other_than(info: &RecordInfo, record: &[u8], form: Option<Form>) -> Option<Asked> {
    let form = form?;
    match form == info.form() {
        true => Some(Asked::same(info, record)),
        false => Some(form.into()),
    }
}

/// The part of a record in a rectangle. Refusals: the record's; 9 a rectangle outside.
pub fn crop(record: &[u8], x: u32, y: u32, width: u32, height: u32) -> Result<Vec<u8>> {
    let (form, rect) = (inspect(record)?.form(), CropRect::new(x, y, width, height));
    cropped(record, form, &Crop::of(rect, form.width, form.height))
}

/// The part of a record that a crop leaves. Refusals: the record's; 9 where it does not fit
/// ([`Crop::fits`]).
///
/// ```
/// use compose::operation;
/// use compose::props::{Crop, CropRect};
///
/// let record = [2, 1, 0, 8, 0, 2, 2, 10, 20];
/// let mut part = Crop::of(CropRect { x: 1, y: 0, width: 1, height: 1 }, 2, 1);
/// assert_eq!(operation::crop_with_margins(&record, &part)?, [1, 1, 0, 8, 0, 1, 1, 20]);
/// part.margins.bottom = 1;
/// assert_eq!(operation::crop_with_margins(&record, &part).unwrap_err().number(), 9);
/// # Ok::<(), compose::Refusal>(())
/// ```
pub fn crop_with_margins(record: &[u8], to: &Crop) -> Result<Vec<u8>> {
    cropped(record, inspect(record)?.form(), to)
}

/// What a crop leaves of a record of that form.
fn cropped(record: &[u8], form: Form, to: &Crop) -> Result<Vec<u8>> {
    let Crop { rect, margins } = *to;
    written(form.cropped(to).map(Asked::from), |room| {
        Fresh::compose_crop(
            record,
            rect.x,
            rect.y,
            rect.width,
            rect.height,
            margins.left,
            margins.top,
            margins.right,
            margins.bottom,
            room,
        )
    })
}

/// A record cropped by a clap property. Refusals: the record's; 7, 8, 9, the width axis first.
pub fn clap(record: &[u8], clap: &Clap) -> Result<Vec<u8>> {
    let asked = inspect(record)?.form().after(&Property::Clap(*clap));
    written(asked.map(Asked::from), |room| {
        Fresh::compose_clap(
            record,
            clap.width_n,
            clap.width_d,
            clap.height_n,
            clap.height_d,
            clap.horiz_off_n.cast_unsigned(),
            clap.horiz_off_d,
            clap.vert_off_n.cast_unsigned(),
            clap.vert_off_d,
            room,
        )
    })
}

/// A record turned by angle mod 4 quarter turns anticlockwise. Refusals: the record's.
pub fn irot(record: &[u8], angle: u8) -> Result<Vec<u8>> {
    let info = inspect(record)?;
    let asked = match angle % 4 {
        0 => Asked::same(&info, record),
        _ => info.form().turned(angle).into(),
    };
    written(Some(asked), |room| Fresh::compose_irot(record, angle, room))
}

/// A record mirrored: axis mod 2, 0 top and bottom, 1 left and right. Refusals: the record's.
pub fn imir(record: &[u8], axis: u8) -> Result<Vec<u8>> {
    let asked = inspect(record)?.form().into();
    written(Some(asked), |room| Fresh::compose_imir(record, axis, room))
}

/// A chain of properties on one record, under `essential_only` the essential ones alone; without one
/// that is applied the record, tight. Refusals: the record's; the chain's form; each applied
/// property's in turn.
pub fn transforms(record: &[u8], chain: &[u8], essential_only: bool) -> Result<Vec<u8>> {
    let asked = plan::along(inspect(record)?.form(), chain, essential_only);
    composed(asked, |room| {
        Fresh::compose_transforms(record, chain, essential_only.into(), room)
    })
}

/// A record scaled by an iscl property; an unchanged size is the record. Refusals: the record's; 7,
/// 10, 4.
///
/// ```
/// use compose::operation;
/// use compose::props::Iscl;
///
/// let row = [2, 1, 0, 8, 0, 2, 2, 0, 100];
/// let twice = operation::iscl(&row, &Iscl::new(2, 1, 1, 1))?;
/// assert_eq!(twice, [4, 1, 0, 8, 0, 4, 4, 0, 25, 75, 100]);
/// # Ok::<(), compose::Refusal>(())
/// ```
pub fn iscl(record: &[u8], iscl: &Iscl) -> Result<Vec<u8>> {
    let info = inspect(record)?;
    let asked = other_than(&info, record, info.form().after(&Property::Iscl(*iscl)));
    written(asked, |room| {
        Fresh::compose_iscl(
            record,
            iscl.width_num,
            iscl.width_den,
            iscl.height_num,
            iscl.height_den,
            room,
        )
    })
}

/// A record at another size, by nearest samples; an unchanged size is the record. Refusals: the
/// record's; 3, 4.
pub fn resize_nearest(record: &[u8], width: u32, height: u32) -> Result<Vec<u8>> {
    let info = inspect(record)?;
    let asked = other_than(&info, record, info.form().sized(width, height));
    written(asked, |room| {
        Fresh::compose_resize_nearest(record, width, height, room)
    })
}

/// A record at another depth; an equal depth is the record. Refusals: the record's; 6.
///
/// ```
/// use compose::operation;
///
/// // 32768 at 16 bits is 128 at 8.
/// let record = [1, 1, 0, 16, 0, 2, 2, 0, 128];
/// assert_eq!(operation::rescale_depth(&record, 8)?, [1, 1, 0, 8, 0, 1, 1, 128]);
/// # Ok::<(), compose::Refusal>(())
/// ```
pub fn rescale_depth(record: &[u8], depth: u32) -> Result<Vec<u8>> {
    let info = inspect(record)?;
    let asked = other_than(&info, record, info.form().at_depth(depth));
    written(asked, |room| {
        Fresh::compose_rescale_depth(record, depth, room)
    })
}

/// The master's record with the luma of another as its alpha plane. Refusals: the master's, then
/// the alpha record's.
///
/// ```
/// use compose::operation;
///
/// let master = [1, 1, 0, 8, 0, 1, 1, 10];
/// let alpha = [1, 1, 0, 8, 0, 1, 1, 200];
/// let both = operation::attach_alpha(&master, &alpha)?;
/// assert_eq!(both, [1, 1, 0, 8, 1, 1, 1, 10, 1, 1, 200]);
/// # Ok::<(), compose::Refusal>(())
/// ```
pub fn attach_alpha(master: &[u8], alpha: &[u8]) -> Result<Vec<u8>> {
    let asked = plan::attached(&inspect(master)?, &inspect(alpha)?);
    written(Some(asked), |room| {
        Fresh::compose_attach_alpha(master, alpha, room)
    })
}
