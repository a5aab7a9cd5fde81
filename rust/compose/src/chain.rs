//! Chains of properties (document 01, "What is handed in").
//!
//! ```
//! use compose::chain;
//! use compose::props::{Imir, Irot, Property, PropertyEntry};
//!
//! let entries = [
//!     PropertyEntry::new(1, true, Property::Irot(Irot::new(1))),
//!     PropertyEntry::new(2, false, Property::Imir(Imir::new(1))),
//! ];
//! let bytes = chain::join(&entries)?;
//! assert_eq!(bytes, [2, 2, 1, 1, 3, 0, 1]);
//! assert_eq!(chain::count(&bytes)?, 2);
//! assert_eq!(chain::entries(&bytes)?, entries);
//!
//! let refusal = chain::entries(&bytes[..6]).unwrap_err();
//! assert_eq!((refusal.number(), refusal.name()), (5, "malformed"));
//! assert_eq!(refusal.index(), Some(1));
//! # Ok::<(), compose::Refusal>(())
//! ```

use crate::props::{Clap, Imir, Irot, Iscl, Property, PropertyEntry};
use crate::record::{push_number, read_number};
use crate::{Refusal, Result, sys};

/// How many entries `chain` has. Refusals: 5 a count that is malformed, 4 above 256, 5 an entry
/// that is malformed, 5 bytes left over.
pub fn count(chain: &[u8]) -> Result<u32> {
    let count = sys::compose_chain(chain)?;
    Ok(u32::try_from(count).expect("a chain's count is at most 256"))
}

/// The entries of `chain`, numbered from 1 on. Refusals: as [`count`].
pub fn entries(chain: &[u8]) -> Result<Vec<PropertyEntry>> {
    let count = count(chain)?;
    let mut rest = chain;
    read_number(&mut rest);
    let entry = |at| first_entry(at, &mut rest).expect("an entry that the call took");
    Ok((1..=count).map(entry).collect())
}

/// The next numbers, as fields of their size.
fn fields<T: TryFrom<u32>, const N: usize>(rest: &mut &[u8]) -> Option<[T; N]> {
    let numbers: Option<Vec<T>> = (0..N)
        .map(|_| T::try_from(read_number(rest)?).ok())
        .collect();
    numbers?.try_into().ok()
}

/// The entry at the front, taken off. It is not judged here: the chain was.
fn first_entry(at: u32, rest: &mut &[u8]) -> Option<PropertyEntry> {
    let [kind, essential]: [u32; 2] = fields(rest)?;
    let property = match kind {
        0 => Property::Other,
        1 => {
            let [width_n, width_d, height_n, height_d] = fields(rest)?;
            let [x_n, x_d, y_n, y_d]: [u32; 4] = fields(rest)?;
            let (x_n, y_n) = (x_n.cast_signed(), y_n.cast_signed());
            Property::Clap(Clap::new(
                width_n, width_d, height_n, height_d, x_n, x_d, y_n, y_d,
            ))
        }
        2 => {
            let [angle] = fields(rest)?;
            Property::Irot(Irot::new(angle))
        }
        3 => {
            let [axis] = fields(rest)?;
            Property::Imir(Imir::new(axis))
        }
        _ => {
            let [width_num, width_den, height_num, height_den] = fields(rest)?;
            Property::Iscl(Iscl::new(width_num, width_den, height_num, height_den))
        }
    };
    let index = u16::try_from(at).ok()?;
    Some(PropertyEntry::new(index, essential == 1, property))
}

/// An entry's numbers after its kind and whether it is essential.
fn numbers(property: &Property) -> Vec<u32> {
    match *property {
        Property::Other => Vec::new(),
        Property::Clap(clap) => vec![
            clap.width_n,
            clap.width_d,
            clap.height_n,
            clap.height_d,
            clap.horiz_off_n.cast_unsigned(),
            clap.horiz_off_d,
            clap.vert_off_n.cast_unsigned(),
            clap.vert_off_d,
        ],
        Property::Irot(irot) => vec![irot.angle.into()],
        Property::Imir(imir) => vec![imir.axis.into()],
        Property::Iscl(iscl) => vec![
            iscl.width_num.into(),
            iscl.width_den.into(),
            iscl.height_num.into(),
            iscl.height_den.into(),
        ],
    }
}

/// The chain of `entries`; their indices are not part of it. Refusal 4: above 256 entries.
pub fn join(entries: &[PropertyEntry]) -> Result<Vec<u8>> {
    let mut chain = Vec::new();
    push_number(
        &mut chain,
        u32::try_from(entries.len()).map_err(|_| Refusal::LIMIT)?,
    );
    for entry in entries {
        push_number(&mut chain, entry.property.kind());
        push_number(&mut chain, entry.essential.into());
        for number in numbers(&entry.property) {
            push_number(&mut chain, number);
        }
    }
    count(&chain)?;
    Ok(chain)
}
