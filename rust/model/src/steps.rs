//! The text of the steps program (document 01, "Steps program").

use crate::chain::{Entry, Property, parse_chain};
use crate::number::Reader;
use crate::record::hold_size;
use crate::refusal::Refusal;

/// A width and a height.
pub type Size = (u32, u32);

/// What the program is handed: a size and a chain. 5 malformed, 4 a chain above 256, then 3 a side
/// 0, 4 above L; of no item.
pub fn parse_steps(input: &[u8]) -> Result<(Size, Vec<Entry>), Refusal> {
    let mut reader = Reader::new(input);
    let (width, height) = (reader.number()?, reader.number()?);
    let chain = parse_chain(reader.rest());
    let chain = chain.map_err(|refusal| Refusal::new(refusal.number))?;
    hold_size((width, height))?;
    Ok(((width, height), chain))
}

impl Entry {
    /// The size after the entry, applied to a picture of a size.
    pub fn size_after(&self, (width, height): Size) -> Result<Size, Refusal> {
        match self.property {
            Property::Other | Property::Imir(_) => Ok((width, height)),
            Property::Clap(clap) => {
                let stays = clap.resolve(width, height)?.rectangle;
                Ok((stays.width, stays.height))
            }
            Property::Irot(angle) if angle % 2 == 1 => Ok((height, width)),
            Property::Irot(_) => Ok((width, height)),
            Property::Iscl(iscl) => iscl.output_size(width, height),
        }
    }

    /// Its kind, 0 to 4.
    pub fn kind(&self) -> u32 {
        self.numbers()[0]
    }
}

/// The text, where `after` gives the size after an entry. An error of another sort ends the making.
pub fn steps_text<E>(
    input: &[u8],
    after: impl Fn(&Entry, Size) -> Result<Result<Size, Refusal>, E>,
) -> Result<String, E> {
    let (mut size, chain) = match parse_steps(input) {
        Ok(read) => read,
        Err(Refusal { number, .. }) => return Ok(format!("refused {number}\n")),
    };
    let mut text = "step kind width height\n".to_string();
    for (index, entry) in chain.iter().enumerate() {
        let kind = entry.kind();
        match after(entry, size)? {
            Ok((width, height)) => {
                text += &format!("{index} {kind} {width} {height}\n");
                size = (width, height);
            }
            Err(Refusal { number, .. }) => {
                text += &format!("{index} {kind} refused {number}\n");
                break;
            }
        }
    }
    Ok(text)
}
