//! Chains, and the sizes that properties give.

use super::files::{counted, read, say};
use super::options::{ESSENTIAL, FORCE, OUT};
use super::parts::{self, Size};
use super::words::Words;
use super::{Command, Failure};
use compose::props::{Clap, Crop, Imir, Irot, Iscl, Margins, Property, PropertyEntry};
use compose::{About, Refusal, Result as Answer, chain, steps};

pub const CHAIN: Command = Command {
    name: "chain",
    takes: "CHAIN [WIDTH HEIGHT]",
    options: &[ESSENTIAL],
    about: "what a chain of properties holds",
    more: "\
Prints how many entries there are, then a line an entry: its index, its property with the fields as
`compose resolve` takes them, and whether it is essential.
  printf '\\2\\2\\1\\1\\3\\0\\1' | compose chain -
With the size of a picture, a line says, too, which size the entry leaves of the one before, and how
much a clap takes on each side. A refused entry ends the text, and then the exit status is 2.
  compose chain turn.chain 48 32
",
    run: run_chain,
};

pub const ENTRIES: Command = Command {
    name: "entries",
    takes: "[PROPERTY FIELD..]..",
    options: &[OUT, FORCE],
    about: "a chain of properties",
    more: "\
Writes the chain of these properties, in this order; of none, too. A property is one of
  clap WN WD HN HD XN XD YN YD   irot ANGLE   imir AXIS   iscl WN WD HN HD   other
and one with a ! behind its name is essential.
  compose entries irot! 1 clap 24 1 16 1 0 1 -2 1 -o turn.chain
",
    run: run_entries,
};

fn run_entries(words: &mut Words) -> Result<(), Failure> {
    let mut entries = Vec::new();
    while !words.is_empty() {
        let word = words.next("PROPERTY")?;
        let name = word.trim_end_matches('!');
        let property = match name {
            "clap" => Property::Clap(words.clap()?),
            "irot" => Property::Irot(Irot::new(words.number("ANGLE")?)),
            "imir" => Property::Imir(Imir::new(words.number("AXIS")?)),
            "iscl" => {
                let [wn, wd, hn, hd] = words.numbers(["WN", "WD", "HN", "HD"])?;
                Property::Iscl(Iscl::new(wn, wd, hn, hd))
            }
            "other" => Property::Other,
            _ => return Err(words.wrong(format!("{word} is no property"))),
        };
        entries.push(PropertyEntry::new(0, name != word, property));
    }
    let out = words.output()?;
    let chain = chain::join(&entries).map_err(|refusal| words.refused(refusal))?;
    out.write(&chain, &counted(entries.len(), "entry"))
}

pub const RESOLVE: Command = Command {
    name: "resolve",
    takes: "clap|iscl WIDTH HEIGHT FIELD..",
    options: &[],
    about: "what a property makes of a size",
    more: "\
Of a picture of that size, for
  clap WN WD HN HD XN XD YN YD   it prints x, y, width and height of the part that stays, and what is
                                 taken to its left, above it, to its right and below it;
  iscl WN WD HN HD               it prints the width and the height that the picture is scaled to.
The fields are fractions: width, height, and how far the part's centre lies to the right of the
picture's and below it (XN and YN may be negative).
  compose resolve clap 64 48 62 1 48 1 0 1 0 1     1 0 62 48 1 0 1 0
  compose resolve iscl 5 5 1 2 2 3                 3 4
",
    run: run_resolve,
};

pub const STEPS: Command = Command {
    name: "steps",
    takes: "WIDTH HEIGHT CHAIN",
    options: &[],
    about: "the size after each entry of a chain",
    more: "\
Prints what the program steps does of a picture of that size: a heading, then a line an entry with its
index, its kind and the size after it. A refused entry ends the text, and input that is refused has only
that; the text is printed all the same, and the exit status is 2.
  compose steps 48 32 turn.chain
One file alone is the program's own input: a width, a height and a chain.
  printf '\\6\\4\\2\\2\\1\\1\\3\\0\\1' | compose steps -
",
    run: run_steps,
};

/// A property's name and fields.
fn about(property: &Property) -> String {
    match property {
        Property::Clap(clap) => {
            let Clap {
                width_n,
                width_d,
                height_n,
                height_d,
                ..
            } = clap;
            let (x_n, x_d) = (clap.horiz_off_n, clap.horiz_off_d);
            let (y_n, y_d) = (clap.vert_off_n, clap.vert_off_d);
            format!("clap {width_n} {width_d} {height_n} {height_d} {x_n} {x_d} {y_n} {y_d}")
        }
        Property::Irot(irot) => format!("irot {}", irot.angle),
        Property::Imir(imir) => format!("imir {}", imir.axis),
        Property::Iscl(iscl) => {
            let Iscl {
                width_num,
                width_den,
                height_num,
                height_den,
                ..
            } = iscl;
            format!("iscl {width_num} {width_den} {height_num} {height_den}")
        }
        _ => "other".into(),
    }
}

/// What a crop takes of a picture.
pub fn taken(crop: &Crop, (width, height): Size) -> String {
    let Margins {
        left,
        top,
        right,
        bottom,
    } = crop.margins;
    format!("takes {left} left, {top} top, {right} right, {bottom} bottom of {width} × {height}")
}

/// The size that a property leaves of a picture, and what it does in words.
fn effect(property: &Property, before: Size) -> Answer<(Size, String)> {
    let after = parts::size_after(property, before)?;
    let leaves = format!("leaves {} × {}", after.0, after.1);
    let effect = match property {
        Property::Clap(clap) => {
            let taken = taken(&clap.resolve(before.0, before.1)?, before);
            format!("{taken}, {leaves}")
        }
        _ => leaves,
    };
    Ok((after, effect))
}

/// Why no picture has a size, as the program steps judges it.
fn refused_size((width, height): Size) -> Option<Refusal> {
    let no_entries = steps::input(width, height, &[0]);
    steps::refusal(&steps::text(&no_entries))
}

fn run_chain(words: &mut Words) -> Result<(), Failure> {
    let file = words.file("CHAIN")?;
    let mut size: Option<Size> = match words.is_empty() {
        true => None,
        false => Some(words.numbers(["WIDTH", "HEIGHT"])?.into()),
    };
    words.end()?;
    let entries = chain::entries(&read(&file)?);
    let entries = entries.map_err(|refusal| words.refused_in(&file, refusal))?;
    if let Some(refusal) = size.and_then(refused_size) {
        return Err(words.refused(refusal));
    }
    let mut text = format!("{}\n", counted(entries.len(), "entry"));
    for (index, entry) in entries.iter().enumerate() {
        let PropertyEntry {
            essential,
            property,
            ..
        } = entry;
        let flag = if *essential { ", essential" } else { "" };
        text += &format!("{index:>5}  {}{flag}", about(property));
        match (words.flag(ESSENTIAL.name) && !essential, size) {
            (true, _) => text += ": skipped",
            (false, None) => {}
            (false, Some(before)) => match effect(property, before) {
                Ok((after, effect)) => {
                    text += &format!(": {effect}");
                    size = Some(after);
                }
                Err(refusal) => {
                    say(&format!("{text}: {}\n", words.sentence(refusal)))?;
                    let own = refusal.of_item(About::Entry, index as u64);
                    return Err(words.refused_in(&file, own));
                }
            },
        }
        text += "\n";
    }
    say(&text)
}

fn run_resolve(words: &mut Words) -> Result<(), Failure> {
    let property = words.next("clap or iscl")?;
    let numbers = match property.as_str() {
        "clap" => resolve_clap(words)?,
        "iscl" => resolve_iscl(words)?,
        _ => return Err(words.wrong(format!("it takes clap or iscl, not {property}"))),
    };
    let numbers: Vec<String> = numbers.iter().map(u32::to_string).collect();
    say(&format!("{}\n", numbers.join(" ")))
}

fn resolve_clap(words: &mut Words) -> Result<Vec<u32>, Failure> {
    let [width, height] = words.numbers(["WIDTH", "HEIGHT"])?;
    let aperture = words.clap()?;
    words.end()?;
    let stays = aperture.resolve(width, height);
    let Crop { rect, margins } = stays.map_err(|refusal| words.refused(refusal))?;
    let stays = [rect.x, rect.y, rect.width, rect.height];
    let taken = [margins.left, margins.top, margins.right, margins.bottom];
    Ok([stays, taken].concat())
}

fn resolve_iscl(words: &mut Words) -> Result<Vec<u32>, Failure> {
    let [width, height] = words.numbers(["WIDTH", "HEIGHT"])?;
    let [width_n, width_d, height_n, height_d] = words.numbers(["WN", "WD", "HN", "HD"])?;
    words.end()?;
    let size = Iscl::new(width_n, width_d, height_n, height_d).output_size(width, height);
    let (width, height) = size.map_err(|refusal| words.refused(refusal))?;
    Ok(vec![width, height])
}

fn run_steps(words: &mut Words) -> Result<(), Failure> {
    let input = match words.len() {
        1 => read(&words.file("INPUT")?)?,
        _ => {
            let [width, height] = words.numbers(["WIDTH", "HEIGHT"])?;
            let file = words.file("CHAIN")?;
            words.end()?;
            steps::input(width, height, &read(&file)?)
        }
    };
    let text = steps::text(&input);
    say(&text)?;
    match steps::refusal(&text) {
        Some(refusal) => Err(words.refused(refusal)),
        None => Ok(()),
    }
}
