//! Descriptor bodies: what they hold, and new ones.

use super::files::{counted, read, say};
use super::options::{FORCE, OUT};
use super::words::Words;
use super::{Command, Failure};
use compose::derived::grid_body;
use compose::{GridDescriptor, OverlayDescriptor};

pub const DESCRIPTOR: Command = Command {
    name: "descriptor",
    takes: "grid|overlay BODY [COUNT]",
    options: &[],
    about: "what a descriptor body holds",
    more: "\
BODY is a file with the body of a grid or an overlay item (ISO/IEC 23008-12, 6.6.2). Of a grid it
prints rows, columns and the canvas; of an overlay, which takes the COUNT of its inputs, the canvas,
its fill and a line an input: its index and how far right of and below the canvas's corner it goes.
  printf '\\0\\0\\0\\1\\0\\4\\0\\2' | compose descriptor grid -
",
    run,
};

pub const BODY: Command = Command {
    name: "body",
    takes: "grid|overlay FIELD..",
    options: &[OUT, FORCE],
    about: "a descriptor body",
    more: "\
Writes the body of a grid, from rows and columns of tiles, 1 to 256 of each (19), and the size of its
canvas:
  compose body grid ROWS COLUMNS WIDTH HEIGHT -o OUT
or of an overlay, from the size of its canvas, its fill (from 0 to 65535; an ALPHA of 65535 is
opaque), and how far right of and below the canvas's corner each input goes, of at least one (15):
  compose body overlay WIDTH HEIGHT RED GREEN BLUE ALPHA RIGHT BELOW [RIGHT BELOW].. -o OUT
Sizes and offsets have 16 bits where every size is at most 65535 and every offset from -32768 to 32767,
else 32. compose descriptor shows what a body holds.
",
    run: run_body,
};

fn run_body(words: &mut Words) -> Result<(), Failure> {
    let sort = words.next("grid or overlay")?;
    let body = match sort.as_str() {
        "grid" => {
            let fields = words.numbers(["ROWS", "COLUMNS", "WIDTH", "HEIGHT"])?;
            let [rows, columns, width, height] = fields;
            grid_body(rows, columns, width, height)
        }
        "overlay" => {
            let [width, height] = words.numbers(["WIDTH", "HEIGHT"])?;
            let fill = words.numbers(["RED", "GREEN", "BLUE", "ALPHA"])?;
            let mut offsets = Vec::new();
            while !words.is_empty() {
                offsets.push((words.number("RIGHT")?, words.number("BELOW")?));
            }
            OverlayDescriptor::new(fill, width, height, offsets).body()
        }
        _ => return Err(words.wrong(format!("it takes grid or overlay, not {sort}"))),
    };
    let out = words.output()?;
    let body = body.map_err(|refusal| words.refused(refusal))?;
    out.write(&body, &format!("{sort} body"))
}

fn run(words: &mut Words) -> Result<(), Failure> {
    let sort = words.next("grid or overlay")?;
    let file = words.file("BODY")?;
    let text = match sort.as_str() {
        "grid" => {
            words.end()?;
            GridDescriptor::parse(&read(&file)?).map(about_grid)
        }
        "overlay" => {
            let count: u32 = words.number("COUNT")?;
            words.end()?;
            OverlayDescriptor::parse(&read(&file)?, count as usize).map(about_overlay)
        }
        _ => return Err(words.wrong(format!("it takes grid or overlay, not {sort}"))),
    };
    say(&text.map_err(|refusal| words.refused_in(&file, refusal))?)
}

fn about_grid(grid: GridDescriptor) -> String {
    format!(
        "{} × {}, rows {}, columns {}\n",
        grid.output_width, grid.output_height, grid.rows, grid.columns
    )
}

fn about_overlay(overlay: OverlayDescriptor) -> String {
    let [red, green, blue, alpha] = overlay.canvas_fill;
    let mut text = format!(
        "{} × {}, fill {red} {green} {blue}, alpha {alpha}, {}\n",
        overlay.output_width,
        overlay.output_height,
        counted(overlay.offsets.len(), "input")
    );
    for (index, (right, below)) in overlay.offsets.iter().enumerate() {
        text += &format!("{index:>5}  {right} {below}\n");
    }
    text
}
