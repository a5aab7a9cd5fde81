//! Stored answers of the published Rust, for the program `replay` (`crates/replay`), which has no
//! Rust at hand: the file that it reads.
//!
//! The file is made of operations. Each begins with its name, filled up with blanks to 16 bytes, and
//! how many calls follow. A call is 20 numbers, then the bytes of its four parts and of its answer:
//!
//! - which operation, by number;
//! - the refusal's number, or 0;
//! - the lengths of the four parts as they are stored;
//! - how many zeros follow the first of them;
//! - the answer's length, which a refusal has not;
//! - how many bytes of output and of spare are lent, 0 where there is none;
//! - ten fields, 0 where a call has none.
//!
//! Every number has four bytes, the highest first, and so have numbers of an answer. A session is one
//! call: the grid's body, the records and the script of its calls, and what each of these answered.

use crate::compare::{Input, Sides};
use crate::comparisons::{self, ALL, Kind};
use crate::expected::{self, Stop, Want};
use crate::rng::Rng;
use model::refusal::{LIMIT, ROOM, SIDE_OVERFLOW};
use model::{Clap, Frame, Iscl, Oracle, Refusal, Scene, SceneParts, parse_tray};

/// A call and its answer.
#[derive(Clone, Debug, PartialEq, Eq)]
pub struct Call {
    pub operation: u32,
    pub parts: [Vec<u8>; 4],
    /// The bytes of output and of spare that are lent.
    pub lent: [usize; 2],
    pub fields: [u32; 10],
    /// What it writes, or the refusal's number.
    pub answer: Result<Vec<u8>, u8>,
}

/// An operation's name and its calls.
#[derive(Clone, Debug, PartialEq, Eq)]
pub struct Operation {
    pub name: String,
    pub calls: Vec<Call>,
}

/// The most bytes that a stored call's parts and answer have together.
const MOST: usize = 800;
/// The most bytes that are stored of a part; a longer one must end in zeros.
const LONGEST: usize = 1_024;
/// The most bytes that are lent as output, as spare or as a session's buffer.
pub const LENT: usize = 4_096;

/// Parts and fields of a call.
type Handed = (Vec<Vec<u8>>, Vec<u32>);

/// What a call answers, and how many bytes of each lent buffer it needs for that.
#[derive(PartialEq)]
struct Answered {
    answer: Vec<u8>,
    room: usize,
}

impl Answered {
    /// Bytes that are written to the output as they are answered.
    fn written(answer: Vec<u8>) -> Self {
        Self {
            room: answer.len(),
            answer,
        }
    }

    /// A scene's record, which needs room for the longest of its steps.
    fn scene(scene: Scene) -> Self {
        Self {
            answer: scene.record,
            room: scene.room,
        }
    }

    /// Numbers, for which nothing is lent.
    fn numbers<const N: usize>(answer: [u32; N]) -> Self {
        Self {
            answer: numbers(answer),
            room: 0,
        }
    }
}

/// A refusal, and inputs that reach it.
type Reached = (Refusal, fn(&mut Rng) -> Input);

/// How an operation's calls are made: its number, its name, the comparison whose inputs it takes,
/// and how many buffers its calls are lent.
struct Source {
    number: u32,
    name: &'static str,
    comparison: &'static str,
    buffers: usize,
    handed: fn(&dyn Oracle, &Input) -> Handed,
    answer: fn(&dyn Oracle, &Input) -> Want<Answered>,
    /// Refusals that those inputs do not reach.
    beyond: &'static [Reached],
}

macro_rules! on_record {
    ($number:literal, $name:literal, $kind:expr) => {
        on_record! { $number, $name, $kind, &[] }
    };
    ($number:literal, $name:literal, $kind:expr, $beyond:expr) => {
        Source {
            number: $number,
            name: $name,
            comparison: $name,
            buffers: 1,
            handed: |_, input| (parts(input, &["record"]), all_fields(input)),
            answer: |oracle, input| {
                let operation = comparisons::operation_of(input, $kind);
                let record = expected::operation(oracle, input.bytes("record"), &operation)?;
                Ok(Answered::written(record))
            },
            beyond: $beyond,
        }
    };
}

const SOURCES: &[Source] = &[
    on_record!(1, "crop", Kind::Crop),
    on_record!(2, "clap", Kind::Clap),
    on_record!(3, "irot", Kind::Irot),
    on_record!(4, "imir", Kind::Imir),
    on_record!(
        5,
        "iscl",
        Kind::Iscl,
        &[(SIDE_OVERFLOW, strip_to_10), (LIMIT, picture_to_4)]
    ),
    on_record!(6, "nearest", Kind::Nearest),
    on_record!(7, "depth", Kind::Depth),
    Source {
        number: 8,
        name: "attach",
        comparison: "attach",
        buffers: 1,
        handed: |_, input| (parts(input, &["master", "alpha"]), Vec::new()),
        answer: |oracle, input| {
            let (master, alpha) = (input.bytes("master"), input.bytes("alpha"));
            Ok(Answered::written(expected::attach(oracle, master, alpha)?))
        },
        beyond: &[],
    },
    Source {
        number: 9,
        name: "fill",
        comparison: "fill",
        buffers: 0,
        handed: |_, input| {
            let mut numbers = fields(input, "fill");
            numbers.extend(fields(input, "depth"));
            numbers.extend(colour(input));
            (Vec::new(), numbers)
        },
        answer: |oracle, input| {
            let fill = std::array::from_fn(|at| input.numbers("fill")[at] as u16);
            let depth = input.numbers("depth")[0] as u32;
            let samples = expected::fill(oracle, fill, depth, comparisons::colour_of(input))?;
            Ok(Answered::numbers(samples.map(u32::from)))
        },
        beyond: &[],
    },
    Source {
        number: 10,
        name: "grid",
        comparison: "composite-grid",
        buffers: 1,
        handed: |_, input| (parts(input, &["body", "tray"]), Vec::new()),
        answer: |oracle, input| {
            let scene = expected::grid_scene(oracle, &composed(input))?;
            Ok(Answered::scene(scene))
        },
        beyond: &[],
    },
    Source {
        number: 11,
        name: "overlay",
        comparison: "composite-overlay",
        buffers: 1,
        handed: |_, input| {
            (
                parts(input, &["body", "tray", "premultiplied"]),
                colour(input),
            )
        },
        answer: |oracle, input| {
            let marks = comparisons::marks_of(input);
            let scene = expected::overlay_scene(oracle, &composed(input), &marks)?;
            Ok(Answered::scene(scene))
        },
        beyond: &[],
    },
    Source {
        number: 12,
        name: "clap-resolve",
        comparison: "clap-resolve",
        buffers: 0,
        handed: |_, input| (Vec::new(), with_size(input)),
        answer: |oracle, input| {
            let field = |at: usize| input.numbers("fields")[at] as u32;
            let clap = Clap::from_fields(std::array::from_fn(field));
            let [width, height] = size(input);
            let stays = expected::settle(oracle.resolve_clap(&clap, width, height))?;
            let stays = [stays.x, stays.y, stays.width, stays.height];
            Ok(Answered::numbers(stays))
        },
        beyond: &[],
    },
    Source {
        number: 13,
        name: "iscl-size",
        comparison: "iscl-size",
        buffers: 0,
        handed: |_, input| (Vec::new(), with_size(input)),
        answer: |oracle, input| {
            let field = |at: usize| input.numbers("fields")[at] as u16;
            let iscl = Iscl::from_fields(std::array::from_fn(field));
            let [width, height] = size(input);
            let (width, height) = expected::iscl_size(oracle, &iscl, (width, height))?;
            Ok(Answered::numbers([width, height]))
        },
        beyond: &[],
    },
    Source {
        number: 14,
        name: "steps",
        comparison: "steps",
        buffers: 1,
        handed: |_, input| (parts(input, &["input"]), Vec::new()),
        answer: |oracle, input| {
            let text = expected::steps(oracle, input.bytes("input"))?;
            Ok(Answered::written(text))
        },
        beyond: &[],
    },
    Source {
        number: 15,
        name: "grid-scene",
        comparison: "grid-scene",
        buffers: 2,
        handed: |_, input| {
            (
                parts(input, &["body", "tray", "chain"]),
                scene_fields(input),
            )
        },
        answer: |oracle, input| {
            let scene = expected::grid_scene(oracle, &comparisons::parts_of(input))?;
            Ok(Answered::scene(scene))
        },
        beyond: &[],
    },
    Source {
        number: 16,
        name: "overlay-scene",
        comparison: "overlay-scene",
        buffers: 2,
        handed: |_, input| {
            let names = ["body", "tray", "chain", "premultiplied"];
            (parts(input, &names), scene_fields(input))
        },
        answer: |oracle, input| {
            let (parts, marks) = (comparisons::parts_of(input), comparisons::marks_of(input));
            Ok(Answered::scene(expected::overlay_scene(
                oracle, &parts, &marks,
            )?))
        },
        beyond: &[],
    },
    Source {
        number: 17,
        name: "session",
        comparison: "session",
        buffers: 0,
        handed: |oracle, input| {
            let tiles = tiles(input).unwrap_or_default();
            let turns = turns(oracle, input, &tiles).unwrap_or_default();
            let (records, script) = script(&turns);
            let body = input.bytes("body").to_vec();
            (vec![body, records, script], vec![turns.len() as u32])
        },
        answer: session,
        beyond: &[],
    },
];

/// The tiles that a session's calls take from.
fn tiles(input: &Input) -> Want<Vec<Vec<u8>>> {
    let tiles = parse_tray(input.bytes("tray"))?;
    Ok(tiles.iter().map(Frame::record).collect())
}

/// A call of a session, the bytes of the buffer that it is lent, and what it answers.
struct Turn<'a> {
    call: expected::Call<'a>,
    lent: usize,
    answer: Result<usize, Refusal>,
}

/// The calls of a session. Every other one is made before with too few bytes: 17, or the refusal
/// that comes before it; and then with as many as it needs or with more.
fn turns<'a>(oracle: &dyn Oracle, input: &'a Input, tiles: &'a [Vec<u8>]) -> Want<Vec<Turn<'a>>> {
    let grid = expected::settle(oracle.parse_grid(input.bytes("body")))?;
    let calls = comparisons::calls_of(input, tiles);
    let events = expected::session(oracle, &grid, &calls);
    let buffers = events.iter().filter_map(|event| event.buffer.as_ref());
    let room = buffers.map(Vec::len).max().unwrap_or(0);
    if room > LENT {
        return Err(Stop::Large);
    }
    let mut turns = Vec::new();
    for (at, (call, event)) in calls.into_iter().zip(events).enumerate() {
        let answer = match event.answer {
            Ok(length) => Ok(length),
            Err(Stop::Refused(refusal)) => Err(refusal),
            Err(stop) => return Err(stop),
        };
        let few = [room.saturating_sub(1), 0][at / 2 % 2];
        let enough = [room, LENT][at % 2];
        if at % 2 == 0 && room > 0 {
            turns.push(Turn {
                call,
                lent: few,
                answer: answer.and(Err(ROOM)),
            });
        }
        turns.push(Turn {
            call,
            lent: enough,
            answer,
        });
    }
    Ok(turns)
}

/// The records that a session places, one after the other, and five numbers for each of its calls:
/// 0 place, 1 blank, 2 finish; the cell; where its record begins among them, and its length; the
/// bytes of the buffer that it is lent.
fn script(turns: &[Turn]) -> (Vec<u8>, Vec<u8>) {
    let (mut records, mut script) = (Vec::new(), Vec::new());
    for turn in turns {
        let (kind, cell, record): (u32, u32, &[u8]) = match turn.call {
            expected::Call::Place(cell, record) => (0, cell, record),
            expected::Call::Blank(cell) => (1, cell, &[]),
            expected::Call::Finish => (2, 0, &[]),
        };
        // A record that is placed again is stored once.
        let from = records.windows(record.len().max(1));
        let from = from.into_iter().position(|part| part == record);
        let from = from.unwrap_or_else(|| {
            records.extend_from_slice(record);
            records.len() - record.len()
        });
        let [from, length, lent] = [from, record.len(), turn.lent].map(|number| number as u32);
        script.extend(numbers([kind, cell, from, length, lent]));
    }
    (records, script)
}

/// The calls of a stored session, each with the bytes of the buffer that it is lent: what
/// [`script`] wrote.
pub fn scripted<'a>(
    records: &'a [u8],
    mut script: &[u8],
) -> Option<Vec<(expected::Call<'a>, usize)>> {
    let mut calls = Vec::new();
    while !script.is_empty() {
        let [kind, cell, from, length, lent] = read_numbers(&mut script)?;
        let call = match kind {
            0 => {
                let record = records.get(from as usize..)?.get(..length as usize)?;
                expected::Call::Place(cell, record)
            }
            1 => expected::Call::Blank(cell),
            2 => expected::Call::Finish,
            _ => return None,
        };
        calls.push((call, lent as usize));
    }
    Some(calls)
}

/// For each call of a session 0 or its refusal, then the record where the last one is a finish
/// that gives one.
fn session(oracle: &dyn Oracle, input: &Input) -> Want<Answered> {
    let grid = expected::settle(oracle.parse_grid(input.bytes("body")))?;
    let tiles = tiles(input)?;
    let turns = turns(oracle, input, &tiles)?;
    let number = |turn: &Turn| {
        let refusal = turn.answer.err();
        numbers([refusal.map_or(0, |refusal| refusal.number.into())])
    };
    let mut answer: Vec<u8> = turns.iter().flat_map(number).collect();
    let calls = comparisons::calls_of(input, &tiles);
    if let Some((expected::Call::Finish, earlier)) = calls.split_last() {
        match expected::finished(oracle, &grid, earlier) {
            Ok(picture) => answer.extend(picture.record()),
            Err(Stop::Refused(_)) => {}
            Err(stop) => return Err(stop),
        }
    }
    Ok(Answered { answer, room: 0 })
}

/// A strip of zeros so long that an iscl takes its side above 2^32 − 1.
fn strip_to_10(rng: &mut Rng) -> Input {
    scaled_strip(rng, 65_538, [65_535, 1])
}

/// A picture that an iscl takes above 2^30 pixels, or a side of it above 2^26.
fn picture_to_4(rng: &mut Rng) -> Input {
    if rng.flag() {
        return scaled_strip(rng, 1_025, [65_535, 1]);
    }
    let frame = Frame::mono(2, 2, &[0, 85, 170, 255]);
    let factor = |rng: &mut Rng| rng.number(32_768..=65_535);
    iscl_input(&frame, [factor(rng), 1, factor(rng), 1])
}

/// A strip of zeros at least so long, across or down, scaled along it.
fn scaled_strip(rng: &mut Rng, least: u32, [n, d]: [u32; 2]) -> Input {
    let side = least + rng.number(0..=60);
    let samples = vec![0; side as usize];
    if rng.flag() {
        return iscl_input(&Frame::mono(side, 1, &samples), [n, d, 1, 1]);
    }
    iscl_input(&Frame::mono(1, side, &samples), [1, 1, n, d])
}

fn iscl_input(frame: &Frame, fields: [u32; 4]) -> Input {
    Input::new()
        .with_bytes("record", frame.record())
        .with_numbers("fields", fields.map(i64::from).to_vec())
}

/// The colour description, then whether the essential entries alone are applied.
fn scene_fields(input: &Input) -> Vec<u32> {
    let mut fields = match input.has("premultiplied") {
        true => colour(input),
        false => Vec::new(),
    };
    fields.resize(3, 0);
    fields.push(input.flag("essential-only").into());
    fields
}

fn parts(input: &Input, names: &[&str]) -> Vec<Vec<u8>> {
    names
        .iter()
        .map(|name| input.bytes(name).to_vec())
        .collect()
}

fn fields(input: &Input, name: &str) -> Vec<u32> {
    input
        .numbers(name)
        .iter()
        .map(|field| *field as u32)
        .collect()
}

/// The fields of an operation on one record; a crop's margins are behind its rectangle.
fn all_fields(input: &Input) -> Vec<u32> {
    let lists = input.numbers.iter();
    lists.flat_map(|(name, _)| fields(input, name)).collect()
}

/// 1 and matrix and range of a description, or none.
fn colour(input: &Input) -> Vec<u32> {
    let description = fields(input, "colour");
    match description.is_empty() {
        true => description,
        false => [vec![1], description].concat(),
    }
}

fn size(input: &Input) -> [u32; 2] {
    std::array::from_fn(|at| input.numbers("size")[at] as u32)
}

/// The fields, then the size.
fn with_size(input: &Input) -> Vec<u32> {
    [fields(input, "fields"), size(input).to_vec()].concat()
}

fn composed(input: &Input) -> SceneParts<'_> {
    comparisons::composed_of(input)
}

fn numbers<const N: usize>(numbers: [u32; N]) -> Vec<u8> {
    numbers.map(u32::to_be_bytes).concat()
}

impl Source {
    /// A call made from a case's input, and the room that an accepted one needs; none where the
    /// Rust breaks on it, where its two builds differ, or where it is too long to be stored.
    fn call(&self, sides: &Sides, input: &Input) -> Option<(Call, usize)> {
        let [plain, checked] = sides.wants(|build| (self.answer)(build, input));
        if plain != checked {
            return None;
        }
        let (answer, room) = match plain {
            Ok(Answered { answer, room }) if room <= LENT => (Ok(answer), room),
            Err(Stop::Refused(refusal)) => (Err(refusal.number), 0),
            _ => return None,
        };
        let (mut parts, mut fields) = (self.handed)(sides.plain, input);
        parts.resize(4, Vec::new());
        fields.resize(10, 0);
        let call = Call {
            operation: self.number,
            parts: parts.try_into().expect("four parts"),
            lent: [0; 2],
            fields: fields.try_into().expect("ten fields"),
            answer,
        };
        call.is_short().then_some((call, room))
    }

    /// The same lengths for each buffer that a call of this operation is lent.
    fn alike(&self, length: usize) -> [usize; 2] {
        [length, length * (self.buffers / 2)]
    }

    /// What the call of a case is lent: as much as it needs or more; where it is refused, nothing,
    /// too, as 17 comes last.
    fn lent(&self, case: usize, call: &Call, room: usize) -> [usize; 2] {
        if self.buffers == 0 {
            return [0; 2];
        }
        self.alike(match call.answer {
            Ok(_) => [LENT, room][case % 2],
            Err(_) => [LENT, 0][case % 2],
        })
    }

    /// Lengths one of which at least is too short.
    fn too_short(&self, at: usize, room: usize) -> [usize; 2] {
        let less = room - 1;
        match self.buffers {
            1 => [[less, 0], [0, 0], [room / 2, 0]][at % 3],
            _ => [
                [less, room],
                [room, less],
                [less, less],
                [0, LENT],
                [LENT, 0],
            ][at % 5],
        }
    }

    /// So many calls; of each refusal as many as there are, up to a tenth. Then, where a buffer is
    /// lent, a tenth as many that are 17; and some for each refusal that the inputs do not reach.
    fn calls(&self, sides: &Sides, count: usize, seed: u64) -> Vec<Call> {
        let comparison = ALL.iter().find(|known| known.name == self.comparison);
        let comparison = comparison.expect("a comparison");
        let (mut calls, mut short): (Vec<Call>, Vec<Call>) = Default::default();
        for case in 0.. {
            if calls.len() == count {
                break;
            }
            let mut rng = Rng::for_case(seed, self.name, case);
            let Some((mut call, room)) = self.call(sides, &(comparison.generate)(&mut rng)) else {
                continue;
            };
            call.lent = self.lent(case as usize, &call, room);
            if call.answer.is_ok() && self.buffers > 0 && short.len() * 10 < count {
                short.push(Call {
                    lent: self.too_short(short.len(), room),
                    answer: Err(ROOM.number),
                    ..call.clone()
                });
            }
            let alike = |other: &&Call| other.answer.clone().err() == call.answer.clone().err();
            if call.answer.is_ok() || calls.iter().filter(alike).count() * 10 < count {
                calls.push(call);
            }
        }
        calls.extend(short);
        for reached in self.beyond {
            calls.extend(self.refused(sides, count / 25, seed, reached));
        }
        calls
    }

    /// So many calls that a refusal answers, on inputs that are made for it.
    fn refused(&self, sides: &Sides, count: usize, seed: u64, reached: &Reached) -> Vec<Call> {
        let (refusal, generate) = reached;
        let call = |case: usize| {
            let mut rng = Rng::for_case(seed, self.name, case as u64);
            let (call, room) = self.call(sides, &generate(&mut rng)).expect("a call");
            assert_eq!(call.answer, Err(refusal.number));
            Call {
                lent: self.lent(case, &call, room),
                ..call
            }
        };
        (0..count).map(call).collect()
    }
}

/// Every operation with so many calls.
pub fn operations(sides: &Sides, count: usize, seed: u64) -> Vec<Operation> {
    let operation = |source: &Source| Operation {
        name: source.name.into(),
        calls: source.calls(sides, count, seed),
    };
    SOURCES.iter().map(operation).collect()
}

impl Call {
    /// What is stored of the first part, and how many zeros follow it.
    fn first(&self) -> (&[u8], usize) {
        let first = &self.parts[0];
        let last = first.iter().rposition(|byte| *byte != 0);
        let stored = match first.len() > LONGEST {
            true => last.map_or(0, |last| last + 1),
            false => first.len(),
        };
        (&first[..stored], first.len() - stored)
    }

    /// The parts as they are stored.
    fn stored(&self) -> [&[u8]; 4] {
        let [_, two, three, four] = self.parts.each_ref().map(Vec::as_slice);
        [self.first().0, two, three, four]
    }

    /// Whether it is short enough to be stored.
    fn is_short(&self) -> bool {
        let lengths = self.stored().map(<[u8]>::len);
        let answer = self.answer.as_ref().map_or(0, Vec::len);
        lengths.iter().sum::<usize>() + answer <= MOST
    }

    fn write(&self, file: &mut Vec<u8>) {
        let nothing = Vec::new();
        let (refused, answer) = match &self.answer {
            Ok(answer) => (0, answer),
            Err(number) => (u32::from(*number), &nothing),
        };
        let stored = self.stored();
        file.extend(numbers([self.operation, refused]));
        file.extend(numbers(stored.map(|part| part.len() as u32)));
        file.extend(numbers([self.first().1 as u32, answer.len() as u32]));
        file.extend(numbers(self.lent.map(|length| length as u32)));
        file.extend(numbers(self.fields));
        for part in stored.into_iter().chain([answer.as_slice()]) {
            file.extend_from_slice(part);
        }
    }

    fn read(file: &mut &[u8]) -> Option<Self> {
        let [operation, refused] = read_numbers(file)?;
        let [one, two, three, four] = read_numbers(file)?;
        let [zeros, answer, output, spare] = read_numbers(file)?;
        let fields = read_numbers(file)?;
        let mut take = |length: u32| {
            let part;
            (part, *file) = file.split_at_checked(length as usize)?;
            Some(part.to_vec())
        };
        let mut parts = [take(one)?, take(two)?, take(three)?, take(four)?];
        let answer = take(answer)?;
        parts[0].resize((one + zeros) as usize, 0);
        Some(Self {
            operation,
            parts,
            lent: [output, spare].map(|length| length as usize),
            fields,
            answer: match refused {
                0 => Ok(answer),
                number => Err(u8::try_from(number).ok()?),
            },
        })
    }
}

fn read_numbers<const N: usize>(file: &mut &[u8]) -> Option<[u32; N]> {
    let mut numbers = [0; N];
    for number in &mut numbers {
        let (bytes, rest) = file.split_first_chunk()?;
        (*number, *file) = (u32::from_be_bytes(*bytes), rest);
    }
    Some(numbers)
}

/// The bytes of the file.
pub fn to_bytes(operations: &[Operation]) -> Vec<u8> {
    let mut file = Vec::new();
    for operation in operations {
        file.extend(format!("{:<16}", operation.name).bytes());
        file.extend(numbers([operation.calls.len() as u32]));
        for call in &operation.calls {
            call.write(&mut file);
        }
    }
    file
}

/// What the bytes of a file hold, if it is one.
pub fn from_bytes(mut file: &[u8]) -> Option<Vec<Operation>> {
    let mut operations = Vec::new();
    while let Some((name, rest)) = file.split_first_chunk::<16>() {
        file = rest;
        let [count] = read_numbers(&mut file)?;
        let calls = (0..count).map(|_| Call::read(&mut file));
        operations.push(Operation {
            calls: calls.collect::<Option<_>>()?,
            name: std::str::from_utf8(name).ok()?.trim_end().into(),
        });
    }
    file.is_empty().then_some(operations)
}
