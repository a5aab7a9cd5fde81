//! The stored answers of the published Rust (`crates/replay/stdin`): the file is what the Rust says,
//! where that is present, and the composer's calls and the model answer as it is stored.

use differential::compare::Sides;
use differential::expected;
use differential::ours::{Answer, BEFORE, Composer, Linked};
use differential::store::{self, Call};
use model::refusal::ROOM;
use model::{Clap, Colour, Crop, Iscl, Marks, Operation, Scene, SceneParts};
use std::path::PathBuf;

fn in_replay(file: &str) -> PathBuf {
    PathBuf::from(concat!(env!("CARGO_MANIFEST_DIR"), "/../../crates/replay")).join(file)
}

fn stored() -> Vec<store::Operation> {
    let file = std::fs::read(in_replay("stdin")).expect("the stored answers");
    let operations = store::from_bytes(&file).expect("operations");
    assert!(store::to_bytes(&operations) == file);
    operations
}

#[test]
fn the_file_is_what_the_published_rust_says() {
    let Some(sides) = Sides::open() else { return };
    let made = store::operations(&sides, 250, 1);
    for (made, stored) in made.iter().zip(stored()) {
        assert_eq!(made.name, stored.name);
        assert!(*made == stored, "{} is stored otherwise", made.name);
    }
    assert_eq!(made.len(), stored().len());
}

/// The program says of every operation that every call is answered alike.
#[test]
fn the_programs_text_has_every_operation() {
    let text = std::fs::read_to_string(in_replay("stdout")).expect("the program's text");
    let line = |operation: &store::Operation| {
        let calls = operation.calls.len();
        format!("{:<16}{calls} of {calls}\n", operation.name)
    };
    assert_eq!(text, stored().iter().map(line).collect::<String>());
}

/// What a call writes to the output that it is lent. What is past it, or the whole where it is
/// refused, must be as it was.
fn written(lent: usize, call: impl FnOnce(&mut [u8]) -> Option<Answer<usize>>) -> Answer<Vec<u8>> {
    let mut output = vec![BEFORE; lent];
    let length = call(&mut output).expect("a call that is there");
    let past = &output[length.unwrap_or(0)..];
    assert!(past.iter().all(|byte| *byte == BEFORE));
    output.truncate(length?);
    Ok(output)
}

/// What a scene writes to its output; past it, and in the spare, all is 0. Where it is refused,
/// both must be as they were.
fn composed(
    [output, spare]: [usize; 2],
    call: impl FnOnce(&mut [u8], &mut [u8]) -> Option<Answer<usize>>,
) -> Answer<Vec<u8>> {
    let (mut output, mut spare) = (vec![BEFORE; output], vec![BEFORE; spare]);
    let length = call(&mut output, &mut spare).expect("a call that is there");
    let left = if length.is_ok() { 0 } else { BEFORE };
    let past = output[length.unwrap_or(0)..].iter().chain(&spare);
    assert!(past.into_iter().all(|byte| *byte == left));
    output.truncate(length?);
    Ok(output)
}

/// The numbers that a call answers.
fn numbers<T: Copy + Default, const N: usize>(
    call: impl FnOnce(&mut [T]) -> Option<Answer<u64>>,
) -> Answer<Vec<u8>>
where
    u32: From<T>,
{
    let mut words = [T::default(); N];
    call(&mut words).expect("a call that is there")?;
    Ok(words.map(|word| u32::from(word).to_be_bytes()).concat())
}

/// For each call of a session 0 or its refusal, then the record of a finish that is the last. A
/// refused call must leave state and buffer.
fn session(body: &[u8], calls: &[(expected::Call, usize)]) -> Answer<Vec<u8>> {
    let (mut state, mut buffer) = (vec![0; 1_034], vec![BEFORE; store::LENT]);
    let started = Linked.canvas_start(body, &mut state);
    assert_eq!(started.expect("a call that is there")?, 0);
    let (mut answers, mut length) = (Vec::new(), 0);
    for (call, lent) in calls {
        let before = (state.clone(), buffer.clone());
        let answer = Linked.canvas_call(call, &mut state, &mut buffer[..*lent]);
        let answer = answer.expect("a call that is there");
        assert!(answer.is_ok() || before == (state.clone(), buffer.clone()));
        assert_eq!(answer.err().and_then(|refusal| refusal.item), None);
        let number = answer.err().map_or(0, |refusal| refusal.number);
        answers.extend(u32::from(number).to_be_bytes());
        length = answer.unwrap_or(0);
    }
    answers.extend(&buffer[..length]);
    Ok(answers)
}

/// The fields of a call as what they stand for.
struct Fields<'a>(&'a [u32; 10]);

impl Fields<'_> {
    fn clap(&self) -> Clap {
        Clap::from_fields(std::array::from_fn(|at| self.0[at]))
    }

    fn iscl(&self) -> Iscl {
        Iscl::from_fields(std::array::from_fn(|at| self.0[at] as u16))
    }

    fn fill(&self) -> [u16; 3] {
        std::array::from_fn(|at| self.0[at] as u16)
    }

    /// A colour description from a field on.
    fn colour(&self, at: usize) -> Option<Colour> {
        (self.0[at] != 0).then(|| Colour {
            matrix: self.0[at + 1] as u16,
            full_range: self.0[at + 2] != 0,
        })
    }

    /// The operation on one record that has a number.
    fn operation(&self, number: u32) -> Option<Operation> {
        let fields = self.0;
        Some(match number {
            1 => Operation::Crop(Crop::from_fields(std::array::from_fn(|at| fields[at]))),
            2 => Operation::Clap(self.clap()),
            3 => Operation::Irot(fields[0] as u8),
            4 => Operation::Imir(fields[0] as u8),
            5 => Operation::Iscl(self.iscl()),
            6 => Operation::Nearest(fields[0], fields[1]),
            7 => Operation::Depth(fields[0]),
            _ => return None,
        })
    }
}

/// The parts of a scene, or of a grid or an overlay composed, which have no chain.
fn scene(call: &Call) -> (SceneParts<'_>, Marks<'_>) {
    let [body, tray, third, fourth] = &call.parts;
    let (chain, premultiplied): (&[u8], _) = match call.operation {
        15 | 16 => (third, fourth),
        _ => (&[0], third),
    };
    let parts = SceneParts {
        body,
        tray,
        chain,
        essential_only: call.fields[3] != 0,
    };
    let marks = Marks {
        premultiplied,
        colour: Fields(&call.fields).colour(0),
    };
    (parts, marks)
}

/// What the composer answers.
fn answer(call: &Call) -> Answer<Vec<u8>> {
    let ([one, two, three, _], [lent, _]) = (&call.parts, call.lent);
    let (fields, of) = (call.fields, Fields(&call.fields));
    if let Some(operation) = of.operation(call.operation) {
        return written(lent, |out| Linked.operation(one, &operation, out));
    }
    let (parts, marks) = scene(call);
    match call.operation {
        8 => written(lent, |out| Linked.attach(one, two, out)),
        9 => numbers::<u16, 3>(|words| Linked.fill(of.fill(), fields[3], of.colour(4), words)),
        10 => written(lent, |out| Linked.grid(one, two, out)),
        11 => written(lent, |out| {
            Linked.overlay(one, two, three, of.colour(0), out)
        }),
        12 => {
            let size = (fields[8], fields[9]);
            let words = numbers::<u32, 8>(|words| Linked.clap_resolve(&of.clap(), size, words));
            // The Rust has no margins.
            words.map(|words| words[..16].to_vec())
        }
        13 => {
            let size = (fields[4], fields[5]);
            numbers::<u32, 2>(|words| Linked.iscl_size(&of.iscl(), size, words))
        }
        14 => written(lent, |out| Linked.steps(one, out)),
        15 => composed(call.lent, |out, spare| {
            Linked.grid_scene(&parts, out, spare)
        }),
        16 => composed(call.lent, |out, spare| {
            Linked.overlay_scene(&parts, &marks, out, spare)
        }),
        17 => session(one, &store::scripted(two, three).expect("a script")),
        other => panic!("no operation has the number {other}"),
    }
}

/// Bytes that a call writes, where they fit what it is lent.
fn fitting(call: &Call, bytes: Answer<Vec<u8>>) -> Answer<Vec<u8>> {
    let bytes = bytes?;
    if bytes.len() > call.lent[0] {
        return Err(ROOM);
    }
    Ok(bytes)
}

/// What the model answers; it has no attach and no session.
fn modelled(call: &Call) -> Option<Answer<Vec<u8>>> {
    let (fields, of) = (call.fields, Fields(&call.fields));
    if let Some(operation) = of.operation(call.operation) {
        let frame = model::parse_record(&call.parts[0]);
        let made = frame.and_then(|frame| operation.apply(&frame));
        return Some(fitting(call, made.map(|frame| frame.record())));
    }
    let words = |words: &[u32]| words.iter().flat_map(|word| word.to_be_bytes()).collect();
    let record = |scene: Answer<Scene>| fitting(call, scene.map(|scene| scene.record));
    let (parts, marks) = scene(call);
    let lent = |scene: Answer<Scene>| {
        let record = scene.clone()?.record;
        scene?.lent(call.lent[0], call.lent[1])?;
        Ok(record)
    };
    Some(match call.operation {
        9 => model::fill_samples(of.fill(), fields[3], of.colour(4))
            .map(|samples| words(&samples.map(u32::from))),
        10 => record(model::grid_scene(&parts)),
        11 => record(model::overlay_scene(&parts, &marks)),
        12 => of
            .clap()
            .resolve(fields[8], fields[9])
            .map(|crop| words(&crop.fields()[..4])),
        13 => of
            .iscl()
            .output_size(fields[4], fields[5])
            .map(|(width, height)| words(&[width, height])),
        14 => {
            let text = model::steps_text(&call.parts[0], |entry, size| Ok(entry.size_after(size)));
            fitting(call, text.map(String::into_bytes))
        }
        15 => lent(model::grid_scene(&parts)),
        16 => lent(model::overlay_scene(&parts, &marks)),
        _ => return None,
    })
}

/// Whether an answer is the one that is stored, a refusal by its number.
fn is_stored(answer: Answer<Vec<u8>>, call: &Call) -> bool {
    answer.map_err(|refusal| refusal.number) == call.answer
}

#[test]
fn the_model_answers_as_it_is_stored() {
    for operation in stored() {
        for (at, call) in operation.calls.iter().enumerate() {
            let alike = modelled(call).is_none_or(|answer| is_stored(answer, call));
            assert!(alike, "{} {at}", operation.name);
        }
    }
}

/// No items are stored: they are the model's, and attach and the session have none.
#[test]
fn the_composer_answers_as_it_is_stored() {
    let item = |answer: Answer<Vec<u8>>| answer.err()?.item;
    for operation in stored() {
        for (at, call) in operation.calls.iter().enumerate() {
            let ours = answer(call);
            assert!(is_stored(ours.clone(), call), "{} {at}", operation.name);
            let want = modelled(call).and_then(item);
            assert_eq!(item(ours), want, "{} {at}", operation.name);
        }
    }
}

/// What the program has room for.
#[test]
fn the_program_can_hold_the_calls() {
    for call in stored().iter().flat_map(|operation| &operation.calls) {
        let [first, others @ ..] = &call.parts;
        assert!(first.len() <= 65_664);
        let others = others.iter().chain(call.answer.as_ref());
        assert!(others.map(Vec::len).max() <= Some(1_024));
        assert!(call.lent.into_iter().max() <= Some(store::LENT));
    }
}

/// Crops that are 9 for their margins are stored, and such that are for their rectangle.
#[test]
fn crops_of_both_sorts_are_stored() {
    let stored = stored();
    let crops = stored.iter().find(|operation| operation.name == "crop");
    let refused = crops
        .expect("it")
        .calls
        .iter()
        .filter(|call| call.answer == Err(9));
    let by_margins = |call: &&Call| {
        let Some(Operation::Crop(crop)) = Fields(&call.fields).operation(1) else {
            return false;
        };
        let frame = model::parse_record(&call.parts[0]).expect("a record");
        let right = Crop::of(crop.rectangle, (frame.width, frame.height));
        Operation::Crop(right).apply(&frame).is_ok()
    };
    let (margins, rectangles): (Vec<&Call>, Vec<&Call>) = refused.partition(by_margins);
    let counts = [margins.len(), rectangles.len()];
    assert!(counts.into_iter().all(|count| count > 2), "{counts:?}");
}

/// Every operation that lends a buffer has calls of 17, and iscl on a record its 10 and its 4.
#[test]
fn refusals_that_are_rare_are_stored() {
    for operation in stored() {
        let count = |number| {
            let calls = operation.calls.iter();
            calls.filter(|call| call.answer == Err(number)).count()
        };
        match operation.name.as_str() {
            "fill" | "clap-resolve" | "iscl-size" => assert_eq!(count(17), 0),
            "session" => {
                let answers = operation.calls.iter().flat_map(|call| {
                    let turns = 4 * call.fields[0] as usize;
                    let answer = call.answer.as_ref().expect("a session that is started");
                    answer[..turns].as_chunks::<4>().0
                });
                let short = answers.filter(|answer| **answer == [0, 0, 0, 17]);
                assert!(short.count() > 400);
            }
            "iscl" => assert_eq!([count(4), count(10), count(17)], [10, 10, 25]),
            _ => assert_eq!(count(17), 25, "{}", operation.name),
        }
    }
}
