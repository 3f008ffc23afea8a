//! `seeds CASES DIR`: each case as an input of the fuzzer, a file for each in DIR. The bytes are those that
//! `fuzz/README.md` describes.

use runner::cases::{read_cases, Call};
use std::path::Path;
use std::process::ExitCode;

/// The first byte chooses the function.
#[repr(u8)]
enum Function {
    CheckBook,
    Compile,
    CheckImage,
    Fallback,
    Level,
    Mark,
    Edge,
    Step,
    Run,
    ShortList,
    Part,
    Group,
    /// A book compiled, its image run, and so on.
    Whole,
}

/// A number that stands in 16 bits; a larger one is as good as the largest.
fn in16(number: usize) -> [u8; 2] {
    u16::try_from(number).unwrap_or(u16::MAX).to_le_bytes()
}

fn input(function: Function, parts: &[&[u8]]) -> Vec<u8> {
    let mut bytes = vec![function as u8];
    for part in parts {
        bytes.extend_from_slice(part);
    }
    bytes
}

/// The inputs for one call. A log that does not fit its 16 bits is left out with its call.
fn inputs(call: &Call) -> Vec<Vec<u8>> {
    let question = |function: Function, image: &[u8], place: u32| input(function, &[&place.to_le_bytes(), image]);
    let with_event = |function: Function, image: &[u8], place: u32, event: u8| {
        input(function, &[&place.to_le_bytes(), &[event], image])
    };
    let whole = |book: &[u8], log: &[u8]| input(Function::Whole, &[&in16(65_535), &in16(log.len()), log, book]);
    match call {
        Call::CheckBook { book } => vec![input(Function::CheckBook, &[book])],
        Call::Compile { book, room, .. } => vec![input(Function::Compile, &[&in16(*room), book])],
        Call::CheckImage { image } => vec![input(Function::CheckImage, &[image])],
        Call::Fallback { image, place } => vec![question(Function::Fallback, image, *place)],
        Call::Level { image, place } => vec![question(Function::Level, image, *place)],
        Call::Mark { image, place } => vec![question(Function::Mark, image, *place)],
        Call::Edge { image, place, event } => vec![with_event(Function::Edge, image, *place, *event)],
        Call::Step { image, place, event } => vec![with_event(Function::Step, image, *place, *event)],
        Call::Run { image, place, base, log, room } if log.len() < 65_536 => {
            let numbers = [place.to_le_bytes(), base.to_le_bytes()].concat();
            vec![input(Function::Run, &[&numbers, &in16(*room), &in16(log.len()), log, image])]
        }
        Call::ShortList { list, room } => vec![input(Function::ShortList, &[&in16(*room), list])],
        Call::Part { log, base, end, length } => {
            let numbers = [base.to_le_bytes(), end.to_le_bytes(), length.to_le_bytes()].concat();
            vec![input(Function::Part, &[&numbers, log])]
        }
        Call::Group { events } => events.iter().map(|event| input(Function::Group, &[&[*event]])).collect(),
        Call::Chain { book, text } if text.len() < 65_536 => vec![whole(book, text)],
        Call::Listing { book, log } if log.len() < 65_536 => vec![whole(book, log)],
        Call::Run { .. } | Call::Chain { .. } | Call::Listing { .. } => Vec::new(),
    }
}

fn written(cases: &Path, dir: &Path) -> Result<usize, String> {
    let mut count = 0;
    for case in read_cases(cases)?.cases {
        for (number, bytes) in inputs(&case.call).iter().enumerate() {
            // The first of a case has its name.
            let name = if number == 0 { case.name.clone() } else { format!("{}-{number}", case.name) };
            let path = dir.join(name);
            std::fs::write(&path, bytes).map_err(|error| format!("{}: {error}", path.display()))?;
            count += 1;
        }
    }
    Ok(count)
}

fn main() -> ExitCode {
    let words: Vec<String> = std::env::args().skip(1).collect();
    let [cases, dir] = words.as_slice() else {
        eprintln!("usage: seeds CASES DIR");
        return ExitCode::from(2);
    };
    match written(Path::new(cases), Path::new(dir)) {
        Ok(count) => {
            println!("{count} inputs from the cases");
            ExitCode::SUCCESS
        }
        Err(why) => {
            eprintln!("{why}");
            ExitCode::FAILURE
        }
    }
}
