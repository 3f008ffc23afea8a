//! One case on one engine: called, and its answer and its memory held to what the case says.

use crate::cases::{Call, Case, Expected, Twice, Wrote};
use crate::engine::{Answer, Engine, Oracle};
use crate::memory::{hex, Lent};

pub enum Judged {
    Passed,
    /// Expected and got, in words.
    Failed(String),
    /// The engine does not have the function yet.
    Skipped,
}

/// Two patterns with no byte in common: what one of them hides the other shows.
const PATTERNS: [u8; 2] = [0x00, 0xff];

fn shown(answer: Answer) -> String {
    if answer.number != 0 {
        let rest = [answer.a, answer.b, answer.c, answer.d];
        let rest = if rest == [0; 4] { String::new() } else { format!(" with numbers {rest:?}") };
        format!("refused {} at {}{rest}", answer.number, answer.place)
    } else {
        let place = if answer.place == 0 { String::new() } else { format!(" place {}", answer.place) };
        format!("answer {} {} {} {}{place}", answer.a, answer.b, answer.c, answer.d)
    }
}

fn cut(text: String) -> String {
    match text.char_indices().nth(600) {
        Some((at, _)) => format!("{}..", &text[..at]),
        None => text,
    }
}

fn compared(expected: Answer, got: Answer) -> Judged {
    if expected == got {
        Judged::Passed
    } else {
        Judged::Failed(format!("expected {}, got {}", shown(expected), shown(got)))
    }
}

/// A call that lends memory, made once for each pattern. `length` tells from an answer how many bytes it has written.
fn lending(
    engine: &dyn Engine,
    room: usize,
    expected: Answer,
    wrote: &Wrote,
    length: impl Fn(Answer) -> u64,
    call: impl Fn(&dyn Engine, &mut [u8]) -> Option<Answer>,
) -> Judged {
    let written = match wrote {
        Wrote::Bytes(bytes) => bytes.clone(),
        Wrote::Unlisted => {
            let mut lent = Lent::new(room, PATTERNS[0]);
            match call(&Oracle, lent.room()) {
                Some(answer) if answer == expected => lent.now()[..length(answer) as usize].to_vec(),
                _ => return Judged::Failed("the oracle does not answer what the case says".to_string()),
            }
        }
    };
    for pattern in PATTERNS {
        let mut lent = Lent::new(room, pattern);
        let got = match call(engine, lent.room()) {
            Some(answer) => answer,
            None => return Judged::Skipped,
        };
        if got != expected {
            return compared(expected, got);
        }
        if let Some(fault) = lent.fault(&written) {
            return Judged::Failed(format!(
                "{fault}; expected {}, got {}",
                cut(hex(&written)),
                cut(hex(&lent.now()[..room.min(written.len() + 16)]))
            ));
        }
    }
    Judged::Passed
}

/// The chain that an engine's image gives a text: its place after the text, then the fallbacks to place 0, each with
/// head and level. The head is read from the image; nothing asks for it.
fn chain_by_image(engine: &dyn Engine, book: &[u8], text: &[u8]) -> Option<Result<(u64, Vec<(u64, u64)>), String>> {
    let mut image = vec![0; 30_732];
    let compiled = engine.compile(book, &mut image)?;
    if compiled.number != 0 {
        return Some(Err(shown(compiled)));
    }
    image.truncate(compiled.a as usize);
    let mut place = 0;
    for event in text {
        let step = engine.step(&image, place, *event)?;
        if step.number != 0 {
            return Some(Err(shown(step)));
        }
        place = step.a as u32;
    }
    let reached = u64::from(place);
    let mut chain = Vec::new();
    while place != 0 && chain.len() < 1_024 {
        let head = oracle::bytes::number16(&image, 14 * place as usize + 8) as u64;
        chain.push((head, engine.level(&image, place)?.a));
        place = engine.fallback(&image, place)?.a as u32;
    }
    Some(Ok((reached, chain)))
}

/// The chain of a text by the definition and by document 000's steps, both from the book alone.
fn chain_by_book(book: &[u8], text: &[u8]) -> Result<Vec<(u64, u64)>, String> {
    let book = oracle::book::read(book).map_err(|refusal| format!("{refusal:?}"))?;
    let plain = |chain: Vec<oracle::chains::Live>| -> Vec<(u64, u64)> {
        chain.iter().map(|live| (u64::from(live.state), u64::from(live.reach))).collect()
    };
    let by_endings = plain(oracle::chains::by_endings(&book, text));
    let stepwise = plain(oracle::chains::stepwise(&book, text));
    if by_endings != stepwise {
        return Err(format!("by endings {by_endings:?}, stepwise {stepwise:?}"));
    }
    Ok(by_endings)
}

pub fn judge(case: &Case, engine: &dyn Engine) -> Judged {
    match &case.expected {
        Expected::Answer { answer, wrote, part } => judge_answer(case, engine, *answer, wrote.as_ref(), part.as_ref()),
        Expected::Letter(letter) => {
            let Call::Group { events } = &case.call else { unreachable!("letters are of groups") };
            for event in events {
                match engine.group(*event) {
                    None => return Judged::Skipped,
                    Some(got) if got == *letter => {}
                    Some(got) => {
                        let (expected, got) = (char::from(*letter), char::from(got));
                        return Judged::Failed(format!("event {event:02x}: expected {expected}, got {got}"));
                    }
                }
            }
            Judged::Passed
        }
        Expected::Chain { place, chain } => {
            let Call::Chain { book, text } = &case.call else { unreachable!("chains are of texts") };
            match chain_by_book(book, text) {
                Ok(got) if got == *chain => {}
                got => return Judged::Failed(format!("expected {chain:?}, the book gives {got:?}")),
            }
            match chain_by_image(engine, book, text) {
                None => Judged::Skipped,
                Some(Ok((at, got))) if at == *place && got == *chain => Judged::Passed,
                Some(got) => Judged::Failed(format!("expected place {place}, {chain:?}, the image gives {got:?}")),
            }
        }
        Expected::Prints(text) => {
            let Call::Listing { book, log } = &case.call else { unreachable!("only a listing prints") };
            match engine.listing(book, log) {
                None => Judged::Skipped,
                Some(got) if got == *text => Judged::Passed,
                Some(got) => Judged::Failed(format!("expected {:?}, got {:?}", cut(text.clone()), cut(got))),
            }
        }
    }
}

fn judge_answer(
    case: &Case,
    engine: &dyn Engine,
    expected: Answer,
    wrote: Option<&Wrote>,
    part: Option<&Vec<u8>>,
) -> Judged {
    let got = match &case.call {
        Call::CheckBook { book } => engine.check_book(book),
        Call::CheckImage { image } => engine.check_image(image),
        Call::Fallback { image, place } => engine.fallback(image, *place),
        Call::Level { image, place } => engine.level(image, *place),
        Call::Mark { image, place } => engine.mark(image, *place),
        Call::Edge { image, place, event } => engine.edge(image, *place, *event),
        Call::Step { image, place, event } => engine.step(image, *place, *event),
        Call::Part { log, base, end, length } => {
            let got = engine.part(log, *base, *end, *length);
            if let (Some(got), Some(part)) = (got, part) {
                // The answer's numbers must name the very bytes that the case gives.
                let named = usize::try_from(got.a).ok().zip(usize::try_from(got.b).ok());
                let named = named.and_then(|(offset, length)| log.get(offset..offset.checked_add(length)?));
                if got == expected && named != Some(part.as_slice()) {
                    return Judged::Failed(format!("expected part {}, got {named:02x?}", hex(part)));
                }
            }
            got
        }
        Call::Compile { book, room, first } => {
            return lending(
                engine,
                *room,
                expected,
                wrote.expect("a compile writes"),
                |got| got.a,
                |engine, out| {
                    if let Some(first) = first {
                        engine.compile(first, &mut vec![0; 30_732])?;
                    }
                    engine.compile(book, out)
                },
            );
        }
        Call::Run { image, place, base, log, room } => {
            return lending(
                engine,
                *room,
                expected,
                wrote.expect("a run writes"),
                |got| 8 * got.c,
                |engine, out| engine.run(image, *place, *base, log, out),
            );
        }
        Call::ShortList { list, room } => {
            let wrote = wrote.expect("a short list is written");
            return lending(
                engine,
                *room,
                expected,
                wrote,
                |got| 8 * got.a,
                |engine, out| engine.short_list(list, out),
            );
        }
        Call::Group { .. } | Call::Chain { .. } | Call::Listing { .. } => unreachable!("judged by other means"),
    };
    match got {
        None => Judged::Skipped,
        Some(got) => compared(expected, got),
    }
}

/// A thing given in words and in bytes.
pub fn judge_twice(twice: &Twice) -> Judged {
    if twice.described == twice.bytes {
        Judged::Passed
    } else {
        let (words, bytes) = (cut(hex(&twice.described)), cut(hex(&twice.bytes)));
        Judged::Failed(format!("the words give {words}, the bytes are {bytes}"))
    }
}
