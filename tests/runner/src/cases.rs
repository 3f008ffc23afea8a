//! Reads the case files. The line format is described in `cases/README.md`, beside the files.
//!
//! A file that does not read is an error, never a case left out: what is unknown, missing or said twice stops the run.

use crate::describe::{self, list_bytes};
use crate::engine::Answer;
use std::collections::{BTreeMap, BTreeSet};
use std::path::{Path, PathBuf};

pub type Bytes = Vec<u8>;

/// What is called, with every input in bytes.
#[derive(Clone, Debug)]
pub enum Call {
    CheckBook {
        book: Bytes,
    },
    /// `first` is a book compiled before, whose compile must leave no trace.
    Compile {
        book: Bytes,
        room: usize,
        first: Option<Bytes>,
    },
    CheckImage {
        image: Bytes,
    },
    Fallback {
        image: Bytes,
        place: u32,
    },
    Level {
        image: Bytes,
        place: u32,
    },
    Mark {
        image: Bytes,
        place: u32,
    },
    Edge {
        image: Bytes,
        place: u32,
        event: u8,
    },
    Step {
        image: Bytes,
        place: u32,
        event: u8,
    },
    Run {
        image: Bytes,
        place: u32,
        base: u32,
        log: Bytes,
        room: usize,
    },
    ShortList {
        list: Bytes,
        room: usize,
    },
    Part {
        log: Bytes,
        base: u32,
        end: u32,
        length: u32,
    },
    Group {
        events: Vec<u8>,
    },
    /// The chain of a text, as the image's place and its fallbacks name it.
    Chain {
        book: Bytes,
        text: Bytes,
    },
    Listing {
        book: Bytes,
        log: Bytes,
    },
}

/// What must stand in lent memory after a success.
#[derive(Clone, Debug)]
pub enum Wrote {
    Bytes(Bytes),
    /// Too much to write down: the bytes are those that the oracle writes, and the answer's numbers stand in the case.
    Unlisted,
}

#[derive(Clone, Debug)]
pub enum Expected {
    Answer { answer: Answer, wrote: Option<Wrote>, part: Option<Bytes> },
    Letter(u8),
    Chain { place: u64, chain: Vec<(u64, u64)> },
    Prints(String),
}

#[derive(Clone, Debug)]
pub struct Case {
    pub name: String,
    pub from: String,
    pub call: Call,
    pub expected: Expected,
}

/// A book or image given both in words and in bytes: the two must be the same.
#[derive(Clone, Debug)]
pub struct Twice {
    pub name: String,
    pub described: Bytes,
    pub bytes: Bytes,
}

#[derive(Default)]
pub struct Cases {
    pub cases: Vec<Case>,
    pub twice: Vec<Twice>,
    books: BTreeMap<String, Bytes>,
    images: BTreeMap<String, Bytes>,
    names: BTreeSet<String>,
}

fn case_files(dir: &Path) -> Result<Vec<PathBuf>, String> {
    let entries = std::fs::read_dir(dir).map_err(|error| format!("{}: {error}", dir.display()))?;
    let mut files: Vec<PathBuf> = entries.flatten().map(|entry| entry.path()).collect();
    files.retain(|path| path.extension().is_some_and(|extension| extension == "txt"));
    files.sort();
    if files.is_empty() {
        return Err(format!("{}: no case files", dir.display()));
    }
    Ok(files)
}

/// Every case file of a folder, in the order of their names.
pub fn read_cases(dir: &Path) -> Result<Cases, String> {
    let mut cases = Cases::default();
    for path in case_files(dir)? {
        let text = std::fs::read_to_string(&path).map_err(|error| format!("{}: {error}", path.display()))?;
        cases.read_file(&text).map_err(|error| format!("{}: {error}", path.display()))?;
    }
    Ok(cases)
}

type Read<T> = Result<T, String>;

fn number<T: std::str::FromStr>(word: &str) -> Read<T> {
    word.replace(',', "").parse().map_err(|_| format!("'{word}' is no number that fits here"))
}

fn hex_byte(word: &str) -> Read<u8> {
    if word.len() != 2 {
        return Err(format!("'{word}' is no byte of two hex digits"));
    }
    u8::from_str_radix(word, 16).map_err(|_| format!("'{word}' is no byte of two hex digits"))
}

/// Bytes on one line: `empty`, `N bytes of HH`, `N times HEX`, or hex digits in groups as one likes.
fn bytes(text: &str) -> Read<Bytes> {
    let words: Vec<&str> = text.split_whitespace().collect();
    match words.as_slice() {
        [] => Err("bytes are missing; say 'empty' for none".to_string()),
        ["empty"] => Ok(Bytes::new()),
        [count, "bytes", "of", byte] => Ok(vec![hex_byte(byte)?; number(count)?]),
        [count, "times", again @ ..] => Ok(bytes(&again.concat())?.repeat(number(count)?)),
        _ => {
            let digits: String = words.concat();
            if digits.len() % 2 != 0 || !digits.is_ascii() {
                return Err(format!("'{text}' is not pairs of hex digits"));
            }
            (0..digits.len() / 2).map(|i| hex_byte(&digits[2 * i..2 * i + 2])).collect()
        }
    }
}

/// `A..B` or one number, read by `read`.
fn range<T: Copy>(word: &str, read: impl Fn(&str) -> Read<T>) -> Read<(T, T)> {
    match word.split_once("..") {
        Some((first, last)) => Ok((read(first)?, read(last)?)),
        None => read(word).map(|only| (only, only)),
    }
}

/// One line of a described book, `STATES: ITEM, ITEM`, added to what is described so far.
fn book_line(book: &mut describe::Book, line: &str) -> Read<()> {
    let (states, items) = line.split_once(':').ok_or("a state line has a colon")?;
    let (first, last) = range(states.trim(), number::<usize>)?;
    if book.states.len() <= last {
        book.states.resize(last + 1, describe::State::default());
    }
    for state in first..=last {
        for item in items.split(',') {
            match item.split_whitespace().collect::<Vec<&str>>().as_slice() {
                [] => {}
                ["mark", mark] => book.states[state].mark = number(mark)?,
                [events, "to", target] => {
                    let (low, high) = range(events, hex_byte)?;
                    let target = if *target == "next" { state + 1 } else { number(target)? };
                    for event in low..=high {
                        book.states[state].edges.push((event, target));
                    }
                }
                _ => return Err(format!("'{item}' is neither an edge nor a mark")),
            }
        }
    }
    Ok(())
}

/// One line of a described image, `PLACES: head H, fallback F, level L, mark M, EVENT to TARGET`.
fn image_line(image: &mut describe::Image, line: &str) -> Read<()> {
    let (places, items) = line.split_once(':').ok_or("a place line has a colon")?;
    let (first, last) = range(places.trim(), number::<usize>)?;
    if image.places.len() <= last {
        image.places.resize(last + 1, describe::Place::default());
    }
    for number_of_place in first..=last {
        let place = &mut image.places[number_of_place];
        for item in items.split(',') {
            match item.split_whitespace().collect::<Vec<&str>>().as_slice() {
                [] => {}
                ["head", head] => place.head = number(head)?,
                ["fallback", fallback] => place.fallback = number(fallback)?,
                ["level", level] => place.level = number(level)?,
                ["mark", mark] => place.mark = number(mark)?,
                [events, "to", target] => {
                    let (low, high) = range(events, hex_byte)?;
                    let target = if *target == "next" { number_of_place + 1 } else { number(target)? };
                    for event in low..=high {
                        place.edges.push((event, target));
                    }
                }
                _ => return Err(format!("'{item}' says nothing of a place")),
            }
        }
    }
    Ok(())
}

/// A block of a file: its head line and its indented lines, with their line numbers.
struct Block<'a> {
    line: usize,
    head: &'a str,
    lines: Vec<(usize, &'a str)>,
}

fn blocks(text: &str) -> Read<Vec<Block<'_>>> {
    let mut blocks: Vec<Block> = Vec::new();
    for (index, whole) in text.lines().enumerate() {
        let line = index + 1;
        // A comment takes its whole line: a printed line may hold any sign.
        if whole.trim().is_empty() || whole.trim_start().starts_with('#') {
            continue;
        }
        if whole.starts_with(' ') {
            let block = blocks.last_mut().ok_or(format!("line {line}: an indented line before any block"))?;
            block.lines.push((line, whole.trim()));
        } else {
            blocks.push(Block { line, head: whole.trim(), lines: Vec::new() });
        }
    }
    Ok(blocks)
}

/// The first word of a line and the rest of it.
fn keyword(line: &str) -> (&str, &str) {
    match line.split_once(char::is_whitespace) {
        Some((word, rest)) => (word, rest.trim()),
        None => (line, ""),
    }
}

/// The lines of a case as they are read, before they are put together.
#[derive(Default)]
struct Draft {
    from: Option<String>,
    book: Option<Bytes>,
    image: Option<Bytes>,
    log: Option<Bytes>,
    list: Option<Bytes>,
    /// Which of the four an edit line changes: the one named last.
    edited: Option<Input>,
    first: Option<Bytes>,
    numbers: BTreeMap<&'static str, u64>,
    events: Option<(u8, u8)>,
    call: Option<String>,
    refused: Option<(u32, u32)>,
    answer: Option<Vec<(String, String)>>,
    records: Vec<(u32, u16, u8, u8)>,
    wrote: Option<Wrote>,
    part: Option<Bytes>,
    chain: Option<Vec<(u64, u64)>>,
    prints: Option<String>,
}

#[derive(Clone, Copy)]
enum Input {
    Book,
    Image,
    Log,
    List,
}

fn once<T>(slot: &mut Option<T>, value: T, what: &str) -> Read<()> {
    if slot.is_some() {
        return Err(format!("'{what}' is said twice"));
    }
    *slot = Some(value);
    Ok(())
}

impl Cases {
    pub fn read_file(&mut self, text: &str) -> Result<(), String> {
        for block in blocks(text)? {
            let (kind, name) = keyword(block.head);
            let at = |why: String| format!("line {}: {why}", block.line);
            match kind {
                "book" => self.book_block(name, &block)?,
                "image" => self.image_block(name, &block)?,
                "case" => {
                    if name.is_empty() || !self.names.insert(name.to_string()) {
                        return Err(at(format!("the case name '{name}' is empty or taken")));
                    }
                    let mut draft = Draft::default();
                    for (line, words) in &block.lines {
                        self.case_line(&mut draft, words).map_err(|why| format!("line {line}: {why}"))?;
                    }
                    let case = draft.case(name).map_err(at)?;
                    self.cases.push(case);
                }
                _ => return Err(at(format!("'{kind}' begins no block"))),
            }
        }
        Ok(())
    }

    fn book_block(&mut self, name: &str, block: &Block) -> Result<(), String> {
        let mut described = describe::Book::default();
        let mut raw: Option<Bytes> = None;
        for (line, words) in &block.lines {
            let at = |why: String| format!("line {line}: {why}");
            match keyword(words) {
                ("from", _) => {}
                ("note", rest) => described.note = bytes(rest).map_err(at)?,
                ("bytes", rest) => raw.get_or_insert_with(Bytes::new).extend(bytes(rest).map_err(at)?),
                _ => book_line(&mut described, words).map_err(at)?,
            }
        }
        let known = if described.states.is_empty() { None } else { Some(described.bytes()) };
        let whole = self.twice("book", name, known, raw).map_err(|why| format!("line {}: {why}", block.line))?;
        match self.books.insert(name.to_string(), whole) {
            Some(_) => Err(format!("line {}: book '{name}' is defined twice", block.line)),
            None => Ok(()),
        }
    }

    fn image_block(&mut self, name: &str, block: &Block) -> Result<(), String> {
        let mut described = describe::Image::default();
        let mut raw: Option<Bytes> = None;
        for (line, words) in &block.lines {
            let at = |why: String| format!("line {line}: {why}");
            match keyword(words) {
                ("from", _) => {}
                ("bytes", rest) => raw.get_or_insert_with(Bytes::new).extend(bytes(rest).map_err(at)?),
                _ => image_line(&mut described, words).map_err(at)?,
            }
        }
        let known = if described.places.is_empty() { None } else { Some(described.bytes()) };
        let whole = self.twice("image", name, known, raw).map_err(|why| format!("line {}: {why}", block.line))?;
        match self.images.insert(name.to_string(), whole) {
            Some(_) => Err(format!("line {}: image '{name}' is defined twice", block.line)),
            None => Ok(()),
        }
    }

    fn twice(&mut self, kind: &str, name: &str, known: Option<Bytes>, raw: Option<Bytes>) -> Read<Bytes> {
        match (known, raw) {
            (Some(described), Some(raw)) => {
                let twice = Twice { name: format!("{kind} {name}"), described, bytes: raw.clone() };
                self.twice.push(twice);
                Ok(raw)
            }
            (Some(one), None) | (None, Some(one)) => Ok(one),
            (None, None) => Err(format!("{kind} '{name}' has neither words nor bytes")),
        }
    }

    fn named_book(&self, name: &str) -> Read<Bytes> {
        self.books.get(name).cloned().ok_or(format!("there is no book '{name}'"))
    }

    fn named_image(&self, name: &str) -> Read<Bytes> {
        self.images.get(name).cloned().ok_or(format!("there is no image '{name}'"))
    }

    fn case_line(&self, draft: &mut Draft, line: &str) -> Read<()> {
        let (word, rest) = keyword(line);
        let words: Vec<&str> = rest.split_whitespace().collect();
        match (word, words.as_slice()) {
            ("from", _) => once(&mut draft.from, rest.to_string(), word),
            ("call", [call]) => once(&mut draft.call, call.to_string(), word),

            ("book", ["bytes", ..]) => {
                draft.edited = Some(Input::Book);
                once(&mut draft.book, bytes(rest["bytes".len()..].trim())?, word)
            }
            ("book", [name]) => {
                draft.edited = Some(Input::Book);
                once(&mut draft.book, self.named_book(name)?, word)
            }
            ("image", ["bytes", ..]) => {
                draft.edited = Some(Input::Image);
                once(&mut draft.image, bytes(rest["bytes".len()..].trim())?, word)
            }
            ("image", ["of", name]) => {
                draft.edited = Some(Input::Image);
                let compiled = oracle::compile::compiled(&self.named_book(name)?)
                    .map_err(|refusal| format!("book '{name}' does not compile: {refusal:?}"))?;
                once(&mut draft.image, compiled.image, word)
            }
            ("image", [name]) => {
                draft.edited = Some(Input::Image);
                once(&mut draft.image, self.named_image(name)?, word)
            }
            ("log" | "text", _) => {
                draft.edited = Some(Input::Log);
                once(&mut draft.log, bytes(rest)?, word)
            }
            ("list", _) => {
                draft.edited = Some(Input::List);
                once(&mut draft.list, bytes(rest)?, word)
            }
            ("given", [end, length, mark, zero @ ..]) => {
                draft.edited = Some(Input::List);
                let zero = zero.first().map_or(Ok(0), |word| number(word))?;
                let record = (number(end)?, number(length)?, number(mark)?, zero);
                draft.list.get_or_insert_with(Bytes::new).extend(list_bytes(&[record]));
                Ok(())
            }
            ("set" | "cut" | "drop" | "add" | "note", _) => draft.edit(word, rest),
            ("first", ["compile", name]) => once(&mut draft.first, self.named_book(name)?, word),

            ("place" | "base" | "end" | "length" | "room", [value]) => {
                let key = ["place", "base", "end", "length", "room"].into_iter().find(|key| *key == word);
                match draft.numbers.insert(key.expect("one of the five"), number(value)?) {
                    Some(_) => Err(format!("'{word}' is said twice")),
                    None => Ok(()),
                }
            }
            ("event", [event]) => once(&mut draft.events, range(event, hex_byte)?, word),

            ("refused", [refusal, "at", place]) => once(&mut draft.refused, (number(refusal)?, number(place)?), word),
            ("answer", ["none"]) => once(&mut draft.answer, Vec::new(), word),
            ("answer", pairs) if pairs.len() % 2 == 0 && !pairs.is_empty() => {
                let pairs = pairs.chunks(2).map(|pair| (pair[0].to_string(), pair[1].to_string())).collect();
                once(&mut draft.answer, pairs, word)
            }
            ("record", [end, length, mark]) => {
                draft.records.push((number(end)?, number(length)?, number(mark)?, 0));
                Ok(())
            }
            ("wrote", ["unlisted"]) => once(&mut draft.wrote, Wrote::Unlisted, word),
            ("wrote", ["image", name]) => once(&mut draft.wrote, Wrote::Bytes(self.named_image(name)?), word),
            ("wrote", ["bytes", ..]) => {
                once(&mut draft.wrote, Wrote::Bytes(bytes(rest["bytes".len()..].trim())?), word)
            }
            ("part", _) => once(&mut draft.part, bytes(rest)?, word),
            ("chain", ["empty"]) => once(&mut draft.chain, Vec::new(), word),
            ("chain", states) if !states.is_empty() => {
                let live = |word: &&str| -> Read<(u64, u64)> {
                    let (state, reach) = word.split_once('@').ok_or("a live state is STATE@REACH")?;
                    Ok((number(state)?, number(reach)?))
                };
                once(&mut draft.chain, states.iter().map(live).collect::<Read<_>>()?, word)
            }
            ("prints", _) => {
                let text = draft.prints.get_or_insert_with(String::new);
                match rest.strip_prefix("for ").and_then(|rest| rest.split_once(": ")) {
                    Some((numbers, pattern)) => {
                        let (first, last) = range(numbers, number::<u64>)?;
                        for n in first..=last {
                            text.push_str(&format!("{}\n", pattern.replace("{}", &n.to_string())));
                        }
                    }
                    None => text.push_str(&format!("{rest}\n")),
                }
                Ok(())
            }
            _ => Err(format!("'{line}' says nothing in a case")),
        }
    }
}

impl Draft {
    /// Changes the input named last: `set OFFSET HEX`, `cut N` (the first N bytes stay), `drop N` (the first N bytes
    /// go), `add BYTES` at the end, `note BYTES` in front.
    fn edit(&mut self, word: &str, rest: &str) -> Read<()> {
        let input = match self.edited {
            Some(Input::Book) => &mut self.book,
            Some(Input::Image) => &mut self.image,
            Some(Input::Log) => &mut self.log,
            Some(Input::List) => &mut self.list,
            None => return Err("there is nothing to edit yet".to_string()),
        };
        let input = input.as_mut().expect("the input named last is there");
        match word {
            "set" => {
                let (offset, new) = keyword(rest);
                let (offset, new) = (number::<usize>(offset)?, bytes(new)?);
                let old = input.get_mut(offset..offset + new.len()).ok_or("the edit lies past the end")?;
                if old == new.as_slice() {
                    return Err("the edit changes nothing".to_string());
                }
                old.copy_from_slice(&new);
            }
            "cut" => input.truncate(number(rest)?),
            "drop" => {
                input.drain(..number::<usize>(rest)?);
            }
            "add" => input.extend(bytes(rest)?),
            _ => {
                input.splice(..0, bytes(rest)?);
            }
        }
        Ok(())
    }

    fn take_book(&mut self) -> Read<Bytes> {
        self.book.take().ok_or("the book is missing".to_string())
    }

    fn take_image(&mut self) -> Read<Bytes> {
        self.image.take().ok_or("the image is missing".to_string())
    }

    fn take_log(&mut self) -> Read<Bytes> {
        self.log.take().ok_or("the log is missing; say 'log empty' for none".to_string())
    }

    fn take_number(&mut self, key: &'static str) -> Read<u32> {
        let value = self.numbers.remove(key).ok_or(format!("'{key}' is missing"))?;
        u32::try_from(value).map_err(|_| format!("'{key}' does not fit 32 bits"))
    }

    fn take_event(&mut self) -> Read<u8> {
        match self.events.take() {
            Some((first, last)) if first == last => Ok(first),
            _ => Err("one event is wanted".to_string()),
        }
    }

    fn take_room(&mut self) -> Read<usize> {
        self.take_number("room").map(|room| room as usize)
    }

    /// The answer's numbers by their names, all of them and no other.
    fn take_numbers(&mut self, names: &[&str]) -> Read<Answer> {
        let mut given = self.answer.take().ok_or("the answer is missing")?;
        let mut values = [0; 4];
        for (value, name) in values.iter_mut().zip(names) {
            let at =
                given.iter().position(|pair| pair.0 == *name).ok_or(format!("the answer's '{name}' is missing"))?;
            *value = number(&given.remove(at).1)?;
        }
        match given.first() {
            Some(pair) => Err(format!("this call answers no '{}'", pair.0)),
            None => Ok(Answer::numbers(values[0], values[1], values[2], values[3])),
        }
    }

    fn call(&mut self, name: &str) -> Read<Call> {
        Ok(match name {
            "check_book" => Call::CheckBook { book: self.take_book()? },
            "compile" => Call::Compile { book: self.take_book()?, room: self.take_room()?, first: self.first.take() },
            "check_image" => Call::CheckImage { image: self.take_image()? },
            "fallback" => Call::Fallback { image: self.take_image()?, place: self.take_number("place")? },
            "level" => Call::Level { image: self.take_image()?, place: self.take_number("place")? },
            "mark" => Call::Mark { image: self.take_image()?, place: self.take_number("place")? },
            "edge" => {
                Call::Edge { image: self.take_image()?, place: self.take_number("place")?, event: self.take_event()? }
            }
            "step" => {
                Call::Step { image: self.take_image()?, place: self.take_number("place")?, event: self.take_event()? }
            }
            "run" => Call::Run {
                image: self.take_image()?,
                place: self.take_number("place")?,
                base: self.take_number("base")?,
                log: self.take_log()?,
                room: self.take_room()?,
            },
            "short_list" => {
                let list = self.list.take().ok_or("the list is missing; say 'list empty' for none")?;
                Call::ShortList { list, room: self.take_room()? }
            }
            "part" => Call::Part {
                log: self.take_log()?,
                base: self.take_number("base")?,
                end: self.take_number("end")?,
                length: self.take_number("length")?,
            },
            "group" => {
                let (first, last) = self.events.take().ok_or("the events are missing")?;
                Call::Group { events: (first..=last).collect() }
            }
            "chain" => Call::Chain { book: self.take_book()?, text: self.take_log()? },
            "listing" => Call::Listing { book: self.take_book()?, log: self.take_log()? },
            _ => return Err(format!("there is no call '{name}'")),
        })
    }

    fn expected(&mut self, call: &Call) -> Read<Expected> {
        let writes = matches!(call, Call::Compile { .. } | Call::Run { .. } | Call::ShortList { .. });
        if let Some((number, place)) = self.refused.take() {
            if matches!(call, Call::Group { .. } | Call::Chain { .. } | Call::Listing { .. }) {
                return Err("this call is not refused by a number".to_string());
            }
            // A refusal writes nothing at all.
            let wrote = writes.then(|| Wrote::Bytes(Bytes::new()));
            return Ok(Expected::Answer { answer: Answer::refused(number, place), wrote, part: None });
        }
        let answer = match call {
            Call::CheckBook { .. } => self.take_numbers(&["states", "edges"])?,
            Call::Compile { .. } => self.take_numbers(&["length", "places", "edges"])?,
            Call::CheckImage { .. } => self.take_numbers(&["places", "edges"])?,
            Call::Fallback { .. } => self.take_numbers(&["fallback"])?,
            Call::Level { .. } => self.take_numbers(&["level"])?,
            Call::Mark { .. } => self.take_numbers(&["mark"])?,
            Call::Edge { .. } => {
                if self.answer.as_ref().is_some_and(Vec::is_empty) {
                    self.answer = None;
                    Answer::default()
                } else {
                    let target = self.take_numbers(&["target"])?;
                    Answer::numbers(1, target.a, 0, 0)
                }
            }
            Call::Step { .. } => self.take_numbers(&["place", "level", "steps"])?,
            Call::Run { .. } => self.take_numbers(&["taken", "place", "records", "steps"])?,
            Call::ShortList { .. } => self.take_numbers(&["records"])?,
            Call::Part { .. } => self.take_numbers(&["offset", "length"])?,
            Call::Group { .. } => {
                let given = self.answer.take().ok_or("the answer is missing")?;
                return match given.as_slice() {
                    [(name, letter)] if name == "letter" && letter.len() == 1 => {
                        Ok(Expected::Letter(letter.as_bytes()[0]))
                    }
                    _ => Err("the answer is 'letter' and one letter".to_string()),
                };
            }
            Call::Chain { .. } => {
                let place = self.take_numbers(&["place"])?.a;
                let chain = self.chain.take().ok_or("the chain is missing")?;
                return Ok(Expected::Chain { place, chain });
            }
            Call::Listing { .. } => {
                return self.prints.take().map(Expected::Prints).ok_or("what it prints is missing".to_string());
            }
        };
        let listed = match call {
            Call::Compile { .. } => None,
            Call::Run { .. } => Some(answer.c),
            Call::ShortList { .. } => Some(answer.a),
            _ => None,
        };
        let wrote = match (writes, self.wrote.take()) {
            (false, None) => None,
            (false, Some(_)) => return Err("this call writes nothing".to_string()),
            (true, Some(wrote)) => Some(wrote),
            (true, None) => {
                if listed != Some(self.records.len() as u64) {
                    return Err("the records (or what is written) are not all there".to_string());
                }
                Some(Wrote::Bytes(list_bytes(&std::mem::take(&mut self.records))))
            }
        };
        let part = self.part.take();
        if matches!(call, Call::Part { .. }) != part.is_some() {
            return Err("a part that is found, and nothing else, has its bytes in the case".to_string());
        }
        Ok(Expected::Answer { answer, wrote, part })
    }

    fn case(mut self, name: &str) -> Read<Case> {
        let from = self.from.take().ok_or("it does not say where it is from")?;
        let called = self.call.take().ok_or("it calls nothing")?;
        let call = self.call(&called)?;
        let expected = self.expected(&call)?;
        let left_over = [
            ("book", self.book.is_some()),
            ("image", self.image.is_some()),
            ("log", self.log.is_some()),
            ("list", self.list.is_some()),
            ("first", self.first.is_some()),
            ("numbers", !self.numbers.is_empty()),
            ("event", self.events.is_some()),
            ("answer", self.answer.is_some()),
            ("record", !self.records.is_empty()),
            ("wrote", self.wrote.is_some()),
            ("part", self.part.is_some()),
            ("chain", self.chain.is_some()),
            ("prints", self.prints.is_some()),
        ];
        match left_over.iter().find(|(_, there)| *there) {
            Some((what, _)) => Err(format!("'{what}' has no use in a case of '{called}'")),
            None => Ok(Case { name: name.to_string(), from, call, expected }),
        }
    }
}
