//! What must hold of every book, image and log, tried on the oracle with drawn ones: the oracle is held to document
//! 01 by more than its cases before anything else is held to it.

use crate::describe;
use crate::draw;
use crate::engine::Answer;
use crate::memory::hex;
use crate::random::Random;
use oracle::answers;
use oracle::chains::{after, by_endings, stepwise, Chain};
use oracle::image::Image;

type Held = Result<(), String>;

pub struct Property {
    pub name: &'static str,
    pub holds: fn(&mut Random) -> Held,
}

pub fn all() -> Vec<Property> {
    let property = |name, holds| Property { name, holds };
    vec![
        property("chains by endings equal chains by steps", chains_agree),
        property("a compile numbers every chain once, breadth first", compile_numbers_chains),
        property("image and book walk in step, and records are the marked live states", image_walks_in_step),
        property("the step law holds on every run", step_law),
        property("a run in parts is the run of the whole", parts_are_the_whole),
        property("walk and run agree", walk_and_run_agree),
        property("a run with less room is a beginning of the whole run", less_room_is_a_beginning),
        property("each record's part leads to a state with its mark, and no shorter one does", parts_of_records),
        property("the short list has one record for each end", short_lists),
        property("a damaged book is read as its bytes say, or refused with a place that fits", damage_is_judged),
    ]
}

fn due(holds: bool, why: impl Fn() -> String) -> Held {
    if holds {
        Ok(())
    } else {
        Err(why())
    }
}

fn drawn_book(random: &mut Random) -> (Vec<u8>, oracle::book::Book) {
    let events = draw::alphabet(random, 4);
    let bytes = draw::small_book(random, 8, &events).bytes();
    let book = oracle::book::read(&bytes).expect("a drawn book is accepted");
    (bytes, book)
}

/// An image compiled from a drawn book, or as often one that no compile need have made.
fn drawn_image(random: &mut Random) -> (Vec<u8>, Image) {
    loop {
        let bytes = if random.once_in(2) {
            let (book, _) = drawn_book(random);
            match oracle::compile::compiled(&book) {
                Ok(compiled) => compiled.image,
                Err(_) => continue,
            }
        } else {
            let events = draw::alphabet(random, 4);
            draw::small_image(random, 12, &events).bytes()
        };
        let image = oracle::image::open(&bytes).expect("a drawn image is accepted");
        return (bytes, image);
    }
}

fn drawn_text(random: &mut Random, book: &oracle::book::Book, length: usize) -> Vec<u8> {
    let events: Vec<u8> = book.states.iter().flat_map(|state| state.edges.keys().copied()).collect();
    (0..length).map(|_| if events.is_empty() { random.byte() } else { *random.pick(&events) }).collect()
}

fn chains_agree(random: &mut Random) -> Held {
    for _ in 0..3_000 {
        let (bytes, book) = drawn_book(random);
        let length = random.below(14);
        let text = drawn_text(random, &book, length);
        let (one, other) = (by_endings(&book, &text), stepwise(&book, &text));
        due(one == other, || format!("book {} text {}: {one:?} and {other:?}", hex(&bytes), hex(&text)))?;
        due(one.windows(2).all(|two| two[0].reach > two[1].reach), || format!("equal reaches: {one:?}"))?;
    }
    Ok(())
}

fn compile_numbers_chains(random: &mut Random) -> Held {
    for _ in 0..1_500 {
        let (bytes, book) = drawn_book(random);
        let places = match oracle::compile::places(&book) {
            Ok(places) => places,
            Err(_) => continue,
        };
        let wrong = |why: &str| format!("{why}: book {}", hex(&bytes));
        // The order of first meeting, found again without numbers: the list of chains in the order they turn up.
        let mut met: Vec<Chain> = vec![Chain::new()];
        let mut at = 0;
        while at < met.len() {
            let chain = met[at].clone();
            let head = chain.first().map_or(0, |live| usize::from(live.state));
            for event in book.states[head].edges.keys() {
                let next = after(&book, &chain, *event);
                if !met.contains(&next) {
                    met.push(next);
                }
            }
            at += 1;
        }
        let chains: Vec<Chain> = places.iter().map(|place| place.chain.clone()).collect();
        due(chains == met, || wrong("places are not numbered as met"))?;
        for (number, place) in places.iter().enumerate().skip(1) {
            due(place.fallback < number, || wrong("a fallback is not lower"))?;
            due(places[place.fallback].chain[..] == place.chain[1..], || wrong("a fallback is another chain"))?;
            due(places[number - 1].level() <= place.level(), || wrong("levels fall"))?;
            let head_edges: Vec<u8> = book.states[place.head()].edges.keys().copied().collect();
            let place_edges: Vec<u8> = place.edges.iter().map(|edge| edge.0).collect();
            due(head_edges == place_edges, || wrong("a place has not its head's edges"))?;
        }
        let image = oracle::compile::image_bytes(&book, &places);
        let edges = places.iter().map(|place| place.edges.len() as u64).sum();
        let accepted = Answer::numbers(places.len() as u64, edges, 0, 0);
        due(answers::check_image(&image) == accepted, || wrong("the image is not accepted"))?;
    }
    Ok(())
}

fn image_walks_in_step(random: &mut Random) -> Held {
    for _ in 0..1_000 {
        let (bytes, book) = drawn_book(random);
        let image = match oracle::compile::compiled(&bytes) {
            Ok(compiled) => oracle::image::open(&compiled.image).expect("a compiled image is accepted"),
            Err(_) => continue,
        };
        let length = random.below(12);
        let text = drawn_text(random, &book, length);
        let wrong = |why: &str| format!("{why}: book {} text {}", hex(&bytes), hex(&text));
        let mut place = 0;
        let mut due_records = Vec::new();
        for taken in 1..=text.len() {
            place = oracle::walk::step(&image, place, text[taken - 1]).place;
            let chain = by_endings(&book, &text[..taken]);
            let named: Vec<(usize, usize)> =
                image.chain(place).iter().map(|place| (image.head(*place), image.level(*place))).collect();
            let live: Vec<(usize, usize)> =
                chain.iter().map(|live| (usize::from(live.state), usize::from(live.reach))).collect();
            due(named == live, || wrong("the image names other states"))?;
            for (state, reach) in live {
                if book.marked(state) {
                    let mark = book.states[state].mark;
                    due_records.push(oracle::run::Record { end: taken as u64, length: reach, mark });
                }
            }
        }
        let ran = oracle::run::run(&image, 0, 0, &text, usize::MAX).expect("not refused");
        due(ran.records == due_records, || wrong("the records are not the marked live states"))?;
    }
    Ok(())
}

fn step_law(random: &mut Random) -> Held {
    for _ in 0..4_000 {
        let (bytes, image) = drawn_image(random);
        let place = random.below(image.place_count());
        let length = random.below(20);
        let log = draw::log(random, &image, place, length);
        let room = random.below(24);
        let ran = oracle::run::run(&image, place as u32, 0, &log, room).expect("not refused");
        let wrong = || format!("image {} place {place} log {} room {room}: {ran:?}", hex(&bytes), hex(&log));
        let left = ran.steps + image.level(ran.place) as u64;
        due(left <= image.level(place) as u64 + ran.taken as u64, wrong)?;
        due(place != 0 || ran.taken == 0 || ran.steps < ran.taken as u64, wrong)?;
    }
    Ok(())
}

fn parts_are_the_whole(random: &mut Random) -> Held {
    for _ in 0..3_000 {
        let (bytes, image) = drawn_image(random);
        let place = random.below(image.place_count()) as u32;
        let base = random.next() as u32 / 2;
        let length = random.below(24);
        let log = draw::log(random, &image, place as usize, length);
        let cut = random.below(log.len() + 1);
        let whole = oracle::run::run(&image, place, base, &log, usize::MAX).expect("not refused");
        let one = oracle::run::run(&image, place, base, &log[..cut], usize::MAX).expect("not refused");
        let other = oracle::run::run(&image, one.place as u32, base + cut as u32, &log[cut..], usize::MAX);
        let other = other.expect("not refused");
        let records = [one.records.clone(), other.records.clone()].concat();
        let same = whole.records == records
            && whole.place == other.place
            && whole.steps == one.steps + other.steps
            && whole.taken == one.taken + other.taken;
        due(same, || format!("image {} place {place} log {} cut {cut}", hex(&bytes), hex(&log)))?;
    }
    Ok(())
}

fn walk_and_run_agree(random: &mut Random) -> Held {
    for _ in 0..2_000 {
        let (bytes, image) = drawn_image(random);
        let start = random.below(image.place_count()) as u32;
        let length = random.below(20);
        let log = draw::log(random, &image, start as usize, length);
        let mut out = vec![0; 8 * 12 * 20];
        let ran = answers::run(&bytes, start, 0, &log, &mut out);
        let (mut place, mut steps) = (start, 0);
        for event in &log {
            let walked = answers::step(&bytes, place, *event);
            due(walked.b == answers::level(&bytes, walked.a as u32).a, || format!("a level: image {}", hex(&bytes)))?;
            place = walked.a as u32;
            steps += walked.c;
        }
        let same = ran.number == 0 && ran.a == log.len() as u64 && ran.b == u64::from(place) && ran.d == steps;
        due(same, || format!("image {} place {start} log {}", hex(&bytes), hex(&log)))?;
    }
    Ok(())
}

fn less_room_is_a_beginning(random: &mut Random) -> Held {
    for _ in 0..1_000 {
        let (bytes, image) = drawn_image(random);
        let place = random.below(image.place_count()) as u32;
        let length = random.below(16);
        let log = draw::log(random, &image, place as usize, length);
        let whole = oracle::run::run(&image, place, 0, &log, usize::MAX).expect("not refused");
        for room in 0..=whole.records.len() + 1 {
            let ran = oracle::run::run(&image, place, 0, &log, room).expect("not refused");
            let wrong = || format!("image {} place {place} log {} room {room}", hex(&bytes), hex(&log));
            // What is taken is a run of its own, and the next event's records, and only they, do not fit.
            let again = oracle::run::run(&image, place, 0, &log[..ran.taken], usize::MAX).expect("not refused");
            due(again == ran && ran.records[..] == whole.records[..ran.records.len()], wrong)?;
            let next_end = ran.taken as u64 + 1;
            let next = whole.records.iter().filter(|record| record.end == next_end).count();
            due(ran.taken == log.len() || ran.records.len() + next > room, wrong)?;
            due(ran.records.len() <= room, wrong)?;
        }
    }
    Ok(())
}

fn parts_of_records(random: &mut Random) -> Held {
    for _ in 0..1_500 {
        let (bytes, book) = drawn_book(random);
        let image = match oracle::compile::compiled(&bytes) {
            Ok(compiled) => oracle::image::open(&compiled.image).expect("a compiled image is accepted"),
            Err(_) => continue,
        };
        let base = random.next() as u32 / 2;
        let length = random.below(14);
        let log = draw::log(random, &image, 0, length);
        let ran = oracle::run::run(&image, 0, base, &log, usize::MAX).expect("not refused");
        for record in &ran.records {
            let wrong = || format!("book {} base {base} log {}: {record:?}", hex(&bytes), hex(&log));
            let named = oracle::lists::part(&log, base, record.end as u32, record.length as u32);
            let named = named.map_err(|refusal| format!("{refusal:?} for {}", wrong()))?;
            let state = book.read(&log[named.clone()]).ok_or_else(wrong)?;
            due(book.states[state].mark == record.mark, wrong)?;
            due(named.end as u64 == record.end - u64::from(base) && named.len() == record.length, wrong)?;
            let shorter = (named.start + 1..named.end).any(|from| book.read(&log[from..named.end]) == Some(state));
            due(!shorter, wrong)?;
        }
    }
    Ok(())
}

fn short_lists(random: &mut Random) -> Held {
    for _ in 0..3_000 {
        let count = random.below(10);
        let records: Vec<(u32, u16, u8, u8)> =
            (0..count).map(|_| (random.below(3) as u32, random.next() as u16, random.byte(), random.byte())).collect();
        let list = describe::list_bytes(&records);
        // A record goes exactly when the one before it in the list has its end.
        let mut kept = records.clone();
        for at in (1..records.len()).rev() {
            if records[at].0 == records[at - 1].0 {
                kept.remove(at);
            }
        }
        let mut out = vec![0; list.len()];
        let answer = answers::short_list(&list, &mut out);
        let wrong = || format!("list {}: {answer:?}", hex(&list));
        due(answer == Answer::numbers(kept.len() as u64, 0, 0, 0), wrong)?;
        due(out[..8 * kept.len()] == describe::list_bytes(&kept), wrong)?;
    }
    Ok(())
}

fn damage_is_judged(random: &mut Random) -> Held {
    for _ in 0..4_000 {
        let (mut bytes, before) = drawn_book(random);
        let at = random.below(bytes.len());
        bytes[at] ^= random.between(1, 255) as u8;
        match oracle::book::read(&bytes) {
            // An accepted book is told by its bytes: written again it is the same file.
            Ok(book) => {
                let states = book.states.iter().map(|state| describe::State {
                    mark: state.mark,
                    edges: state.edges.iter().map(|(event, target)| (*event, *target)).collect(),
                });
                let again = describe::Book { note: Vec::new(), states: states.collect() }.bytes();
                due(again == bytes && book != before, || format!("book {} read as another", hex(&bytes)))?;
            }
            Err(refusal) => {
                let table = 4 * before.states.len() + 4 * before.edge_count();
                let names_record = matches!(refusal.number, 7 | 9 | 10 | 12 | 13);
                let right = (3..=13).contains(&refusal.number)
                    && (names_record || refusal.place == 0)
                    && refusal.place as usize % 4 == 0
                    && (refusal.place as usize) < table.max(4);
                due(right, || format!("book {}: {refusal:?}", hex(&bytes)))?;
            }
        }
    }
    Ok(())
}
