//! What is drawn for each function, in groups: each group has a seed of its own and is one test.

use crate::books::{self, Kind, KINDS};
use crate::compare::{Compare, Function};
use crate::damage;
use runner::describe::{list_bytes, Book};
use runner::draw;
use runner::random::Random;

/// Books and images that many groups draw from, made once: drawing a book of a thousand places takes its time.
pub struct Pool {
    /// Accepted books of every kind.
    pub books: Vec<Book>,
    /// Images that the oracle compiled from some of them.
    pub compiled: Vec<Vec<u8>>,
    /// Accepted images that no compile would make.
    pub wild: Vec<Vec<u8>>,
}

impl Pool {
    /// `times` tells how much of the whole a share of the run has. Every kind of book is there at least twice.
    pub fn draw(random: &mut Random, times: impl Fn(usize) -> usize) -> Pool {
        let count = times(1_400).max(2 * KINDS.len());
        let books: Vec<Book> = (0..count).map(|i| books::book(random, KINDS[i % KINDS.len()])).collect();
        let compiled =
            books.iter().filter_map(|book| oracle::compile::compiled(&book.bytes()).ok()).map(|c| c.image).collect();
        let wild = (0..times(700)).map(|_| damage::wild_image(random)).collect();
        Pool { books, compiled, wild }
    }

    /// A compiled image, small ones before large ones: the large cost an oracle that opens them at every call.
    fn compiled_image(&self, random: &mut Random) -> &[u8] {
        let (one, other) = (random.pick(&self.compiled), random.pick(&self.compiled));
        if one.len() < other.len() {
            one
        } else {
            other
        }
    }

    pub fn image(&self, random: &mut Random) -> &[u8] {
        if random.once_in(2) {
            self.compiled_image(random)
        } else {
            random.pick::<Vec<u8>>(&self.wild)
        }
    }

    /// An image, damaged once in `times`.
    fn image_or_damaged(&self, random: &mut Random, times: usize) -> Vec<u8> {
        let image = self.image(random);
        if random.once_in(times) {
            let number = random.between(17, 19) as u32;
            damage::image(random, image, number)
        } else {
            image.to_vec()
        }
    }
}

pub type Draw = Box<dyn Fn(&mut Compare, &Pool, &mut Random)>;

pub struct Group {
    pub name: String,
    pub function: Function,
    pub draw: Draw,
}

pub fn group(name: &str, function: Function, draw: impl Fn(&mut Compare, &Pool, &mut Random) + 'static) -> Group {
    Group { name: name.to_string(), function, draw: Box::new(draw) }
}

pub fn all() -> Vec<Group> {
    let mut groups = Vec::new();
    check_book(&mut groups);
    compile(&mut groups);
    check_image(&mut groups);
    questions(&mut groups);
    run(&mut groups);
    lists(&mut groups);
    listing(&mut groups);
    groups
}

const LARGEST_IMAGE: usize = 30_732;

fn check_book(groups: &mut Vec<Group>) {
    let function = Function::CheckBook;
    groups.push(group("check_book: drawn books", function, |compare, pool, random| {
        for book in &pool.books {
            compare.check_book(&book.bytes());
        }
        for _ in 0..compare.times(18_000) {
            let kind = if random.once_in(8) { *random.pick(&KINDS) } else { Kind::Tiny };
            let book = books::book(random, kind).bytes();
            compare.check_book(&book);
        }
    }));
    for number in 1..=13 {
        let name = format!("check_book: books damaged for {number}");
        groups.push(group(&name, function, move |compare, pool, random| {
            damaged_books(pool, random, number, compare.times(1_100), |book| compare.check_book(book).number);
        }));
    }
    groups.push(group("check_book: any byte changed", function, |compare, pool, random| {
        for _ in 0..compare.times(4_000) {
            let mut book = small_book(pool, random).bytes();
            for _ in 0..random.between(1, 3) {
                let at = book.len() - 1 - random.below(book.len().min(300));
                book[at] = if random.once_in(2) { random.byte() } else { random.below(6) as u8 };
            }
            compare.check_book(&book);
        }
    }));
    groups.push(group("check_book: any bytes of lengths 0 to 64", function, |compare, _, random| {
        for length in 0..=64 {
            for _ in 0..compare.times(20) {
                let bytes = random.bytes(length);
                compare.check_book(&bytes);
            }
        }
    }));
    groups.push(group("check_book: any table under a right trailer", function, |compare, _, random| {
        for _ in 0..compare.times(6_000) {
            let book = damage::any_book_table(random);
            compare.check_book(&book);
        }
    }));
}

/// A book of the pool, small ones before large ones.
fn small_book<'a>(pool: &'a Pool, random: &mut Random) -> &'a Book {
    let (one, other) = (random.pick(&pool.books), random.pick(&pool.books));
    if one.bytes().len() < other.bytes().len() {
        one
    } else {
        other
    }
}

/// Draws until `enough` books have been refused by the number; gives up after many tries, and the minimums then tell.
fn damaged_books(pool: &Pool, random: &mut Random, number: u32, enough: usize, mut judged: impl FnMut(&[u8]) -> u32) {
    let mut hit = 0;
    for _ in 0..4 * enough {
        if hit >= enough {
            break;
        }
        let book = small_book(pool, random);
        if let Some(damaged) = damage::book(random, book, number) {
            hit += usize::from(judged(&damaged) == number);
        }
    }
}

fn compile(groups: &mut Vec<Group>) {
    let function = Function::Compile;
    for kind in KINDS {
        let name = format!("compile: drawn books, {kind:?}").to_lowercase();
        groups.push(group(&name, function, move |compare, _, random| {
            let count = match kind {
                Kind::Limits => 300,
                Kind::Family => 1_500,
                Kind::Layered | Kind::Deep => 2_000,
                _ => 1_200,
            };
            for _ in 0..compare.times(count) {
                let book = books::book(random, kind).bytes();
                compare.compile(&book, LARGEST_IMAGE + random.below(3));
            }
        }));
    }
    groups.push(group("compile: over 1,024 places", function, |compare, _, random| {
        for _ in 0..compare.times(560) {
            let book = books::too_many_places(random).bytes();
            let room = *random.pick(&[0, 11, LARGEST_IMAGE]);
            compare.compile(&book, room);
        }
    }));
    groups.push(group("compile: over 4,096 edges", function, |compare, _, random| {
        for _ in 0..compare.times(700) {
            let book = books::too_many_edges(random).bytes();
            let room = *random.pick(&[0, 11, LARGEST_IMAGE]);
            compare.compile(&book, room);
        }
    }));
    groups.push(group("compile: buffers just long enough and too short", function, |compare, _, random| {
        for _ in 0..compare.times(700) {
            let kind = *random.pick(&[Kind::Tiny, Kind::Layered, Kind::Shared, Kind::Dense]);
            let book = books::book(random, kind).bytes();
            let length = match oracle::compile::compiled(&book) {
                Ok(compiled) => compiled.image.len(),
                Err(_) => continue,
            };
            let short = random.below(length);
            for room in [length, length - 1, length + 1, short] {
                compare.compile(&book, room);
            }
        }
    }));
    for number in 1..=13 {
        let name = format!("compile: books damaged for {number}");
        groups.push(group(&name, function, move |compare, pool, random| {
            damaged_books(pool, random, number, compare.times(510), |book| compare.compile(book, 600).number);
        }));
    }
}

fn check_image(groups: &mut Vec<Group>) {
    let function = Function::CheckImage;
    groups.push(group("check_image: compiled images", function, |compare, pool, random| {
        for image in &pool.compiled {
            compare.check_image(image);
        }
        for _ in 0..compare.times(3_000) {
            let image = pool.compiled_image(random).to_vec();
            compare.check_image(&image);
        }
    }));
    groups.push(group("check_image: images that no compile makes", function, |compare, _, random| {
        for _ in 0..compare.times(5_000) {
            let image = damage::wild_image(random);
            compare.check_image(&image);
        }
    }));
    for number in 17..=19 {
        let name = format!("check_image: images damaged for {number}");
        groups.push(group(&name, function, move |compare, pool, random| {
            for _ in 0..compare.times(4_000) {
                let good = pool.image(random);
                let image = damage::image(random, good, number);
                compare.check_image(&image);
            }
        }));
    }
    groups.push(group("check_image: any bytes of lengths 0 to 64", function, |compare, _, random| {
        for length in 0..=64 {
            for _ in 0..compare.times(12) {
                let bytes = random.bytes(length);
                compare.check_image(&bytes);
            }
        }
    }));
    groups.push(group("check_image: any records under a right trailer", function, |compare, _, random| {
        for _ in 0..compare.times(3_000) {
            let image = damage::any_image_table(random);
            compare.check_image(&image);
        }
    }));
}

fn place_count(image: &[u8]) -> usize {
    if image.len() < 12 {
        return 1;
    }
    oracle::bytes::trailer(image).first_count.max(1)
}

/// A place to ask: mostly one that there is, else at the place count, just above it or far above it.
fn some_place(random: &mut Random, image: &[u8]) -> u32 {
    let count = place_count(image);
    match random.below(12) {
        0 => count as u32,
        1 => (count + random.below(4)) as u32,
        2 => random.next() as u32,
        3 => *random.pick(&[1_024, 65_535, 65_536, 65_537, 0x8000_0000, 0xffff_ffff]),
        4 => count as u32 - 1,
        _ => random.below(count) as u32,
    }
}

/// An event to ask: mostly one that an edge of the image has.
fn some_event(random: &mut Random, image: &[u8]) -> u8 {
    let count = place_count(image);
    let edges = image.len().saturating_sub(14 * count + 12) / 4;
    if edges == 0 || random.once_in(4) {
        return random.byte();
    }
    image[14 * count + 4 * random.below(edges)]
}

fn questions(groups: &mut Vec<Group>) {
    for function in [Function::Fallback, Function::Level, Function::Mark] {
        let name = format!("{}: images good and damaged", function.name());
        groups.push(group(&name, function, move |compare, pool, random| {
            for _ in 0..compare.times(8_000) {
                let image = pool.image_or_damaged(random, 5);
                let place = some_place(random, &image);
                compare.question(function, &image, place);
            }
        }));
    }
    for (function, count) in [(Function::Edge, 12_000), (Function::Step, 16_000)] {
        let name = format!("{}: images good and damaged", function.name());
        groups.push(group(&name, function, move |compare, pool, random| {
            for _ in 0..compare.times(count) {
                let image = pool.image_or_damaged(random, 6);
                let place = some_place(random, &image);
                let event = some_event(random, &image);
                compare.with_event(function, &image, place, event);
            }
        }));
    }
    groups.push(group("step: walks along a log", Function::Step, |compare, pool, random| {
        for _ in 0..compare.times(400) {
            let image = pool.image(random).to_vec();
            let open = oracle::image::open(&image).expect("an image of the pool is accepted");
            let mut place = random.below(open.place_count());
            for event in draw::log(random, &open, place, 16) {
                place = compare.with_event(Function::Step, &image, place as u32, event).a as usize;
            }
        }
    }));
}

/// A base for a log: 0, anything, or where base and log just reach or just pass the greatest end.
fn some_base(random: &mut Random, log: &[u8]) -> u32 {
    let greatest = u32::MAX - log.len() as u32;
    match random.below(8) {
        0..=2 => 0,
        3 | 4 => random.next() as u32 / 2,
        5 => greatest,
        6 => greatest - random.below(3) as u32,
        _ => greatest.saturating_add(random.between(1, 4) as u32),
    }
}

fn run(groups: &mut Vec<Group>) {
    let function = Function::Run;
    groups.push(group("run: logs that follow the image, any room", function, |compare, pool, random| {
        for _ in 0..compare.times(14_000) {
            let image = pool.image(random).to_vec();
            let open = oracle::image::open(&image).expect("an image of the pool is accepted");
            let place = if random.once_in(2) { 0 } else { random.below(open.place_count()) };
            let length = random.between(1, 60);
            let log = draw::log(random, &open, place, length);
            let room = match random.below(4) {
                0 => random.below(40),
                1 => random.below(400),
                _ => 4_000 + random.below(9),
            };
            let base = if random.once_in(3) { random.next() as u32 / 2 } else { 0 };
            compare.run(&image, place as u32, base, &log, room);
        }
    }));
    groups.push(group("run: every room from 0 bytes up", function, |compare, pool, random| {
        for _ in 0..compare.times(260) {
            let image = pool.image(random).to_vec();
            let open = oracle::image::open(&image).expect("an image of the pool is accepted");
            let place = random.below(open.place_count());
            let log = draw::log(random, &open, place, 24);
            let whole = oracle::run::run(&open, place as u32, 0, &log, usize::MAX).expect("not refused");
            // Every length of buffer up to a record too many, odd ones among them.
            for room in 0..=(8 * whole.records.len() + 8).min(72) {
                compare.run(&image, place as u32, 0, &log, room);
            }
        }
    }));
    groups.push(group("run: bases near the greatest end", function, |compare, pool, random| {
        for _ in 0..compare.times(5_000) {
            let image = pool.compiled_image(random).to_vec();
            let open = oracle::image::open(&image).expect("an image of the pool is accepted");
            let length = random.below(20);
            let log = draw::log(random, &open, 0, length);
            let base = some_base(random, &log);
            compare.run(&image, 0, base, &log, random.below(200));
        }
    }));
    groups.push(group("run: damaged images and wrong places", function, |compare, pool, random| {
        for _ in 0..compare.times(5_000) {
            let image = pool.image_or_damaged(random, 2);
            let place = some_place(random, &image);
            let length = random.below(10);
            let log: Vec<u8> = (0..length).map(|_| some_event(random, &image)).collect();
            let base = some_base(random, &log);
            compare.run(&image, place, base, &log, random.below(100));
        }
    }));
    groups.push(group("run: long logs", function, |compare, pool, random| {
        for _ in 0..compare.times(60) {
            let image = pool.image(random).to_vec();
            let open = oracle::image::open(&image).expect("an image of the pool is accepted");
            let length = random.between(1_000, 8_000);
            let log = draw::log(random, &open, 0, length);
            compare.run(&image, 0, 0, &log, random.below(300_000));
        }
    }));
    groups.push(group("run: logs long enough for a table of steps", function, |compare, pool, random| {
        for _ in 0..compare.times(120) {
            let image = pool.image(random).to_vec();
            let open = oracle::image::open(&image).expect("an image of the pool is accepted");
            let place = if random.once_in(2) { 0 } else { random.below(open.place_count()) };
            let length = random.between(8_000, 20_000);
            let log = draw::log(random, &open, place, length);
            let whole = oracle::run::run(&open, place as u32, 0, &log, usize::MAX).expect("not refused");
            // Room for every record, or for less: then the run stops somewhere on its way.
            let needed = 8 * whole.records.len();
            let room = if random.once_in(3) { random.below(needed + 1) } else { needed + random.below(9) };
            compare.run(&image, place as u32, 0, &log, room);
        }
    }));
    groups.push(group("run: a log in parts", function, |compare, pool, random| {
        for _ in 0..compare.times(800) {
            let image = pool.image(random).to_vec();
            let open = oracle::image::open(&image).expect("an image of the pool is accepted");
            let log = draw::log(random, &open, 0, 40);
            // As a caller with a small buffer does: run, take the records away, run on from there.
            let (mut place, mut taken) = (0, 0);
            while taken < log.len() {
                let room = random.between(0, 200);
                let (answer, _) = compare.run(&image, place, taken as u32, &log[taken..], room);
                place = answer.b as u32;
                taken += answer.a as usize;
                if answer.a == 0 {
                    break;
                }
            }
        }
    }));
}

/// A list of records as they come from a run, with the log and the base of that run.
fn list_of_run(pool: &Pool, random: &mut Random) -> (Vec<u8>, u32, Vec<oracle::run::Record>) {
    let image = pool.image(random).to_vec();
    let open = oracle::image::open(&image).expect("an image of the pool is accepted");
    let place = if random.once_in(2) { 0 } else { random.below(open.place_count()) };
    let length = random.between(1, 30);
    let log = draw::log(random, &open, place, length);
    let base = if random.once_in(2) { 0 } else { random.next() as u32 / 2 };
    let ran = oracle::run::run(&open, place as u32, base, &log, 400).expect("not refused");
    (log, base, ran.records)
}

fn lists(groups: &mut Vec<Group>) {
    let function = Function::ShortList;
    groups.push(group("short_list: any records", function, |compare, _, random| {
        for _ in 0..compare.times(9_000) {
            let count = random.below(12);
            let ends: Vec<u32> = (0..3).map(|_| random.next() as u32 >> random.below(32)).collect();
            let records: Vec<(u32, u16, u8, u8)> =
                (0..count).map(|_| (*random.pick(&ends), random.next() as u16, random.byte(), random.byte())).collect();
            let mut list = list_bytes(&records);
            if random.once_in(8) {
                let more = random.between(1, 7);
                list.extend(random.bytes(more));
            }
            compare.short_list(&list, random.below(list.len() + 12));
        }
    }));
    groups.push(group("short_list: lists of runs", function, |compare, pool, random| {
        for _ in 0..compare.times(3_000) {
            let (_, _, records) = list_of_run(pool, random);
            let mut list = oracle::run::record_bytes(&records);
            list.truncate(list.len() - if random.once_in(6) { random.below(8).min(list.len()) } else { 0 });
            let kept = oracle::lists::short_list(&list, usize::MAX).map_or(0, |kept| kept.len());
            // Just enough, a byte too few, and anything.
            for room in [kept, kept.saturating_sub(1), random.below(kept + 20)] {
                compare.short_list(&list, room);
            }
        }
    }));
    groups.push(group("short_list: ends that differ in one bit", function, |compare, _, random| {
        for _ in 0..compare.times(1_500) {
            let end = random.next() as u32;
            let other = end ^ (1 << random.below(32));
            let ends: Vec<u32> = (0..random.between(2, 5)).map(|_| *random.pick(&[end, other])).collect();
            let records: Vec<(u32, u16, u8, u8)> = ends.iter().map(|end| (*end, 1, 1, 0)).collect();
            compare.short_list(&list_bytes(&records), 64);
        }
    }));
    let function = Function::Part;
    groups.push(group("part: records of runs", function, |compare, pool, random| {
        for _ in 0..compare.times(3_000) {
            let (log, base, records) = list_of_run(pool, random);
            for record in records.iter().take(6) {
                compare.part(&log, base, record.end as u32, record.length as u32);
            }
        }
    }));
    groups.push(group("part: any numbers near a log", function, |compare, _, random| {
        for _ in 0..compare.times(14_000) {
            let length = random.below(12);
            let log = random.bytes(length);
            let base = some_base(random, &log);
            let end = match random.below(6) {
                0 => random.next() as u32,
                1 => random.below(16) as u32,
                2 => base.wrapping_add(random.below(20) as u32).wrapping_sub(4),
                _ => base.saturating_add(random.below(log.len() + 2) as u32),
            };
            let length = match random.below(8) {
                0 => random.next() as u32,
                1 => *random.pick(&[0, end, end.wrapping_add(1), u32::MAX, 65_536, 65_537]),
                _ => random.below(log.len() + 2) as u32,
            };
            compare.part(&log, base, end, length);
        }
    }));
    groups.push(group("group: every event", Function::Group, |compare, _, _| {
        for event in 0..=255 {
            compare.group(event);
        }
    }));
}

fn listing(groups: &mut Vec<Group>) {
    groups.push(group("list: drawn books and logs", Function::List, |compare, pool, random| {
        for _ in 0..compare.times(240) {
            let book = small_book(pool, random).bytes();
            let length = match random.below(12) {
                0 => 0,
                1 => random.between(32_767, 32_770),
                2 => random.between(1_000, 9_000),
                _ => random.below(60),
            };
            let log = match oracle::compile::compiled(&book) {
                Ok(compiled) => {
                    let open = oracle::image::open(&compiled.image).expect("a compiled image is accepted");
                    draw::log(random, &open, 0, length)
                }
                Err(_) => random.bytes(length),
            };
            let book = match random.below(6) {
                0 => {
                    let (number, good) = (random.between(1, 13) as u32, small_book(pool, random));
                    damage::book(random, good, number).unwrap_or_default()
                }
                _ => book,
            };
            compare.list(&book, &log);
        }
    }));
}
