//! Document 01, "Books to try", through the crate.

mod common;

use common::{book, book_a, book_b, book_c, book_d, family};
use gusemrak::{part, short_list, Book, ImageBuf, Live, Ran, Record, Refusal, Walk};

fn compiled(bytes: &[u8]) -> ImageBuf {
    Book::check(bytes).expect("an accepted book").compile().expect("a book that compiles")
}

fn counts(image: &ImageBuf) -> (u32, u32, usize) {
    (image.image().places(), image.image().edges(), image.as_bytes().len())
}

/// All records of a log from place 0, with what a run of it answers.
fn read(image: &ImageBuf, log: &[u8]) -> (Vec<Record>, usize, u32, u64) {
    let mut records = image.image().records(log).expect("a short log");
    let list = records.by_ref().collect();
    (list, records.taken(), records.place(), records.steps())
}

fn record(end: u32, length: u16, mark: u8) -> Record {
    Record { end, length, mark }
}

#[test]
fn book_a_is_the_sample() {
    let sample = std::fs::read(concat!(env!("CARGO_MANIFEST_DIR"), "/../examples/sample/book.sb")).expect("the sample");
    assert_eq!(book_a(), sample);
}

#[test]
fn book_a_compiles() {
    let image = compiled(&book_a());
    assert_eq!(counts(&image), (6, 6, 120));
    assert_eq!(image.image().chain(3), Ok(vec![Live { state: 3, reach: 2 }, Live { state: 2, reach: 1 }]));
    assert_eq!(image.image().chain(4), Ok(vec![Live { state: 3, reach: 2 }]));
}

#[test]
fn book_a_on_the_sample_log() {
    assert_eq!(read(&compiled(&book_a()), &[0x21, 0x31, 0x22, 0x41]), (vec![record(4, 3, 5)], 4, 5, 1));
}

#[test]
fn book_a_invents_no_record() {
    assert_eq!(read(&compiled(&book_a()), &[0x31, 0x22, 0x22, 0x41]), (vec![], 4, 0, 1));
}

#[test]
fn book_a_on_the_empty_log() {
    assert_eq!(read(&compiled(&book_a()), &[]), (vec![], 0, 0, 0));
}

#[test]
fn book_a_one_event_at_a_time() {
    let image = compiled(&book_a());
    let mut walks = Vec::new();
    let mut place = 0;
    for event in [0x21, 0x31, 0x22, 0x41] {
        let walk = image.image().step(place, event).expect("a place of this image");
        place = walk.place;
        walks.push(walk);
    }
    let expected = [(1, 1, 0), (3, 2, 0), (4, 2, 1), (5, 3, 0)];
    assert_eq!(walks, expected.map(|(place, level, steps)| Walk { place, level, steps }));
    assert_eq!(image.image().mark(place), Ok(5));
}

#[test]
fn book_a_damaged() {
    let damaged = |offset: usize, byte: u8| {
        let mut bytes = book_a();
        bytes[offset] = byte;
        Book::check(&bytes).map(|_| ()).map_err(|refusal| (refusal.number, refusal.place))
    };
    assert_eq!(damaged(51, b'M'), Err((3, 0)));
    assert_eq!(damaged(0, 5), Err((11, 0)));
    assert_eq!(damaged(48, 2), Err((4, 0)));
}

#[test]
fn book_b_keeps_a_shared_state_once() {
    let image = compiled(&book_b());
    assert_eq!(counts(&image), (3, 3, 3 * 14 + 3 * 4 + 12));
    assert_eq!(read(&image, &[0x21, 0x31]).0, [record(2, 1, 3)]);
}

#[test]
fn book_c_and_its_short_list() {
    let image = compiled(&book_c());
    assert_eq!(counts(&image), (6, 5, 6 * 14 + 5 * 4 + 12));
    let full = read(&image, &[0x21, 0x31, 0x41]).0;
    assert_eq!(full, [record(3, 3, 5), record(3, 2, 3)]);
    assert_eq!(short_list(&full), [record(3, 3, 5)]);
}

#[test]
fn book_c_with_room_for_one_record() {
    let image = compiled(&book_c());
    let mut out = [0xaa; 8];
    let ran = image.image().run(0, 0, &[0x21, 0x31, 0x41], &mut out);
    assert_eq!(ran, Ok(Ran { taken: 2, place: 3, records: 0, steps: 0 }));
    assert_eq!(out, [0xaa; 8]);
}

#[test]
fn book_d_has_one_state_at_two_levels() {
    let image = compiled(&book_d());
    assert_eq!(counts(&image), (4, 3, 4 * 14 + 3 * 4 + 12));
    for (place, level) in [(2, 1), (3, 2)] {
        assert_eq!(image.image().head(place), Ok(2));
        assert_eq!(image.image().level(place), Ok(level));
    }
    assert_eq!(read(&image, &[0x21, 0x22]).0, [record(2, 2, 3)]);
    assert_eq!(read(&image, &[0x31]).0, [record(1, 1, 3)]);
}

#[test]
fn one_state_finds_nothing() {
    let image = compiled(&book(&[(0, vec![])]));
    assert_eq!(counts(&image), (1, 0, 26));
    assert_eq!(read(&image, &[0x21, 0x31, 0x41]), (vec![], 3, 0, 0));
}

#[test]
fn the_family_with_two_events() {
    assert_eq!(counts(&compiled(&family(9, 0x21..=0x22))), (1024, 1023, 14 * 1024 + 4 * 1023 + 12));
    let ten = family(10, 0x21..=0x22);
    let refused = Book::check(&ten).expect("an accepted book").compile();
    assert_eq!(refused, Err(Refusal { number: 14, place: 0 }));
}

#[test]
fn the_family_with_all_events() {
    assert_eq!(counts(&compiled(&family(4, 0..=255))), (32, 3841, 14 * 32 + 4 * 3841 + 12));
    let five = family(5, 0..=255);
    let refused = Book::check(&five).expect("an accepted book").compile();
    assert_eq!(refused, Err(Refusal { number: 15, place: 0 }));
}

#[test]
fn every_record_of_a_run_from_place_0_names_a_part() {
    for bytes in [book_a(), book_b(), book_c(), book_d(), family(3, 0x21..=0x22)] {
        let image = compiled(&bytes);
        let log: Vec<u8> = [0x21, 0x31, 0x22, 0x41, 0x21, 0x21, 0x22, 0x31, 0x31, 0x41].repeat(3);
        for record in read(&image, &log).0 {
            let part = part(&log, 0, record).expect("a part of this log");
            assert_eq!(part.len(), usize::from(record.length));
            assert_eq!(part, &log[record.end as usize - part.len()..record.end as usize]);
        }
    }
}
