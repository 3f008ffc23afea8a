//! Records in parts are the records of the whole, whatever the parts.

mod common;

use common::{book_a, book_c, family, tower};
use gusemrak::{read_list, short_list, write_list, Book, Image, Record, EVENT_RECORDS_MOST, RECORD};

/// A log that is the same at every run of the tests: a rule that mixes well enough, over these events.
fn log(events: &[u8], length: usize) -> Vec<u8> {
    let mut state = 1u32;
    let mut next = || {
        state = state.wrapping_mul(1_664_525).wrapping_add(1_013_904_223);
        events[(state >> 16) as usize % events.len()]
    };
    (0..length).map(|_| next()).collect()
}

/// The records of a log in one run, with room for all of them.
fn whole(image: Image<'_>, log: &[u8], most: usize) -> (Vec<Record>, u32, u64) {
    let mut out = vec![0; RECORD * most * log.len()];
    let ran = image.run(0, 0, log, &mut out).expect("a short log");
    assert_eq!(ran.taken, log.len());
    (read_list(&out[..RECORD * ran.records]).expect("whole records").collect(), ran.place, ran.steps)
}

fn held_to_the_whole(image: Image<'_>, log: &[u8], most: usize) {
    let expected = whole(image, log, most);
    let mut records = image.records(log).expect("a short log");
    let list: Vec<Record> = records.by_ref().collect();
    assert_eq!(records.next(), None);
    assert_eq!((list, records.place(), records.steps()), expected);
    assert_eq!(records.taken(), log.len());
}

#[test]
fn through_the_buffer() {
    for book in [book_a(), book_c(), family(6, 0x21..=0x22)] {
        let compiled = Book::check(&book).expect("an accepted book").compile().expect("it compiles");
        held_to_the_whole(compiled.image(), &log(&[0x21, 0x22, 0x31, 0x41], 40_000), 8);
    }
}

#[test]
fn many_records_at_each_event() {
    let bytes = tower(1024);
    // From event 1,023 on each has as many records as one event can: the buffer is filled again and again.
    held_to_the_whole(Image::open(&bytes).expect("an accepted image"), &[0x21; 1100], EVENT_RECORDS_MOST);
}

#[test]
fn in_pieces_of_any_length() {
    let compiled = Book::check(&book_c()).expect("an accepted book").compile().expect("it compiles");
    let image = compiled.image();
    let log = log(&[0x21, 0x31, 0x41], 500);
    let expected = whole(image, &log, 2);
    for length in [1, 2, 3, 7, 499, 500, 501] {
        let (mut list, mut place, mut base, mut steps) = (Vec::new(), 0, 0, 0);
        for piece in log.chunks(length) {
            let mut records = image.records_from(place, base, piece).expect("a place of this image");
            list.extend(records.by_ref());
            place = records.place();
            base += piece.len() as u32;
            steps += records.steps();
        }
        assert_eq!((list, place, steps), expected, "pieces of {length}");
    }
}

#[test]
fn runs_and_steps_agree() {
    let compiled = Book::check(&family(4, 0x21..=0x22)).expect("an accepted book").compile().expect("it compiles");
    let image = compiled.image();
    let log = log(&[0x21, 0x22, 0x31], 600);
    let (mut list, mut place, mut steps) = (Vec::new(), 0, 0);
    for (number, event) in log.iter().enumerate() {
        let walk = image.step(place, *event).expect("a place of this image");
        (place, steps) = (walk.place, steps + walk.steps);
        let mut on_chain = place;
        while on_chain != 0 {
            let (length, mark) = (image.level(on_chain).expect("a place"), image.mark(on_chain).expect("a place"));
            if mark != 0 {
                list.push(Record { end: number as u32 + 1, length, mark });
            }
            on_chain = image.fallback(on_chain).expect("a place");
        }
    }
    assert_eq!((list, place, steps), whole(image, &log, 5));
}

#[test]
fn readers_and_questions_agree() {
    for bytes in [book_a(), book_c(), family(4, 0x20..=0x2f)] {
        let book = Book::check(&bytes).expect("an accepted book");
        let compiled = book.compile().expect("it compiles");
        let image = compiled.image();
        for place in 0..image.places() {
            let head = image.head(place).expect("a place");
            assert_eq!(book.mark(head), Some(image.mark(place).expect("a place")));
            // A place has exactly the edges of its head state.
            let events: Vec<u8> = image.edges_of(place).expect("a place").map(|edge| edge.event).collect();
            let of_head: Vec<u8> = book.edges_of(head).expect("a state").map(|edge| edge.event).collect();
            assert_eq!(events, of_head);
            for event in 0..=255 {
                let read = image.edges_of(place).expect("a place").find(|edge| edge.event == event);
                assert_eq!(image.edge(place, event), Ok(read.map(|edge| edge.target)));
            }
            let chain = image.chain(place).expect("a place");
            let rest = image.chain(image.fallback(place).expect("a place")).expect("a place");
            match chain.split_first() {
                None => assert_eq!((place, head, rest.len()), (0, 0, 0)),
                Some((first, others)) => {
                    assert_eq!((first.state, Ok(first.reach)), (head, image.level(place)));
                    assert_eq!(others, rest);
                }
            }
        }
    }
}

#[test]
fn short_lists_by_their_rule() {
    let record = |end| Record { end, length: 1, mark: 1 };
    let list: Vec<Record> = [5, 5, 3, 5, 5, 5, 9].map(record).to_vec();
    assert_eq!(short_list(&list), [5, 3, 5, 9].map(record));
    assert_eq!(short_list(&[]), []);
    let bytes = write_list(&list);
    assert_eq!(bytes.len(), RECORD * list.len());
    assert_eq!(read_list(&bytes).expect("whole records").collect::<Vec<Record>>(), list);
}

#[test]
fn groups() {
    for event in 0..=255u8 {
        let letter = match event {
            0x00..=0x0f => 'S',
            0x10..=0x1f => 'M',
            0x20..=0x2f => 'C',
            0x30..=0x3f => 'D',
            0x40..=0x4f => 'W',
            0x50..=0xff => 'R',
        };
        assert_eq!(gusemrak::group(event), letter);
    }
}

#[test]
fn a_size_hint_is_exact_at_the_end() {
    let compiled = Book::check(&book_a()).expect("an accepted book").compile().expect("it compiles");
    let image = compiled.image();
    let records = image.records(&[0x21, 0x31, 0x22, 0x41]).expect("a short log");
    assert_eq!(records.size_hint(), (1, Some(1)));
}
