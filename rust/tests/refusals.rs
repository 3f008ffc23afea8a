//! Each refusal that a call of the crate gives, and that a refusal leaves lent memory alone.

mod common;

use common::{book, book_a, tower};
use gusemrak::{
    part, read_list, short_list_into, Book, Image, Record, Refusal, BOOK_MOST, EVENT_RECORDS_MOST, IMAGE_MOST, RECORD,
};

fn refused(number: u32, place: u32) -> Option<Refusal> {
    Some(Refusal { number, place })
}

/// Book A with bytes changed from an offset on.
fn changed(offset: usize, bytes: &[u8]) -> Vec<u8> {
    let mut book = book_a();
    book[offset..offset + bytes.len()].copy_from_slice(bytes);
    book
}

#[test]
fn books() {
    let check = |bytes: &[u8]| Book::check(bytes).err();
    assert_eq!(check(&[]), refused(1, 0));
    assert_eq!(check(&book_a()[..11]), refused(1, 0));
    assert_eq!(check(&vec![0; BOOK_MOST + 1]), refused(2, 0));
    assert_eq!(check(&changed(50, b"SM")), refused(3, 0));
    assert_eq!(check(&changed(48, &[2])), refused(4, 0));
    assert_eq!(check(&changed(44, &[0, 0])), refused(5, 0));
    assert_eq!(check(&changed(46, &[1, 8])), refused(5, 0));
    assert_eq!(check(&changed(40, &[53])), refused(6, 0));
    assert_eq!(check(&book_a()[4..]), refused(6, 0));
    assert_eq!(check(&changed(5, &[1])), refused(7, 4));
    assert_eq!(check(&changed(29, &[1])), refused(7, 28));
    assert_eq!(check(&changed(2, &[1])), refused(8, 0));
    assert_eq!(check(&changed(24, &[0x21])), refused(9, 24));
    assert_eq!(check(&changed(38, &[3])), refused(10, 36));
    assert_eq!(check(&changed(38, &[5])), refused(10, 36));
    assert_eq!(check(&changed(0, &[5])), refused(11, 0));
    assert_eq!(check(&changed(26, &[1])), refused(12, 8));
    assert_eq!(check(&changed(16, &[0])), refused(13, 16));
    // The lowest number wins, over the whole book: edge 0 fails 10, edge 1 fails 9.
    assert_eq!(check(&changed(20, &[0x31, 0, 0, 0])), refused(9, 24));
    assert_eq!(check(&book(&[(0, vec![(0x21, 0)])])), refused(10, 4));
}

#[test]
fn a_note_has_no_meaning() {
    let bytes = [b"made by hand".to_vec(), book_a()].concat();
    let book = Book::check(&bytes).expect("an accepted book");
    assert_eq!(book.note(), b"made by hand");
    let plain = book_a();
    assert_eq!(book.compile(), Book::check(&plain).expect("an accepted book").compile());
    assert_eq!(book.edges_of(0).expect("state 0").count(), 2);
    assert_eq!((book.mark(4), book.mark(5)), (Some(5), None));
    assert!(book.edges_of(5).is_none());
}

#[test]
fn a_compile_without_room_changes_nothing() {
    let bytes = book_a();
    let book = Book::check(&bytes).expect("an accepted book");
    for room in 0..120 {
        let mut out = vec![0x5a; room];
        assert_eq!(book.compile_into(&mut out).err(), refused(16, 0), "room {room}");
        assert!(out.iter().all(|byte| *byte == 0x5a), "room {room}");
    }
}

#[test]
fn a_compile_leaves_bytes_past_the_image() {
    let bytes = book_a();
    let book = Book::check(&bytes).expect("an accepted book");
    let mut out = [0x5a; IMAGE_MOST];
    assert_eq!(book.compile_into(&mut out).expect("room for it").length, 120);
    assert_eq!(out[..120], *book.compile().expect("a book that compiles").as_bytes());
    assert!(out[120..].iter().all(|byte| *byte == 0x5a));
}

#[test]
fn images() {
    let kept = Book::check(&book_a()).expect("an accepted book").compile().expect("it compiles").into_bytes();
    let open = |offset: usize, byte: u8| {
        let mut image = kept.clone();
        image[offset] = byte;
        Image::open(&image).err()
    };
    assert_eq!(Image::open(&[]).err(), refused(17, 0));
    assert_eq!(Image::open(&kept[1..]).err(), refused(17, 0));
    assert_eq!(Image::open(&[&[0], &kept[..]].concat()).err(), refused(17, 0));
    assert_eq!(open(118, b'X'), refused(17, 0));
    // Place 3 falls back to itself.
    assert_eq!(open(14 * 3 + 4, 3), refused(18, 14 * 3));
    // The last place has an edge that the table does not.
    assert_eq!(open(14 * 5 + 2, 1), refused(18, 14 * 6));
    // Edge 2 leads to place 0.
    assert_eq!(open(14 * 6 + 4 * 2 + 2, 0), refused(19, 14 * 6 + 4 * 2));
}

#[test]
fn places() {
    let compiled = Book::check(&book_a()).expect("an accepted book").compile().expect("it compiles");
    let image = compiled.image();
    for place in [6, 1024, 65_536, u32::MAX] {
        assert_eq!(image.fallback(place).err(), refused(20, 0));
        assert_eq!(image.level(place).err(), refused(20, 0));
        assert_eq!(image.mark(place).err(), refused(20, 0));
        assert_eq!(image.edge(place, 0x21).err(), refused(20, 0));
        assert_eq!(image.step(place, 0x21).err(), refused(20, 0));
        assert_eq!(image.head(place).err(), refused(20, 0));
        assert_eq!(image.chain(place).err(), refused(20, 0));
        assert_eq!(image.edges_of(place).err(), refused(20, 0));
        assert_eq!(image.records_from(place, u32::MAX, &[0x21]).err(), refused(20, 0));
        let mut out = [0x5a; 16];
        assert_eq!(image.run(place, 0, &[0x21], &mut out).err(), refused(20, 0));
        assert_eq!(out, [0x5a; 16]);
    }
}

#[test]
fn bases() {
    let compiled = Book::check(&book_a()).expect("an accepted book").compile().expect("it compiles");
    let image = compiled.image();
    let log = [0x21, 0x31, 0x41];
    let mut out = [0x5a; 16];
    assert_eq!(image.run(0, u32::MAX - 2, &log, &mut out).err(), refused(21, 0));
    assert_eq!(out, [0x5a; 16]);
    assert_eq!(image.records_from(0, u32::MAX - 2, &log).err(), refused(21, 0));
    let last: Vec<Record> = image.records_from(0, u32::MAX - 3, &log).expect("an end that fits").collect();
    assert_eq!(last, [Record { end: u32::MAX, length: 3, mark: 5 }]);
    assert_eq!(part(&log, u32::MAX - 3, last[0]), Ok(&log[..]));
    assert_eq!(part(&log, u32::MAX - 2, last[0]).err(), refused(21, 0));
}

#[test]
fn lists() {
    let list = [3, 0, 0, 0, 3, 0, 5, 0, 3, 0, 0, 0, 2, 0, 3, 0, 9, 0, 0, 0, 2, 0, 3, 7];
    for cut in 1..RECORD {
        assert_eq!(short_list_into(&list[cut..], &mut [0; 24]).err(), refused(22, 0));
        assert_eq!(read_list(&list[cut..]).err(), refused(22, 0));
    }
    let mut out = [0x5a; 24];
    assert_eq!(short_list_into(&list, &mut out[..15]).err(), refused(23, 0));
    assert_eq!(out, [0x5a; 24]);
    assert_eq!(short_list_into(&list, &mut out), Ok(2));
    // The kept records stand as they were, the last byte of the second too.
    assert_eq!(out[..16], [3, 0, 0, 0, 3, 0, 5, 0, 9, 0, 0, 0, 2, 0, 3, 7]);
    assert_eq!(out[16..], [0x5a; 8]);
    assert_eq!(short_list_into(&[], &mut []), Ok(0));
}

#[test]
fn parts() {
    let log = [0x21, 0x31, 0x22, 0x41];
    let part = |base, end, length| part(&log, base, Record { end, length, mark: 5 });
    assert_eq!(part(0, 4, 4), Ok(&log[..]));
    assert_eq!(part(10, 12, 1), Ok(&log[1..2]));
    assert_eq!(part(0, 4, 0).err(), refused(24, 0));
    assert_eq!(part(0, 4, 5).err(), refused(24, 0));
    assert_eq!(part(0, 5, 1).err(), refused(24, 0));
    assert_eq!(part(10, 10, 1).err(), refused(24, 0));
    assert_eq!(part(10, 15, 1).err(), refused(24, 0));
    assert_eq!(part(10, 3, 1).err(), refused(24, 0));
}

#[test]
fn the_most_records_at_one_event() {
    let bytes = tower(1024);
    let image = Image::open(&bytes).expect("an accepted image");
    // At place 1,023 an event 21 falls back one place and comes back: 1,023 records.
    let mut out = vec![0; RECORD * EVENT_RECORDS_MOST];
    let ran = image.run(1023, 0, &[0x21, 0x21], &mut out).expect("a place of this image");
    assert_eq!((ran.taken, ran.records, ran.steps), (1, EVENT_RECORDS_MOST, 1));
    let short = out.len() - 1;
    let ran = image.run(1023, 0, &[0x21, 0x21], &mut out[..short]).expect("a place of this image");
    assert_eq!((ran.taken, ran.records, ran.steps), (0, 0, 0));
}
