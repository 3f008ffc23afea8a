//! short_list BOOK LOG: the engineer's full list, and the operator's short list drawn from it. The log is read once.

use gusemrak::{short_list, Book, Record};
use std::error::Error;

fn print_list(name: &str, list: &[Record]) {
    println!("{name} list, records {}", list.len());
    for Record { end, length, mark } in list {
        println!("end {end} length {length} mark {mark}");
    }
}

fn main() -> Result<(), Box<dyn Error>> {
    let names: Vec<String> = std::env::args().skip(1).collect();
    let [book, log] = &names[..] else { panic!("usage: short_list BOOK LOG") };
    let (book, log) = (std::fs::read(book)?, std::fs::read(log)?);
    let compiled = Book::check(&book)?.compile()?;

    let full: Vec<Record> = compiled.image().records(&log)?.collect();
    print_list("full", &full);
    print_list("short", &short_list(&full));
    Ok(())
}
