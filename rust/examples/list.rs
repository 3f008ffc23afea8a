//! list BOOK LOG: the full list of a log, with the group of the event that each record ends at.

use gusemrak::{group, Book};
use std::error::Error;

fn main() -> Result<(), Box<dyn Error>> {
    let names: Vec<String> = std::env::args().skip(1).collect();
    let [book, log] = &names[..] else { panic!("usage: list BOOK LOG") };
    let (book, log) = (std::fs::read(book)?, std::fs::read(log)?);
    let compiled = Book::check(&book)?.compile()?;
    let image = compiled.image();

    println!("end length mark last");
    // By reference, so that the steps can be asked for once all records are through.
    let mut records = image.records(&log)?;
    for record in records.by_ref() {
        // The base is 0 here, so event number end, counted from 1, is this one.
        let last = log[record.end as usize - 1];
        println!("{} {} {} {}", record.end, record.length, record.mark, group(last));
    }
    println!("places {} fails {}", image.places(), records.steps());
    Ok(())
}
