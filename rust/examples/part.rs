//! part BOOK LOG: each record with the events of the log that it names.

use gusemrak::{part, Book};
use std::error::Error;

fn main() -> Result<(), Box<dyn Error>> {
    let names: Vec<String> = std::env::args().skip(1).collect();
    let [book, log] = &names[..] else { panic!("usage: part BOOK LOG") };
    let (book, log) = (std::fs::read(book)?, std::fs::read(log)?);
    let compiled = Book::check(&book)?.compile()?;

    for record in compiled.image().records(&log)? {
        // The log was read from its beginning, with base 0.
        let events: Vec<String> = part(&log, 0, record)?.iter().map(|event| format!(" {event:02x}")).collect();
        println!("end {} mark {}:{}", record.end, record.mark, events.concat());
    }
    Ok(())
}
