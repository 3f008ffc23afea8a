//! walk BOOK LOG: one event at a time, and after each the place with its fallbacks. For whole logs use `records`: each
//! call here checks the image again.

use gusemrak::{Book, Image, Refusal};
use std::error::Error;

fn print_chain(image: Image<'_>, mut place: u32) -> Result<(), Refusal> {
    while place != 0 {
        print!("; place {place} level {}", image.level(place)?);
        let mark = image.mark(place)?;
        if mark != 0 {
            print!(" mark {mark}");
        }
        place = image.fallback(place)?;
    }
    println!();
    Ok(())
}

fn main() -> Result<(), Box<dyn Error>> {
    let names: Vec<String> = std::env::args().skip(1).collect();
    let [book, log] = &names[..] else { panic!("usage: walk BOOK LOG") };
    let (book, log) = (std::fs::read(book)?, std::fs::read(log)?);
    let compiled = Book::check(&book)?.compile()?;
    let image = compiled.image();

    let mut place = 0;
    for event in log {
        let own = if image.edge(place, event)?.is_some() { "edge" } else { "no edge" };
        let walk = image.step(place, event)?;
        print!("{event:02x} at place {place}: {own}, steps {}", walk.steps);
        place = walk.place;
        print_chain(image, place)?;
    }
    Ok(())
}
