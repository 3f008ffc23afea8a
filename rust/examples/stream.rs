//! stream BOOK < LOG: records while a log comes in, in pieces of a few events. Place and base carry the walk from one
//! piece to the next, so a signature that lies across pieces is found; the pieces themselves need not be kept.

use gusemrak::Book;
use std::error::Error;
use std::io::Read;

fn main() -> Result<(), Box<dyn Error>> {
    let names: Vec<String> = std::env::args().skip(1).collect();
    let [book] = &names[..] else { panic!("usage: stream BOOK < LOG") };
    let book = std::fs::read(book)?;
    let compiled = Book::check(&book)?.compile()?;

    let (mut place, mut base) = (0, 0);
    let mut piece = [0; 3];
    loop {
        let got = std::io::stdin().read(&mut piece)?;
        if got == 0 {
            break;
        }
        let mut records = compiled.image().records_from(place, base, &piece[..got])?;
        for record in records.by_ref() {
            println!("end {} length {} mark {}", record.end, record.length, record.mark);
        }
        place = records.place();
        base += got as u32;
    }
    println!("{base} events, place {place}");
    Ok(())
}
