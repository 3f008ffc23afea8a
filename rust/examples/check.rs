//! check BOOK..: is each file a book? Prints its counts, or why it is refused and where.

use gusemrak::Book;
use std::error::Error;
use std::process::ExitCode;

fn main() -> Result<ExitCode, Box<dyn Error>> {
    let mut status = ExitCode::SUCCESS;
    for name in std::env::args().skip(1) {
        match Book::check(&std::fs::read(&name)?) {
            Ok(book) => println!("{name}: {} states, {} edges", book.states(), book.edges()),
            Err(refusal) => {
                println!("{name}: {refusal}");
                status = ExitCode::FAILURE;
            }
        }
    }
    Ok(status)
}
