//! compile BOOK IMAGE: compiles a book and keeps its image in a file.

use gusemrak::{Book, Refusal};
use std::process::ExitCode;

fn compile(book: &[u8], image_file: &str) -> Result<(), Refusal> {
    let compiled = Book::check(book)?.compile()?;
    let image = compiled.image();
    println!("{} bytes, {} places, {} edges", image.as_bytes().len(), image.places(), image.edges());
    std::fs::write(image_file, image.as_bytes()).expect("a file that can be written");
    Ok(())
}

fn main() -> ExitCode {
    let names: Vec<String> = std::env::args().skip(1).collect();
    let [book, image] = &names[..] else { panic!("usage: compile BOOK IMAGE") };
    match compile(&std::fs::read(book).expect("a book"), image) {
        Ok(()) => ExitCode::SUCCESS,
        Err(refusal) => {
            println!("{refusal}");
            ExitCode::FAILURE
        }
    }
}
