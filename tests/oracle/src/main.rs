//! `oracle list DIR` prints what the program `list` prints with DIR/book.sb and DIR/log.ev.
//! `oracle places BOOK` prints a book's places with their chains, for reading by eye.

use std::path::Path;
use std::process::ExitCode;

fn contents(path: &Path) -> Vec<u8> {
    // Document 01: a file that can't be opened reads as empty.
    std::fs::read(path).unwrap_or_default()
}

fn places(file: &[u8]) -> Result<String, oracle::Refusal> {
    let book = oracle::book::read(file)?;
    let mut text = String::new();
    for (number, place) in oracle::compile::places(&book)?.iter().enumerate() {
        let chain: Vec<String> = place.chain.iter().map(|live| format!("{}@{}", live.state, live.reach)).collect();
        let edges: Vec<String> = place.edges.iter().map(|(event, to)| format!("{event:02x} to {to}")).collect();
        let mark = book.states[place.head()].mark;
        text.push_str(&format!(
            "{number}: chain [{}] fallback {} mark {mark} edges [{}]\n",
            chain.join(" "),
            place.fallback,
            edges.join(", ")
        ));
    }
    Ok(text)
}

fn main() -> ExitCode {
    let words: Vec<String> = std::env::args().skip(1).collect();
    let words: Vec<&str> = words.iter().map(String::as_str).collect();
    match words.as_slice() {
        ["list", dir] => {
            let dir = Path::new(dir);
            print!("{}", oracle::listing::listing(&contents(&dir.join("book.sb")), &contents(&dir.join("log.ev"))));
            ExitCode::SUCCESS
        }
        ["places", book] => {
            match places(&contents(Path::new(book))) {
                Ok(text) => print!("{text}"),
                Err(refusal) => println!("refused {} at {}", refusal.number, refusal.place),
            }
            ExitCode::SUCCESS
        }
        _ => {
            eprintln!("usage: oracle list DIR | oracle places BOOK");
            ExitCode::from(2)
        }
    }
}
