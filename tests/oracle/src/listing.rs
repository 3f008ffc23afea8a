//! Document 01, "Books to try", its last part: what the program `list` prints for a book file and a log file, and
//! refusal 25.

use crate::compile::compiled;
use crate::image::open;
use crate::lists::group;
use crate::refusal::{refused, Refusal};
use crate::run::run;

pub const MOST_LOG: usize = 32_768;

/// All that the program prints. A file that can't be opened is given as empty.
pub fn listing(book: &[u8], log: &[u8]) -> String {
    match lines(book, log) {
        Ok(lines) => lines,
        Err(refusal) => format!("refused {} at {}\n", refusal.number, refusal.place),
    }
}

fn lines(book: &[u8], log: &[u8]) -> Result<String, Refusal> {
    // The book's refusals and the compile's come before the log's.
    let compiled = compiled(book)?;
    if log.len() > MOST_LOG {
        return Err(refused(25));
    }
    let image = open(&compiled.image).expect("a compiled image is accepted");
    // The list is whole, however long: there is room for every record.
    let ran = run(&image, 0, 0, log, usize::MAX)?;
    let mut text = String::from("end length mark last\n");
    for record in &ran.records {
        let last = group(log[record.end as usize - 1]);
        text.push_str(&format!("{} {} {} {}\n", record.end, record.length, record.mark, char::from(last)));
    }
    text.push_str(&format!("places {} fails {}\n", compiled.places, ran.steps));
    Ok(text)
}
