//! draw book BOOK, draw image BOOK: a book, or the image it compiles to, as Graphviz text.
//!
//! A book: its states, double where marked, and its edges. An image: its places, each with its chain (states with their
//! reaches, greatest first) and its level, its edges, and its fallbacks dashed. To see one:
//!
//!     draw image book.sb | dot -Tsvg > image.svg

use gusemrak::{Book, Image, Refusal};
use std::error::Error;

fn opening(name: &str, node: &str) -> String {
    let mut text = format!("digraph {name} {{\n    rankdir=LR;\n");
    text += &format!("    node [{node}, fontname=\"Helvetica\", fontsize=12];\n");
    text + "    edge [fontname=\"Helvetica\", fontsize=11];\n"
}

fn draw_book(book: &Book<'_>) -> String {
    let mut text = opening("book", "shape=circle, margin=0");
    for state in 0..book.states() {
        match book.mark(state) {
            Some(0) | None => text += &format!("    {state};\n"),
            Some(mark) => text += &format!("    {state} [label=\"{state}\\nmark {mark}\", peripheries=2];\n"),
        }
    }
    for state in 0..book.states() {
        for edge in book.edges_of(state).into_iter().flatten() {
            text += &format!("    {state} -> {} [label=\"{:02x}\"];\n", edge.target, edge.event);
        }
    }
    text + "}\n"
}

/// What a place says of itself: its number, its chain as states with their reaches, its level and its mark.
fn place_words(image: &Image<'_>, place: u32) -> Result<String, Refusal> {
    let chain = image.chain(place)?;
    let chain = match &chain[..] {
        [] => "empty".to_string(),
        chain => chain.iter().map(|live| format!("({}, {})", live.state, live.reach)).collect::<Vec<_>>().join(" "),
    };
    let mut words = format!("place {place}\\n{chain}\\nlevel {}", image.level(place)?);
    let mark = image.mark(place)?;
    if mark != 0 {
        words += &format!("\\nmark {mark}");
    }
    Ok(words)
}

fn draw_image(image: &Image<'_>) -> Result<String, Refusal> {
    let mut text = opening("image", "shape=box, style=rounded");
    for place in 0..image.places() {
        // Marked places stand out by a double border, as marked states do.
        let border = if image.mark(place)? != 0 { ", peripheries=2" } else { "" };
        text += &format!("    {place} [label=\"{}\"{border}];\n", place_words(image, place)?);
    }
    for place in 0..image.places() {
        for edge in image.edges_of(place)? {
            text += &format!("    {place} -> {} [label=\"{:02x}\"];\n", edge.target, edge.event);
        }
    }
    for place in 1..image.places() {
        // Fallbacks lead back, and must not pull the places out of the order that the edges give them.
        text += &format!("    {place} -> {} [style=dashed, color=gray40, constraint=false];\n", image.fallback(place)?);
    }
    Ok(text + "}\n")
}

fn main() -> Result<(), Box<dyn Error>> {
    let words: Vec<String> = std::env::args().skip(1).collect();
    let [what, name] = &words[..] else { panic!("usage: draw book BOOK, or draw image BOOK") };
    let bytes = std::fs::read(name)?;
    let book = Book::check(&bytes)?;
    match what.as_str() {
        "book" => print!("{}", draw_book(&book)),
        "image" => print!("{}", draw_image(&book.compile()?.image())?),
        other => panic!("draw book or image, not {other}"),
    }
    Ok(())
}
