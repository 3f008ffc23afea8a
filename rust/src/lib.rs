//! Reads a probe's event log through a compiled book of trouble signatures, and gives every event where one ends.
//!
//! A log is a byte an event. A [`Book`] holds signatures, words of events, each with a mark. It is compiled once to an
//! [`Image`]. [`Image::records`] reads a log through it and gives a [`Record`] for every signature that ends at an
//! event, short ones inside long ones too: the full list. [`short_list`] draws from it one record for each event where
//! something ended; [`part`] shows the events that a record speaks of.
//!
//! ```
//! use gusemrak::{group, part, short_list, Book, Record};
//!
//! let book = std::fs::read("../examples/sample/book.sb")?;
//! let log = std::fs::read("../examples/sample/log.ev")?;
//!
//! let image = Book::check(&book)?.compile()?;
//! let full: Vec<Record> = image.image().records(&log)?.collect();
//! for record in &full {
//!     let signature = part(&log, 0, *record)?;
//!     assert_eq!(signature, [0x31, 0x22, 0x41]);
//!     assert_eq!(group(signature[2]), 'W');
//! }
//! assert_eq!(short_list(&full).len(), 1);
//! # Ok::<(), Box<dyn std::error::Error>>(())
//! ```
//!
//! Any bytes may be given. What is bad is refused by a number fixed for its fault, a [`Refusal`], and a refusal changes
//! nothing in a buffer that was lent.
//!
//! The work is done by the proved library, `libgusemrak.a`; this crate gives its calls Rust's shape. What it reads by
//! itself, beside them, says so: the readers at the end of [`Book`] and [`Image`], and [`read_list`]. Build it with
//! `GUSEMRAK_LIB` set to the library's directory, or after `rt lib` in `crates/gusemrak`.

#![warn(missing_docs)]
#![deny(unsafe_code)]

mod book;
#[allow(unsafe_code)]
mod face;
mod image;
mod layout;
mod lists;
mod refusal;

pub use book::{Book, Compiled};
pub use image::{Image, ImageBuf, Live, Ran, Walk};
pub use layout::{Edge, Edges};
pub use lists::{group, part, read_list, short_list, short_list_into, write_list, Record, Records};
pub use refusal::Refusal;

/// The most bytes a book has: a longer one is refused by 2.
pub const BOOK_MOST: usize = 65_536;

/// The most bytes an image has.
pub const IMAGE_MOST: usize = 30_732;

/// The bytes of a record.
pub const RECORD: usize = 8;

/// The most records that one event has in any accepted image: a buffer for so many always lets a run take an event.
pub const EVENT_RECORDS_MOST: usize = 1_023;

/// A number of an answer in the width that its format gives it.
fn narrow<N: TryFrom<u64>>(number: u64) -> N {
    N::try_from(number).ok().expect("a number of an answer fits its format's width")
}
