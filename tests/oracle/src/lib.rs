//! The slow obvious twin of the proved library, written from document 01 (and document 000, section 5, for chains)
//! alone. It shares no code and no data layout with what it is held against, and prefers the literal reading to speed.
//!
//! `answers` is the face: one function for each public function of the library, over plain bytes.

pub mod answers;
pub mod book;
pub mod bytes;
pub mod chains;
pub mod compile;
pub mod image;
pub mod listing;
pub mod lists;
pub mod refusal;
pub mod run;
pub mod walk;

pub use answers::Answer;
pub use refusal::Refusal;
