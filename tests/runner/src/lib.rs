//! The documents' cases, the engines they are run on, and what both need: described books and images, lent memory
//! with guards, numbers drawn from a printed seed.

pub mod cases;
pub mod describe;
pub mod draw;
pub mod engine;
pub mod judge;
pub mod memory;
pub mod properties;
#[cfg(feature = "proved")]
pub mod proved;
pub mod random;
