//! Memory that tells: slices that end or begin at a page which cannot be touched (`pages`), an engine that is given
//! all its slices so (`guarded`), and a report of the call that touched one, or that does not come back (`watch`).

pub mod guarded;
pub mod pages;
pub mod watch;
