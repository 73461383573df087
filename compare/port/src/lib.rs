// The port's plain layer as Rust functions on numbers and slices, those of bindings/rust; and what the programs here share.
pub use census::sys::*;

pub mod lent;
pub mod report;
