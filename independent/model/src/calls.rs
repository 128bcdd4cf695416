//! The calls of the C interface, from bytes to the answer word.

pub mod check;
pub mod fill;
pub mod route;
