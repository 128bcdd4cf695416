//! The model against the proved library.
//!
//! - `library`: the library's calls;
//! - `seen`: all that a caller can see of the answers to a case;
//! - `options`: the seed and the number of cases;
//! - `faults`: after how many cases each deliberate fault is noticed.
//! - `subjects`: what is timed and counted.

pub mod faults;
pub mod library;
pub mod options;
pub mod seen;
pub mod subjects;
