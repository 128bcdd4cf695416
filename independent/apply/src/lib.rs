//! Deliberate faults: edits of the model's files.
//!
//! An edit is a small text:
//!
//! ```text
//! wrong: what the fault gets wrong
//! rule: the words of document 01 or 02 that it breaks
//! file: routing/up.rs
//! - lines of that file,
//! - which stand in it exactly once
//! + the lines that replace them
//! ```
//!
//! There may be several files, and several replacements in one file, with a blank
//! line between them. Lines are compared without the blanks around them. A line
//! `hidden:` says why the fault can't be seen in what the gate's items print.

pub mod edit;
pub mod files;
