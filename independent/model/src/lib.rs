//! The rules of document 01 and of requests 1/13 and 2/13 of document 02, written
//! down a second time from the documents alone.
//!
//! - `calls`: the calls of the C interface, one file each, with the order of
//!   their refusals;
//! - `snapshot`: reading a snapshot: its header (`head`), a record's fields
//!   (`record`), the rules that records keep (`rules`) and the tree they form
//!   (`tree`);
//! - `header`: reading a TLP header;
//! - `routing`: following a TLP: what covers it (`covering`), its way up (`up`),
//!   from port to port (`peers`) and down (`down`);
//! - `hops`: writing the hops;
//! - `image`: reading a bridge's configuration space image: its windows
//!   (`windows`), its list of extended capabilities (`capabilities`) and the ACS
//!   structure in it (`structure`);
//! - `filling`: writing into a record what an image says;
//! - `answer`: refusals, outcomes, hops and the answer word;
//! - `acsroute`: what the program of that name prints;
//! - `gate`: what is printed for an item of the gate's corpus.

mod acsroute;
mod answer;
mod bytes;
mod calls;
mod filling;
pub mod gate;
mod header;
mod hops;
mod image;
mod routing;
mod snapshot;

pub use acsroute::{acsroute, Input};
pub use answer::{Word, COMPLEX};
pub use calls::check::check;
pub use calls::fill::fill;
pub use calls::route::route;
pub use hops::ROOM;
pub use image::IMAGE;
pub use snapshot::head::{HEAD, RECORD};
pub use snapshot::record::acs;
