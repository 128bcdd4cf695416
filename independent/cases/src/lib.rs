//! Cases to compare the model and the library by.
//!
//! - `fabric`: snapshots and headers built field by field;
//! - `shapes`, `damage`, `queries`: random and extreme snapshots, broken ones,
//!   and what is asked of them, all from `random`;
//! - `images`, `fills`: configuration space images built field by field, and
//!   random ones with records to fill;
//! - `batches`: an endless row of cases;
//! - `corpus`: the fixed cases of the gate;
//! - `stream`: `acsroute` inputs, the gate's items, and many of them in a row.

pub mod batches;
pub mod corpus;
pub mod damage;
pub mod fabric;
pub mod fills;
pub mod images;
pub mod queries;
pub mod random;
pub mod shapes;
pub mod stream;
