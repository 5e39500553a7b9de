//! Stand-ins for the Rust's files that are not there. All but `indexmap` only give
//! the other files their types: a call would end the run.

pub mod indexmap;
pub mod io;
pub mod param;
pub mod print;
pub mod smt;
pub mod target;

/// Why a stand-in is never called.
pub const NOT_IN_TICKETS: &str = "no ticket's design has this";
