//! The Rust's own passes, unchanged, behind the paper's tickets.
//!
//! The modules from `modules.rs` are the Rust's files; `shims` stands in for the
//! files that are not there. Everything else is read from the paper.

// The Rust's files name these two crates.
extern crate self as indexmap;
extern crate self as prjunnamed_netlist;

mod shims;

include!(concat!(env!("OUT_DIR"), "/modules.rs"));

pub use cell::{
    AssignCell, Cell, FlipFlop, Instance, IoBuffer, MatchCell, Memory, MemoryPortRelation, MemoryReadFlipFlop,
    MemoryReadPort, MemoryWritePort, TargetCell,
};
pub use design::{CellRef, Design, WithMetadataGuard};
pub use logic::{Const, Trit};
pub use metadata::{MetaItem, MetaItemRef, MetaStringRef, SourcePosition};
pub use rewrite::{RewriteNetSource, RewriteResult, RewriteRuleset, Rewriter};
pub use shims::indexmap::IndexSet;
pub use shims::io::{IoNet, IoValue};
pub use shims::param::ParamValue;
use shims::smt;
pub use shims::target::{Target, TargetCellPurity, TargetPrototype};
pub use value::{ControlNet, Net, Value};

pub mod arms;
pub mod beside;
pub mod calls;
pub mod checking;
pub mod draw;
pub mod kleene;
pub mod list;
pub mod lister;
pub mod page;
pub mod paper;
pub mod search;
pub mod text;
pub mod ticket;
