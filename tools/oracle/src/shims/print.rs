//! Printing of designs, which the Rust does in messages only.

use std::fmt::{Formatter, Result};

use super::NOT_IN_TICKETS;
use crate::metadata::MetaItemIndex;
use crate::{Cell, Design, Net, Value};

impl Design {
    pub(crate) fn write_string(_: &mut Formatter, _: &str) -> Result {
        unreachable!("{NOT_IN_TICKETS}")
    }

    pub(crate) fn write_cell(&self, _: &mut Formatter, _: &str, _: usize, _: &Cell, _: MetaItemIndex) -> Result {
        unreachable!("{NOT_IN_TICKETS}")
    }

    pub fn display_net(&self, _: Net) -> String {
        unreachable!("{NOT_IN_TICKETS}")
    }

    pub fn display_value(&self, _: &Value) -> String {
        unreachable!("{NOT_IN_TICKETS}")
    }
}
