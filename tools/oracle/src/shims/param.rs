//! Parameters of attributes, instances and targets.

use std::fmt::{Display, Formatter, Result};

use super::NOT_IN_TICKETS;

#[derive(Debug, Clone, PartialEq, Eq, PartialOrd, Ord, Hash)]
pub enum ParamValue {
    String(String),
}

impl Display for ParamValue {
    fn fmt(&self, _: &mut Formatter) -> Result {
        unreachable!("{NOT_IN_TICKETS}")
    }
}
