//! Input and output pins.

use std::ops::{Range, RangeBounds};

use super::NOT_IN_TICKETS;

#[derive(Debug, Clone, Copy, PartialEq, Eq, PartialOrd, Ord, Hash)]
pub struct IoNet {
    pub(crate) index: u32,
}

#[derive(Debug, Clone, PartialEq, Eq, Hash)]
pub struct IoValue;

#[allow(clippy::len_without_is_empty)]
impl IoValue {
    pub(crate) fn from_range(_: Range<u32>) -> Self {
        unreachable!("{NOT_IN_TICKETS}")
    }

    pub fn len(&self) -> usize {
        unreachable!("{NOT_IN_TICKETS}")
    }

    pub fn slice(&self, _: impl RangeBounds<usize>) -> Self {
        unreachable!("{NOT_IN_TICKETS}")
    }
}
