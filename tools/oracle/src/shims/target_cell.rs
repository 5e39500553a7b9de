use crate::shims::NOT_IN_TICKETS;
use crate::{IoValue, Net, ParamValue, Value};

/// Stands in for a target's cell.
#[derive(Debug, Clone, PartialEq, Eq, Hash)]
pub struct TargetCell {
    pub kind: String,
    pub params: Vec<ParamValue>,
    pub inputs: Value,
    pub ios: IoValue,
    pub output_len: usize,
}

impl TargetCell {
    pub fn visit(&self, _: impl FnMut(Net)) {
        unreachable!("{NOT_IN_TICKETS}")
    }

    pub fn visit_mut(&mut self, _: impl FnMut(&mut Net)) {
        unreachable!("{NOT_IN_TICKETS}")
    }
}
