//! Targets.

use std::collections::BTreeMap;
use std::fmt::Debug;

use super::NOT_IN_TICKETS;
use crate::{Design, ParamValue, TargetCell};

#[derive(Debug, Clone, Copy, PartialEq, Eq)]
pub enum TargetCellPurity {
    Pure,
    HasState,
    HasEffects,
}

#[derive(Debug)]
pub struct ParamKind;

impl ParamKind {
    pub fn is_valid(&self, _: &ParamValue) -> bool {
        unreachable!("{NOT_IN_TICKETS}")
    }
}

#[derive(Debug)]
pub struct TargetParam {
    pub kind: ParamKind,
}

#[derive(Debug)]
pub struct TargetPrototype {
    pub purity: TargetCellPurity,
    pub params: Vec<TargetParam>,
    pub input_len: usize,
    pub output_len: usize,
    pub io_len: usize,
}

pub trait Target: Debug {
    fn name(&self) -> &str;
    fn options(&self) -> BTreeMap<String, String>;
    fn prototype(&self, kind: &str) -> Option<&TargetPrototype>;
    fn validate(&self, design: &Design, cell: &TargetCell);
}
