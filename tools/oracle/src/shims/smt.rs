//! The solver behind the Rust's verify feature, which is off.

use super::NOT_IN_TICKETS;
use crate::{Cell, Const, Design, Net, Value};

pub trait SmtEngine {
    type Error;
}

pub struct SmtBuilder<E: SmtEngine>(E);

pub struct SmtExample;

type Done<E> = Result<(), <E as SmtEngine>::Error>;

impl SmtExample {
    pub fn get_past_value(&self, _: impl Into<Value>) -> Option<Const> {
        unreachable!("{NOT_IN_TICKETS}")
    }

    pub fn get_value(&self, _: impl Into<Value>) -> Option<Const> {
        unreachable!("{NOT_IN_TICKETS}")
    }
}

impl<E: SmtEngine> SmtBuilder<E> {
    pub fn new(_: &Design, _: E) -> Self {
        unreachable!("{NOT_IN_TICKETS}")
    }

    pub fn add_cell(&mut self, _: &Value, _: &Cell) -> Done<E> {
        unreachable!("{NOT_IN_TICKETS}")
    }

    pub fn replace_cell(&mut self, _: &Value, _: &Cell, _: &Cell) -> Done<E> {
        unreachable!("{NOT_IN_TICKETS}")
    }

    pub fn replace_net(&mut self, _: Net, _: Net) -> Done<E> {
        unreachable!("{NOT_IN_TICKETS}")
    }

    pub fn replace_void_net(&mut self, _: Net, _: Net) -> Done<E> {
        unreachable!("{NOT_IN_TICKETS}")
    }

    pub fn replace_dff_net(&mut self, _: Net, _: Net) -> Done<E> {
        unreachable!("{NOT_IN_TICKETS}")
    }

    pub fn check(&self) -> Result<Option<SmtExample>, E::Error> {
        unreachable!("{NOT_IN_TICKETS}")
    }
}
