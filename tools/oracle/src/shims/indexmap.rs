//! A set that remembers the order of insertion; a ticket's design has one entry in each.

use std::borrow::Borrow;

#[derive(Debug, Clone)]
pub struct IndexSet<T>(Vec<T>);

impl<T: Eq> IndexSet<T> {
    pub fn len(&self) -> usize {
        self.0.len()
    }

    pub fn is_empty(&self) -> bool {
        self.0.is_empty()
    }

    pub fn get_index(&self, index: usize) -> Option<&T> {
        self.0.get(index)
    }

    pub fn get_index_of<Q: Eq + ?Sized>(&self, value: &Q) -> Option<usize>
    where
        T: Borrow<Q>,
    {
        self.0.iter().position(|held| held.borrow() == value)
    }

    pub fn insert_full(&mut self, value: T) -> (usize, bool) {
        match self.get_index_of(&value) {
            Some(index) => (index, false),
            None => {
                self.0.push(value);
                (self.0.len() - 1, true)
            }
        }
    }
}

impl<T, const N: usize> From<[T; N]> for IndexSet<T> {
    fn from(values: [T; N]) -> Self {
        IndexSet(Vec::from(values))
    }
}
