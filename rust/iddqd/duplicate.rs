//! The error of an insert.
use super::*;

/// An item that was not inserted, and the items that have one of its keys.
#[derive(Clone, Debug)]
pub struct DuplicateItem<T, D = T> {
    pub(super) new: T,
    pub(super) duplicates: Vec<D>,
}

impl<T, D> DuplicateItem<T, D> {
    /// Returns the item that was not inserted.
    pub fn new_item(&self) -> &T {
        &self.new
    }

    /// Returns the items that have one of its keys, each once, in the order of the keys by which they were found.
    pub fn duplicates(&self) -> &[D] {
        &self.duplicates
    }

    /// Returns both.
    pub fn into_parts(self) -> (T, Vec<D>) {
        (self.new, self.duplicates)
    }
}

impl<T: Clone> DuplicateItem<T, &T> {
    /// Clones the items that have one of the keys, so that the error borrows nothing.
    pub fn into_owned(self) -> DuplicateItem<T> {
        DuplicateItem { new: self.new, duplicates: self.duplicates.into_iter().cloned().collect() }
    }
}

impl<T: fmt::Debug, D: fmt::Debug> fmt::Display for DuplicateItem<T, D> {
    fn fmt(&self, f: &mut fmt::Formatter<'_>) -> fmt::Result {
        write!(f, "new item: {:?} conflicts with existing: {:?}", self.new, self.duplicates)
    }
}

impl<T: fmt::Debug, D: fmt::Debug> core::error::Error for DuplicateItem<T, D> {}
