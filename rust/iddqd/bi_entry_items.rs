//! The items of an occupied entry of a [`BiHashMap`].
use super::bi_hash_map::RefMut;
use super::*;

/// The items of an occupied entry.
#[derive(Debug)]
pub enum OccupiedEntryRef<'a, T: BiHashItem> {
    /// One item has both keys.
    Unique(&'a T),
    /// No item has both keys. At least one of the fields is `Some`.
    NonUnique {
        /// The item that has the first key.
        by_key1: Option<&'a T>,
        /// The item that has the second key.
        by_key2: Option<&'a T>,
    },
}

/// Guards of the items of an occupied entry.
pub enum OccupiedEntryMut<
    'a,
    T: BiHashItem,
    #[cfg(feature = "std")] S: Clone + BuildHasher = DefaultHashBuilder,
    #[cfg(not(feature = "std"))] S: Clone + BuildHasher,
> {
    /// One item has both keys.
    Unique(RefMut<'a, T, S>),
    /// No item has both keys. At least one of the fields is `Some`.
    NonUnique {
        /// The item that has the first key.
        by_key1: Option<RefMut<'a, T, S>>,
        /// The item that has the second key.
        by_key2: Option<RefMut<'a, T, S>>,
    },
}

impl<'a, T: BiHashItem> OccupiedEntryRef<'a, T> {
    /// Returns whether one item has both keys.
    pub fn is_unique(&self) -> bool {
        matches!(self, Self::Unique(_))
    }

    /// Returns whether no item has both keys.
    pub fn is_non_unique(&self) -> bool {
        !self.is_unique()
    }

    /// Returns the item that has both keys.
    pub fn as_unique(&self) -> Option<&'a T> {
        match self {
            Self::Unique(item) => Some(item),
            Self::NonUnique { .. } => None,
        }
    }

    /// Returns the item that has the first key.
    pub fn by_key1(&self) -> Option<&'a T> {
        match self {
            Self::Unique(item) => Some(item),
            Self::NonUnique { by_key1, .. } => *by_key1,
        }
    }

    /// Returns the item that has the second key.
    pub fn by_key2(&self) -> Option<&'a T> {
        match self {
            Self::Unique(item) => Some(item),
            Self::NonUnique { by_key2, .. } => *by_key2,
        }
    }
}

impl<T: BiHashItem, S: Clone + BuildHasher> OccupiedEntryMut<'_, T, S> {
    /// Returns whether one item has both keys.
    pub fn is_unique(&self) -> bool {
        matches!(self, Self::Unique(_))
    }

    /// Returns whether no item has both keys.
    pub fn is_non_unique(&self) -> bool {
        !self.is_unique()
    }

    /// Returns a guard of the item that has both keys.
    pub fn as_unique(&mut self) -> Option<RefMut<'_, T, S>> {
        match self {
            Self::Unique(item) => Some(item.reborrow()),
            Self::NonUnique { .. } => None,
        }
    }

    /// Returns a guard of the item that has the first key.
    pub fn by_key1(&mut self) -> Option<RefMut<'_, T, S>> {
        match self {
            Self::Unique(item) => Some(item.reborrow()),
            Self::NonUnique { by_key1, .. } => by_key1.as_mut().map(|item| item.reborrow()),
        }
    }

    /// Returns a guard of the item that has the second key.
    pub fn by_key2(&mut self) -> Option<RefMut<'_, T, S>> {
        match self {
            Self::Unique(item) => Some(item.reborrow()),
            Self::NonUnique { by_key2, .. } => by_key2.as_mut().map(|item| item.reborrow()),
        }
    }

    /// Calls `f` with each item: once with an item that has both keys.
    pub fn for_each<F: FnMut(RefMut<'_, T, S>)>(&mut self, mut f: F) {
        match self {
            Self::Unique(item) => f(item.reborrow()),
            Self::NonUnique { by_key1, by_key2 } => {
                by_key1.iter_mut().chain(by_key2).for_each(|item| f(item.reborrow()));
            }
        }
    }
}

impl<T: BiHashItem + fmt::Debug, S: Clone + BuildHasher> fmt::Debug for OccupiedEntryMut<'_, T, S> {
    fn fmt(&self, f: &mut fmt::Formatter<'_>) -> fmt::Result {
        match self {
            Self::Unique(item) => f.debug_tuple("Unique").field(item).finish(),
            Self::NonUnique { by_key1, by_key2 } => f.debug_struct("NonUnique").field("by_key1", by_key1).field("by_key2", by_key2).finish(),
        }
    }
}
