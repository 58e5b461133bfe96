//! The map in the order of the keys: traits of std.
use super::id_ord_map::{IntoIter, Iter, IterMut, RefMut};
use super::walk;
use super::*;

impl<T: IdOrdItem> Default for IdOrdMap<T> {
    fn default() -> Self {
        Self::new()
    }
}

/// Clones the items. A panic of their `clone` drops what was cloned.
impl<T: IdOrdItem + Clone> Clone for IdOrdMap<T> {
    fn clone(&self) -> Self {
        IdOrdMap { map: must(self.map.try_clone()) }
    }
}

/// Shows the items, without their keys.
impl<T: IdOrdItem + fmt::Debug> fmt::Debug for IdOrdMap<T> {
    fn fmt(&self, f: &mut fmt::Formatter<'_>) -> fmt::Result {
        f.debug_set().entries(self).finish()
    }
}

impl<T: IdOrdItem + fmt::Debug> IdOrdMap<T> {
    /// Returns what shows the map as `{key: item, ..}`, where the map's own `Debug` shows the items alone.
    pub fn debug_with_keys<'a>(&'a self) -> impl fmt::Debug + 'a
    where
        T::Key<'a>: fmt::Debug,
    {
        Shown(|f: &mut fmt::Formatter<'_>| f.debug_map().entries(self.iter().map(|item| (item.key(), item))).finish())
    }
}

impl<T: IdOrdItem + PartialEq> PartialEq for IdOrdMap<T> {
    fn eq(&self, other: &Self) -> bool {
        self.iter().eq(other)
    }
}

impl<T: IdOrdItem + Eq> Eq for IdOrdMap<T> {}

/// Inserts the items, each in the place of the one that has its key.
impl<T: IdOrdItem> Extend<T> for IdOrdMap<T> {
    fn extend<I: IntoIterator<Item = T>>(&mut self, iter: I) {
        iter.into_iter().for_each(|item| drop(self.insert_overwrite(item)));
    }
}

/// Makes a map of the items, each in the place of the one before it that has its key.
impl<T: IdOrdItem> FromIterator<T> for IdOrdMap<T> {
    fn from_iter<I: IntoIterator<Item = T>>(iter: I) -> Self {
        let mut map = Self::new();
        map.extend(iter);
        map
    }
}

impl<'a, T: IdOrdItem> IntoIterator for &'a IdOrdMap<T> {
    type Item = &'a T;
    type IntoIter = Iter<'a, T>;

    fn into_iter(self) -> Self::IntoIter {
        self.iter()
    }
}

impl<'a, T: IdOrdItem> IntoIterator for &'a mut IdOrdMap<T>
where
    for<'k> T::Key<'k>: Hash,
{
    type Item = RefMut<'a, T>;
    type IntoIter = IterMut<'a, T>;

    fn into_iter(self) -> Self::IntoIter {
        self.iter_mut()
    }
}

impl<T: IdOrdItem> IntoIterator for IdOrdMap<T> {
    type Item = T;
    type IntoIter = IntoIter<T>;

    fn into_iter(self) -> Self::IntoIter {
        walk::IntoIter(self.map.into_iter())
    }
}
