//! The map in the order of the keys.
//!
//! Its guards hash the key, though its lookups do not: the calls that lend an item for writing need keys with a hash.
use super::guard::RefMut;
use super::held::{Wraps, ord::Held};
use super::id_ord_map::GuardBuilder;
use super::walk::{Iter, IterMut};
use super::*;
use crate::iddqd_order::Place;

/// A map of [`IdOrdItem`]s in the order of their keys, with the calls of the map of this name in the crate iddqd.
///
/// A call that finds an item takes a time that grows with the logarithm of the number of items, and makes the key of each item that it
/// compares with. An insert and a removal move up to 128 items more.
pub struct IdOrdMap<T: IdOrdItem> {
    pub(super) map: crate::IdOrdMap<Held<T>>,
}

impl<T: IdOrdItem> IdOrdMap<T> {
    /// Makes an empty map. It allocates nothing.
    pub fn new() -> Self {
        IdOrdMap { map: crate::IdOrdMap::new() }
    }

    /// Makes an empty map with room for `capacity` items.
    pub fn with_capacity(capacity: usize) -> Self {
        IdOrdMap { map: must(crate::IdOrdMap::with_capacity(capacity)) }
    }

    /// Makes a map of these items. It fails with the first item that has the key of an earlier one, and with that one; the others are
    /// dropped.
    pub fn from_iter_unique<I: IntoIterator<Item = T>>(iter: I) -> Result<Self, DuplicateItem<T>> {
        let mut iter = iter.into_iter();
        let mut map = Self::new();
        while let Some(item) = iter.next() {
            let found = map.place_of(&item.key());
            match found {
                Ok(place) => {
                    let error = DuplicateItem { new: item, duplicates: ::alloc::vec![map.take(place)] };
                    // Rust leaks what a function returns if the `drop` of a local panics on the way out.
                    drop((map, iter));
                    return Err(error);
                }
                Err(place) => map.put(place, item),
            };
        }
        Ok(map)
    }

    /// Returns how many items there are.
    pub fn len(&self) -> usize {
        self.map.len()
    }

    /// Returns whether there is no item.
    pub fn is_empty(&self) -> bool {
        self.map.is_empty()
    }

    /// Returns how many items fit before the map grows.
    pub fn capacity(&self) -> usize {
        self.map.capacity()
    }

    /// Makes room for this many more items.
    pub fn reserve(&mut self, additional: usize) {
        must(self.map.reserve(additional))
    }

    /// Makes room for this many more items. It fails if there is no memory for them, and then the map is as before.
    pub fn try_reserve(&mut self, additional: usize) -> Result<(), TryReserveError> {
        self.map.try_reserve(additional)
    }

    /// Gives room back that the items do not need. Where there is no memory to do so, the map stays as it is.
    pub fn shrink_to_fit(&mut self) {
        let _ = self.map.shrink_to_fit();
    }

    /// Gives room back as `shrink_to_fit` does, but keeps the capacity at `min_capacity` at least.
    pub fn shrink_to(&mut self, min_capacity: usize) {
        let _ = self.map.shrink_to(min_capacity);
    }

    /// Drops all items. The map keeps its room. If an item's `drop` panics, the others are dropped, and the map is empty.
    pub fn clear(&mut self) {
        clear_all(&mut self.map, crate::IdOrdMap::clear)
    }

    /// Inserts an item, unless another one has its key.
    pub fn insert_unique(&mut self, value: T) -> Result<(), DuplicateItem<T, &T>> {
        match self.map.insert_unique(Wraps::wrap(value)) {
            Ok(()) => Ok(()),
            Err(refused) => {
                let (item, found) = refused.into_parts();
                // The proved map refuses an item without another one only where there is no memory.
                let found = found.unwrap_or_else(|| must(Err(())));
                Err(DuplicateItem { new: item.into_item(), duplicates: ::alloc::vec![found.item()] })
            }
        }
    }

    /// Inserts an item in the place of the one that has its key, and returns the latter.
    #[doc(alias = "insert")]
    pub fn insert_overwrite(&mut self, value: T) -> Option<T> {
        must(self.map.insert_overwrite(Wraps::wrap(value))).map(Wraps::into_item)
    }

    /// Returns whether an item has this key.
    pub fn contains_key<'a, Q: Comparable<T::Key<'a>> + ?Sized>(&'a self, key: &Q) -> bool {
        self.place_of(key).is_ok()
    }

    /// Returns the item that has this key. It compares the query with about as many keys as the number of the items has binary digits.
    pub fn get<'a, Q: Comparable<T::Key<'a>> + ?Sized>(&'a self, key: &Q) -> Option<&'a T> {
        Some(self.at(self.place_of(key).ok()?))
    }

    /// Removes the item that has this key, and returns it.
    pub fn remove(&mut self, key: T::Key<'_>) -> Option<T> {
        let place = self.place_of(&T::upcast_key(key)).ok()?;
        Some(self.take(place))
    }

    /// Returns the item with the lowest key.
    pub fn first(&self) -> Option<&T> {
        self.map.first().map(Wraps::item)
    }

    /// Returns the item with the highest key.
    pub fn last(&self) -> Option<&T> {
        self.map.last().map(Wraps::item)
    }

    /// Removes the item with the lowest key, and returns it.
    pub fn pop_first(&mut self) -> Option<T> {
        self.map.pop_first().map(Wraps::into_item)
    }

    /// Removes the item with the highest key, and returns it.
    pub fn pop_last(&mut self) -> Option<T> {
        self.map.pop_last().map(Wraps::into_item)
    }

    /// Iterates over the items, in the order of their keys.
    pub fn iter(&self) -> id_ord_map::Iter<'_, T> {
        Iter(self.map.iter())
    }

    /// Iterates over the items between two keys, in the order of their keys. There are none where the start is not below the end.
    pub fn range<'a, Q: Comparable<T::Key<'a>> + ?Sized, R: RangeBounds<Q>>(&'a self, range: R) -> id_ord_map::Iter<'a, T> {
        let (start, end) = self.ends(range.start_bound(), range.end_bound());
        Iter(self.map.blocks().range(start, end))
    }

    // What follows is for the other files of this module.

    pub(super) fn at(&self, place: Place) -> &T {
        self.map.item_in(place).item()
    }

    // Inserts an item at the place that a search for its key found, and returns its place.
    pub(super) fn put(&mut self, place: Place, value: T) -> Place {
        let item = Wraps::wrap(value);
        must(self.map.make_room(&item));
        self.map.insert_into(item, place)
    }

    pub(super) fn swap(&mut self, place: Place, value: T) -> T {
        self.map.replace_in(place, Wraps::wrap(value)).into_item()
    }

    pub(super) fn take(&mut self, place: Place) -> T {
        self.map.remove_in(place).0.into_item()
    }
}

impl<T: IdOrdItem> IdOrdMap<T>
where
    for<'k> T::Key<'k>: Hash,
{
    /// Returns a guard of the item that has this key.
    pub fn get_mut(&mut self, key: T::Key<'_>) -> Option<id_ord_map::RefMut<'_, T>> {
        let place = self.place_of(&T::upcast_key(key)).ok()?;
        Some(self.guard(place))
    }

    /// Iterates over guards of the items, in the order of their keys.
    pub fn iter_mut(&mut self) -> id_ord_map::IterMut<'_, T> {
        IterMut { items: self.map.blocks_mut().into_iter(), builder: GuardBuilder::default() }
    }

    /// Iterates over guards of the items between two keys, in the order of their keys. The keys are taken by value, as each call that
    /// writes takes them. The items between them are counted, in a step for each block of up to 128.
    ///
    /// ```
    /// use facetweave::iddqd::{IdOrdItem, IdOrdMap, id_upcast};
    ///
    /// #[derive(Debug)]
    /// struct Word(String, u32);
    ///
    /// impl IdOrdItem for Word {
    ///     type Key<'a> = &'a str;
    ///     fn key(&self) -> &str {
    ///         &self.0
    ///     }
    ///     id_upcast!();
    /// }
    ///
    /// let mut words: IdOrdMap<Word> = ["ant", "bee", "cat"].map(|it| Word(it.into(), 0)).into_iter().collect();
    /// for mut word in words.range_mut("b"..) {
    ///     word.1 += 1;
    /// }
    /// assert!(words.iter().map(|it| it.1).eq([0, 1, 1]));
    /// ```
    pub fn range_mut<'k, R>(&mut self, range: R) -> id_ord_map::IterMut<'_, T>
    where
        T: 'k,
        R: KeyRange<T::Key<'k>>,
    {
        let (low, high) = range.into_bounds();
        let (start, end) = {
            let (low, high) = (low.map(T::upcast_key), high.map(T::upcast_key));
            self.ends(low.as_ref(), high.as_ref())
        };
        IterMut { items: self.map.blocks_mut().range_mut(start, end), builder: GuardBuilder::default() }
    }

    /// Drops the items for which `f` returns `false`. If `f` panics, those that it has seen are dropped or kept as it said, and the
    /// others stay.
    pub fn retain<F: for<'b> FnMut(id_ord_map::RefMut<'b, T>) -> bool>(&mut self, mut f: F) {
        let mut next = self.map.first_place();
        while let Some(place) = next {
            if f(self.guard(place)) {
                next = self.map.next_place(place);
            } else {
                let (item, after) = self.map.remove_in(place);
                drop(item);
                next = self.map.place_or_next(after);
            }
        }
    }

    pub(super) fn guard(&mut self, place: Place) -> id_ord_map::RefMut<'_, T> {
        RefMut::new(GuardBuilder::default(), self.map.blocks_mut().entry_mut(place))
    }
}
