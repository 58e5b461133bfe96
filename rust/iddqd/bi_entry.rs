//! The entries of a [`BiHashMap`].
use super::bi_entry_items::{OccupiedEntryMut, OccupiedEntryRef};
use super::bi_hash_map::RefMut;
use super::guard::RefMut as Guard;
use super::held::Wraps;
use super::*;

/// The slots that an entry's keys were found at: one slot by both keys, or at least one of two that differ.
#[derive(Clone, Copy)]
enum Found {
    Unique(ItemIndex),
    NonUnique(Option<ItemIndex>, Option<ItemIndex>),
}

/// What a map has under two keys.
pub enum Entry<'a, T: BiHashItem, #[cfg(feature = "std")] S: BuildHasher = DefaultHashBuilder, #[cfg(not(feature = "std"))] S: BuildHasher> {
    /// No item has one of the keys.
    Vacant(VacantEntry<'a, T, S>),
    /// One item has both keys, or one item or two have one of them each.
    Occupied(OccupiedEntry<'a, T, S>),
}

/// The place of an item with two keys that no item has.
pub struct VacantEntry<'a, T: BiHashItem, #[cfg(feature = "std")] S: BuildHasher = DefaultHashBuilder, #[cfg(not(feature = "std"))] S: BuildHasher> {
    map: &'a mut BiHashMap<T, S>,
    hashes: [u64; 2],
}

/// The items that have one of two keys: one or two.
pub struct OccupiedEntry<'a, T: BiHashItem, #[cfg(feature = "std")] S: BuildHasher = DefaultHashBuilder, #[cfg(not(feature = "std"))] S: BuildHasher>
{
    map: &'a mut BiHashMap<T, S>,
    found: Found,
}

impl<T: BiHashItem, S: Clone + BuildHasher> BiHashMap<T, S> {
    /// Returns what the map has under these keys. It hashes each key twice.
    ///
    /// ```
    /// use facetweave::iddqd::bi_hash_map::Entry;
    /// use facetweave::iddqd::{BiHashItem, BiHashMap, bi_upcast};
    ///
    /// #[derive(Debug)]
    /// struct Seat(u32, &'static str);
    ///
    /// impl BiHashItem for Seat {
    ///     type K1<'a> = u32;
    ///     type K2<'a> = &'static str;
    ///     fn key1(&self) -> u32 {
    ///         self.0
    ///     }
    ///     fn key2(&self) -> &'static str {
    ///         self.1
    ///     }
    ///     bi_upcast!();
    /// }
    ///
    /// let mut seats: BiHashMap<Seat> = [Seat(1, "ann"), Seat(2, "bob")].into_iter().collect();
    /// // Bob takes the seat of Ann: both items have one of the keys.
    /// let Entry::Occupied(mut entry) = seats.entry(1, "bob") else { panic!() };
    /// assert!(entry.is_non_unique());
    /// assert_eq!(entry.insert(Seat(1, "bob")).len(), 2);
    /// assert_eq!(seats.len(), 1);
    /// ```
    pub fn entry(&mut self, key1: T::K1<'_>, key2: T::K2<'_>) -> Entry<'_, T, S> {
        let (found, hashes) = {
            let (key1, key2) = (T::upcast_key1(key1), T::upcast_key2(key2));
            let builder = SlotMap::hasher(&self.map);
            let found = match (self.find1(&key1), self.find2(&key2)) {
                (Some(one), Some(other)) if one.number() == other.number() => Found::Unique(one),
                (one, other) => Found::NonUnique(one, other),
            };
            (found, [builder.hash_one(&key1), builder.hash_one(&key2)])
        };
        match found {
            Found::NonUnique(None, None) => Entry::Vacant(VacantEntry { map: self, hashes }),
            found => Entry::Occupied(OccupiedEntry { map: self, found }),
        }
    }

    fn shown(&self, found: Found) -> OccupiedEntryRef<'_, T> {
        match found {
            Found::Unique(slot) => OccupiedEntryRef::Unique(self.at(slot)),
            Found::NonUnique(one, other) => {
                OccupiedEntryRef::NonUnique { by_key1: one.map(|slot| self.at(slot)), by_key2: other.map(|slot| self.at(slot)) }
            }
        }
    }

    fn lent(&mut self, found: Found) -> OccupiedEntryMut<'_, T, S> {
        match found {
            Found::Unique(slot) => OccupiedEntryMut::Unique(self.guard(slot)),
            Found::NonUnique(Some(one), Some(other)) => {
                let (one, other) = self.guards(one, other);
                OccupiedEntryMut::NonUnique { by_key1: Some(one), by_key2: Some(other) }
            }
            Found::NonUnique(Some(one), None) => OccupiedEntryMut::NonUnique { by_key1: Some(self.guard(one)), by_key2: None },
            Found::NonUnique(None, other) => OccupiedEntryMut::NonUnique { by_key1: None, by_key2: other.map(|slot| self.guard(slot)) },
        }
    }

    // Guards of the items of two slots.
    fn guards(&mut self, one: ItemIndex, other: ItemIndex) -> (RefMut<'_, T, S>, RefMut<'_, T, S>) {
        let builder = SlotMap::hasher(&self.map).clone();
        let items = self.map.items_mut();
        let (one, other) = if one.number() < other.number() {
            items.two_mut(one, other)
        } else {
            let (other, one) = items.two_mut(other, one);
            (one, other)
        };
        (Guard::new(builder.clone(), one), Guard::new(builder, other))
    }
}

impl<'a, T: BiHashItem, S: Clone + BuildHasher> Entry<'a, T, S> {
    /// Inserts this item if no item has one of the keys. Returns the items of the entry.
    ///
    /// # Panics
    ///
    /// As [`VacantEntry::insert`].
    pub fn or_insert(self, default: T) -> OccupiedEntryMut<'a, T, S> {
        self.or_insert_with(|| default)
    }

    /// Inserts what `default` makes if no item has one of the keys. Returns the items of the entry.
    ///
    /// # Panics
    ///
    /// As [`VacantEntry::insert`].
    pub fn or_insert_with<F: FnOnce() -> T>(self, default: F) -> OccupiedEntryMut<'a, T, S> {
        match self {
            Entry::Occupied(entry) => entry.into_mut(),
            Entry::Vacant(entry) => OccupiedEntryMut::Unique(entry.insert(default())),
        }
    }

    /// Calls `f` with each item of the entry.
    pub fn and_modify<F: FnMut(RefMut<'_, T, S>)>(mut self, f: F) -> Self {
        if let Entry::Occupied(entry) = &mut self {
            entry.get_mut().for_each(f);
        }
        self
    }
}

impl<'a, T: BiHashItem, S: Clone + BuildHasher> VacantEntry<'a, T, S> {
    /// Inserts an item with the entry's keys, and returns a guard of it.
    ///
    /// # Panics
    ///
    /// If a key of the item has another hash than the entry's, or if an item of the map has it. The map is as before.
    pub fn insert(self, value: T) -> RefMut<'a, T, S> {
        let (map, slot) = self.put(value);
        map.guard(slot)
    }

    /// Inserts an item with the entry's keys, and returns its entry.
    ///
    /// # Panics
    ///
    /// As [`VacantEntry::insert`].
    pub fn insert_entry(self, value: T) -> OccupiedEntry<'a, T, S> {
        let (map, slot) = self.put(value);
        OccupiedEntry { map, found: Found::Unique(slot) }
    }

    fn put(self, value: T) -> (&'a mut BiHashMap<T, S>, ItemIndex) {
        let hashes = self.map.hashes(&value);
        if hashes[0] != self.hashes[0] {
            panic!("key1 hashes do not match");
        }
        if hashes[1] != self.hashes[1] {
            panic!("key2 hashes do not match");
        }
        if self.map.find1(&value.key1()).is_some() || self.map.find2(&value.key2()).is_some() {
            panic!("key already present in map");
        }
        let (_, slot) = self.map.put([None; 2], value);
        (self.map, slot)
    }
}

impl<'a, T: BiHashItem, S: Clone + BuildHasher> OccupiedEntry<'a, T, S> {
    /// Returns whether one item has both keys.
    pub fn is_unique(&self) -> bool {
        matches!(self.found, Found::Unique(_))
    }

    /// Returns whether no item has both keys.
    pub fn is_non_unique(&self) -> bool {
        !self.is_unique()
    }

    /// Returns the items.
    pub fn get(&self) -> OccupiedEntryRef<'_, T> {
        self.map.shown(self.found)
    }

    /// Returns guards of the items.
    pub fn get_mut(&mut self) -> OccupiedEntryMut<'_, T, S> {
        self.map.lent(self.found)
    }

    /// Returns the items for as long as the map is borrowed.
    pub fn into_ref(self) -> OccupiedEntryRef<'a, T> {
        self.map.shown(self.found)
    }

    /// Returns guards of the items for as long as the map is borrowed.
    pub fn into_mut(self) -> OccupiedEntryMut<'a, T, S> {
        self.map.lent(self.found)
    }

    /// Puts an item with the entry's keys in the place of the entry's items, and returns them. Then the entry has that one item.
    ///
    /// # Panics
    ///
    /// If the item has other keys. The map is as before.
    pub fn insert(&mut self, value: T) -> Vec<T> {
        match self.found {
            Found::Unique(slot) => {
                let old = self.map.at(slot);
                if old.key1() != value.key1() {
                    panic!("key1 mismatch");
                }
                if old.key2() != value.key2() {
                    panic!("key2 mismatch");
                }
                ::alloc::vec![SlotMap::replace_at(&mut self.map.map, slot, Wraps::wrap(value)).into_item()]
            }
            Found::NonUnique(one, other) => {
                let number = |slot: Option<ItemIndex>| slot.map(|slot| slot.number());
                if number(self.map.find1(&value.key1())) != number(one) {
                    panic!("key1 mismatch");
                }
                if number(self.map.find2(&value.key2())) != number(other) {
                    panic!("key2 mismatch");
                }
                let found = self.map.known([one, other]);
                let (old, slot) = self.map.put(found, value);
                self.found = Found::Unique(slot);
                old.into_iter().flatten().collect()
            }
        }
    }

    /// Removes the items, and returns them.
    pub fn remove(self) -> Vec<T> {
        let found = match self.found {
            Found::Unique(slot) => [Some(slot), None],
            Found::NonUnique(one, other) => [one, other],
        };
        let found = self.map.known(found);
        self.map.take_all(found).into_iter().flatten().collect()
    }
}

impl<T: BiHashItem, S: BuildHasher> fmt::Debug for Entry<'_, T, S> {
    fn fmt(&self, f: &mut fmt::Formatter<'_>) -> fmt::Result {
        match self {
            Entry::Vacant(entry) => f.debug_tuple("Vacant").field(entry).finish(),
            Entry::Occupied(entry) => f.debug_tuple("Occupied").field(entry).finish(),
        }
    }
}

impl<T: BiHashItem, S: BuildHasher> fmt::Debug for VacantEntry<'_, T, S> {
    fn fmt(&self, f: &mut fmt::Formatter<'_>) -> fmt::Result {
        f.debug_struct("VacantEntry").field("hashes", &self.hashes).finish_non_exhaustive()
    }
}

impl<T: BiHashItem, S: BuildHasher> fmt::Debug for OccupiedEntry<'_, T, S> {
    fn fmt(&self, f: &mut fmt::Formatter<'_>) -> fmt::Result {
        f.debug_struct("OccupiedEntry").field("unique", &matches!(self.found, Found::Unique(_))).finish_non_exhaustive()
    }
}
