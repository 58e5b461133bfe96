//! The entries of an [`IdHashMap`].
use super::held::Wraps;
use super::id_hash_map::RefMut;
use super::*;

/// What a map has under a key.
pub enum Entry<'a, T: IdHashItem, #[cfg(feature = "std")] S: BuildHasher = DefaultHashBuilder, #[cfg(not(feature = "std"))] S: BuildHasher> {
    /// No item has the key.
    Vacant(VacantEntry<'a, T, S>),
    /// An item has it.
    Occupied(OccupiedEntry<'a, T, S>),
}

/// The place of an item with a key that no item has.
pub struct VacantEntry<'a, T: IdHashItem, #[cfg(feature = "std")] S: BuildHasher = DefaultHashBuilder, #[cfg(not(feature = "std"))] S: BuildHasher> {
    map: &'a mut IdHashMap<T, S>,
    hash: u64,
}

/// The item that has a key.
pub struct OccupiedEntry<'a, T: IdHashItem, #[cfg(feature = "std")] S: BuildHasher = DefaultHashBuilder, #[cfg(not(feature = "std"))] S: BuildHasher>
{
    map: &'a mut IdHashMap<T, S>,
    slot: ItemIndex,
}

impl<T: IdHashItem, S: Clone + BuildHasher> IdHashMap<T, S> {
    /// Returns what the map has under this key.
    pub fn entry(&mut self, key: T::Key<'_>) -> Entry<'_, T, S> {
        let (found, hash) = {
            let key = T::upcast_key(key);
            (self.find(&key), SlotMap::hasher(&self.map).hash_one(&key))
        };
        match found {
            None => Entry::Vacant(VacantEntry { map: self, hash }),
            Some(slot) => Entry::Occupied(OccupiedEntry { map: self, slot }),
        }
    }
}

impl<'a, T: IdHashItem, S: Clone + BuildHasher> VacantEntry<'a, T, S> {
    /// Inserts an item with the entry's key, and returns its entry.
    ///
    /// # Panics
    ///
    /// If the item's key has another hash than the entry's, or if an item of the map has it. The map is as before.
    pub fn insert_entry(self, value: T) -> OccupiedEntry<'a, T, S> {
        let map = self.map;
        if map.hashes(&value) != [self.hash] {
            panic!("key hashes do not match");
        }
        if map.find(&value.key()).is_some() {
            panic!("key already present in map");
        }
        let (_, slot) = map.put([None], value);
        OccupiedEntry { map, slot }
    }
}

impl<'a, T: IdHashItem, S: Clone + BuildHasher> OccupiedEntry<'a, T, S> {
    /// Returns the item.
    pub fn get(&self) -> &T {
        self.map.at(self.slot)
    }

    /// Returns a guard of the item.
    pub fn get_mut(&mut self) -> RefMut<'_, T, S> {
        self.map.guard(self.slot)
    }

    /// Returns the item for as long as the map is borrowed.
    pub fn into_ref(self) -> &'a T {
        self.map.at(self.slot)
    }

    /// Returns a guard of the item for as long as the map is borrowed.
    pub fn into_mut(self) -> RefMut<'a, T, S> {
        self.map.guard(self.slot)
    }

    /// Puts an item with the same key in the place of the item, and returns the latter.
    ///
    /// # Panics
    ///
    /// If the item has another key. The map is as before.
    pub fn insert(&mut self, value: T) -> T {
        if self.get().key() != value.key() {
            panic!("key mismatch");
        }
        SlotMap::replace_at(&mut self.map.map, self.slot, Wraps::wrap(value)).into_item()
    }

    /// Removes the item, and returns it.
    pub fn remove(self) -> T {
        self.map.take(self.slot)
    }
}

super::one_key_entry::entry_calls!(IdHashItem[S]);
