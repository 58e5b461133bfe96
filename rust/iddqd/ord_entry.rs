//! The entries of an [`IdOrdMap`].
use super::id_ord_map::RefMut;
use super::*;
use crate::iddqd_order::Place;

/// What a map has under a key.
pub enum Entry<'a, T: IdOrdItem> {
    /// No item has the key.
    Vacant(VacantEntry<'a, T>),
    /// An item has it.
    Occupied(OccupiedEntry<'a, T>),
}

/// The place of an item with a key that no item has.
pub struct VacantEntry<'a, T: IdOrdItem> {
    map: &'a mut IdOrdMap<T>,
}

/// The item that has a key.
pub struct OccupiedEntry<'a, T: IdOrdItem> {
    map: &'a mut IdOrdMap<T>,
    place: Place,
}

impl<T: IdOrdItem> IdOrdMap<T> {
    /// Returns what the map has under this key.
    pub fn entry(&mut self, key: T::Key<'_>) -> Entry<'_, T> {
        let found = self.place_of(&T::upcast_key(key));
        match found {
            Err(_) => Entry::Vacant(VacantEntry { map: self }),
            Ok(place) => Entry::Occupied(OccupiedEntry { map: self, place }),
        }
    }

    /// Returns the entry of the item with the lowest key.
    pub fn first_entry(&mut self) -> Option<OccupiedEntry<'_, T>> {
        let place = self.map.first_place()?;
        Some(OccupiedEntry { map: self, place })
    }

    /// Returns the entry of the item with the highest key.
    pub fn last_entry(&mut self) -> Option<OccupiedEntry<'_, T>> {
        let place = self.map.last_place()?;
        Some(OccupiedEntry { map: self, place })
    }
}

impl<'a, T: IdOrdItem> VacantEntry<'a, T> {
    /// Inserts an item with the entry's key, and returns its entry. An item with another key gets the place of its own key.
    ///
    /// # Panics
    ///
    /// If an item of the map has the item's key. The map is as before.
    pub fn insert_entry(self, value: T) -> OccupiedEntry<'a, T> {
        let map = self.map;
        let Err(place) = map.place_of(&value.key()) else { panic!("key already present in map") };
        OccupiedEntry { place: map.put(place, value), map }
    }
}

impl<'a, T: IdOrdItem> OccupiedEntry<'a, T> {
    /// Returns the item.
    pub fn get(&self) -> &T {
        self.map.at(self.place)
    }

    /// Returns a guard of the item.
    pub fn get_mut(&mut self) -> RefMut<'_, T>
    where
        for<'k> T::Key<'k>: Hash,
    {
        self.map.guard(self.place)
    }

    /// Returns the item for as long as the map is borrowed.
    pub fn into_ref(self) -> &'a T {
        self.map.at(self.place)
    }

    /// Returns a guard of the item for as long as the map is borrowed.
    pub fn into_mut(self) -> RefMut<'a, T>
    where
        for<'k> T::Key<'k>: Hash,
    {
        self.map.guard(self.place)
    }

    /// Puts an item with the same key in the place of the item, and returns the latter.
    ///
    /// # Panics
    ///
    /// If the item has another key. The map is as before.
    pub fn insert(&mut self, value: T) -> T {
        if self.get().key() != value.key() {
            panic!("key mismatch");
        }
        self.map.swap(self.place, value)
    }

    /// Removes the item, and returns it.
    pub fn remove(self) -> T {
        self.map.take(self.place)
    }
}

super::one_key_entry::entry_calls!(IdOrdItem [] where for<'k> T::Key<'k>: Hash);
