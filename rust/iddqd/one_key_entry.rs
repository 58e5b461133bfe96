//! What the entries of an [`IdHashMap`](super::IdHashMap) and of an [`IdOrdMap`](super::IdOrdMap) have in common.

/// The calls that go through `insert_entry`, `get_mut`, `into_mut` and `into_ref`. A guard of an ordered map needs a key that has a hash.
macro_rules! entry_calls {
    ($item:ident [$($builder:ident)?] $(where $($hash:tt)+)?) => {
        impl<'a, T: $item $(, $builder: Clone + BuildHasher)?> Entry<'a, T $(, $builder)?> {
            /// Inserts this item if no item has the key. Returns a guard of the entry's item.
            ///
            /// # Panics
            ///
            /// As [`VacantEntry::insert_entry`].
            pub fn or_insert(self, default: T) -> RefMut<'a, T $(, $builder)?>
            $(where $($hash)+)?
            {
                self.or_insert_with(|| default)
            }

            /// Inserts this item if no item has the key. Returns the entry's item.
            ///
            /// # Panics
            ///
            /// As [`VacantEntry::insert_entry`].
            pub fn or_insert_ref(self, default: T) -> &'a T {
                self.or_insert_with_ref(|| default)
            }

            /// Inserts what `default` makes if no item has the key. Returns a guard of the entry's item.
            ///
            /// # Panics
            ///
            /// As [`VacantEntry::insert_entry`].
            pub fn or_insert_with<F: FnOnce() -> T>(self, default: F) -> RefMut<'a, T $(, $builder)?>
            $(where $($hash)+)?
            {
                self.occupied(default).into_mut()
            }

            /// Inserts what `default` makes if no item has the key. Returns the entry's item.
            ///
            /// # Panics
            ///
            /// As [`VacantEntry::insert_entry`].
            pub fn or_insert_with_ref<F: FnOnce() -> T>(self, default: F) -> &'a T {
                self.occupied(default).into_ref()
            }

            /// Calls `f` with the item that has the key, if there is one.
            pub fn and_modify<F: FnOnce(RefMut<'_, T $(, $builder)?>)>(mut self, f: F) -> Self
            $(where $($hash)+)?
            {
                if let Entry::Occupied(entry) = &mut self {
                    f(entry.get_mut());
                }
                self
            }

            fn occupied<F: FnOnce() -> T>(self, default: F) -> OccupiedEntry<'a, T $(, $builder)?> {
                match self {
                    Entry::Occupied(entry) => entry,
                    Entry::Vacant(entry) => entry.insert_entry(default()),
                }
            }
        }

        impl<'a, T: $item $(, $builder: Clone + BuildHasher)?> VacantEntry<'a, T $(, $builder)?> {
            /// Inserts an item with the entry's key, and returns a guard of it.
            ///
            /// # Panics
            ///
            /// As [`VacantEntry::insert_entry`].
            pub fn insert(self, value: T) -> RefMut<'a, T $(, $builder)?>
            $(where $($hash)+)?
            {
                self.insert_entry(value).into_mut()
            }

            /// Inserts an item with the entry's key, and returns it.
            ///
            /// # Panics
            ///
            /// As [`VacantEntry::insert_entry`].
            pub fn insert_ref(self, value: T) -> &'a T {
                self.insert_entry(value).into_ref()
            }
        }

        impl<T: $item $(, $builder: BuildHasher)?> fmt::Debug for Entry<'_, T $(, $builder)?> {
            fn fmt(&self, f: &mut fmt::Formatter<'_>) -> fmt::Result {
                match self {
                    Entry::Vacant(entry) => f.debug_tuple("Vacant").field(entry).finish(),
                    Entry::Occupied(entry) => f.debug_tuple("Occupied").field(entry).finish(),
                }
            }
        }

        impl<T: $item $(, $builder: BuildHasher)?> fmt::Debug for VacantEntry<'_, T $(, $builder)?> {
            fn fmt(&self, f: &mut fmt::Formatter<'_>) -> fmt::Result {
                f.debug_struct("VacantEntry").finish_non_exhaustive()
            }
        }

        impl<T: $item $(, $builder: BuildHasher)?> fmt::Debug for OccupiedEntry<'_, T $(, $builder)?> {
            fn fmt(&self, f: &mut fmt::Formatter<'_>) -> fmt::Result {
                f.debug_struct("OccupiedEntry").finish_non_exhaustive()
            }
        }
    };
}

pub(super) use entry_calls;
