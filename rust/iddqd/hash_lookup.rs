//! The maps with hashed keys: the calls by a key, and by all keys of an item.
//!
//! Calls that read take any query by reference. Calls that write take a key by value, as iddqd's do: the key may be borrowed, so that
//! no copy is made.
use super::query::Nth;
use super::*;

macro_rules! lookups {
    (
        $map:ident $item:ident $module:ident $held:ident $made_by:ident $count:literal $gone:tt $as_gone:tt:
        $($n:literal $rank:ident $k:ident $key:ident $upcast:ident $get:ident $get_mut:ident $remove:ident $contains:ident $find:ident;)*
    ) => {
        impl<T: $item, S: BuildHasher> $map<T, S> {
            $(
                /// Returns whether an item has this key.
                pub fn $contains<'a, Q>(&'a self, $key: &Q) -> bool
                where
                    Q: Hash + Equivalent<T::$k<'a>> + ?Sized,
                {
                    self.$find($key).is_some()
                }

                /// Returns the item that has this key.
                #[inline]
                pub fn $get<'a, Q>(&'a self, $key: &Q) -> Option<&'a T>
                where
                    Q: Hash + Equivalent<T::$k<'a>> + ?Sized,
                {
                    Some(self.at(self.$find($key)?))
                }

                /// Removes the item that has this key, and returns it.
                pub fn $remove(&mut self, $key: T::$k<'_>) -> Option<T> {
                    let slot = self.$find(&T::$upcast($key))?;
                    Some(self.take(slot))
                }

                #[inline]
                pub(super) fn $find<'a, Q>(&'a self, query: &Q) -> Option<ItemIndex>
                where
                    Q: Hash + Equivalent<T::$k<'a>> + ?Sized,
                {
                    let mut pass = 0;
                    loop {
                        let nth = Nth { query, passed: &Cell::new(pass) };
                        let (slot, _) = FindsBy::<crate::$made_by::ranks::$rank>::slot_by(&self.map, nth, &mut Costs::new())?;
                        if query.equivalent(&self.at(slot).$key()) {
                            return Some(slot);
                        }
                        pass += 1;
                    }
                }
            )*
        }

        impl<T: $item, S: Clone + BuildHasher> $map<T, S> {
            $(
                /// Returns a guard of the item that has this key.
                pub fn $get_mut(&mut self, $key: T::$k<'_>) -> Option<$module::RefMut<'_, T, S>> {
                    let slot = self.$find(&T::$upcast($key))?;
                    Some(self.guard(slot))
                }
            )*
        }
    };
}

each_hash_map!(lookups);

macro_rules! unique {
    (
        $map:ident $item:ident $module:ident:
        $find:ident $key1:ident $k1:ident $q1:ident $upcast1:ident, $($key:ident $k:ident $q:ident $upcast:ident),*
    ) => {
        impl<T: $item, S: BuildHasher> $map<T, S> {
            fn find_unique<'a, $q1, $($q),*>(&'a self, $key1: &$q1, $($key: &$q),*) -> Option<ItemIndex>
            where
                $q1: Hash + Equivalent<T::$k1<'a>> + ?Sized,
                $($q: Equivalent<T::$k<'a>> + ?Sized,)*
            {
                let slot = self.$find($key1)?;
                let item = self.at(slot);
                ($($key.equivalent(&item.$key()))&&*).then_some(slot)
            }

            /// Returns whether one item has all these keys.
            pub fn contains_key_unique<'a, $q1, $($q),*>(&'a self, $key1: &$q1, $($key: &$q),*) -> bool
            where
                $q1: Hash + Equivalent<T::$k1<'a>> + ?Sized,
                $($q: Hash + Equivalent<T::$k<'a>> + ?Sized,)*
            {
                self.find_unique($key1, $($key),*).is_some()
            }

            /// Returns the item that has all these keys.
            pub fn get_unique<'a, $q1, $($q),*>(&'a self, $key1: &$q1, $($key: &$q),*) -> Option<&'a T>
            where
                $q1: Hash + Equivalent<T::$k1<'a>> + ?Sized,
                $($q: Hash + Equivalent<T::$k<'a>> + ?Sized,)*
            {
                Some(self.at(self.find_unique($key1, $($key),*)?))
            }

            /// Removes the item that has all these keys, and returns it.
            pub fn remove_unique(&mut self, $key1: T::$k1<'_>, $($key: T::$k<'_>),*) -> Option<T> {
                let slot = self.find_unique(&T::$upcast1($key1), $(&T::$upcast($key)),*)?;
                Some(self.take(slot))
            }
        }

        impl<T: $item, S: Clone + BuildHasher> $map<T, S> {
            /// Returns a guard of the item that has all these keys.
            pub fn get_mut_unique(&mut self, $key1: T::$k1<'_>, $($key: T::$k<'_>),*) -> Option<$module::RefMut<'_, T, S>> {
                let slot = self.find_unique(&T::$upcast1($key1), $(&T::$upcast($key)),*)?;
                Some(self.guard(slot))
            }
        }
    };
}

unique!(BiHashMap BiHashItem bi_hash_map: find1 key1 K1 Q1 upcast_key1, key2 K2 Q2 upcast_key2);
unique!(TriHashMap TriHashItem tri_hash_map: find1 key1 K1 Q1 upcast_key1, key2 K2 Q2 upcast_key2, key3 K3 Q3 upcast_key3);
