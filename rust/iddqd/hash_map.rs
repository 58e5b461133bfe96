//! The maps with hashed keys: how they are made, their room, inserting, removing, and lending items.
//!
//! A call for one item makes all hashes and comparisons before the map changes: a panic of the caller's code leaves the map as it was. A
//! call for many (`retain`, `extend`) goes from item to item, and keeps what it did.
use super::guard::RefMut;
use super::held::{self, Hashed, Wraps};
use super::walk::{Iter, IterMut};
use super::*;

/// An item's slot, and the hashes of its keys, with which it is removed without code of the caller.
pub(super) type Known<const N: usize> = (ItemIndex, [u64; N]);

/// The slots that were found by the keys, each once.
fn each_once<const N: usize>(slots: [Option<ItemIndex>; N]) -> [Option<ItemIndex>; N] {
    let mut once = [None; N];
    for (n, slot) in slots.into_iter().enumerate() {
        once[n] = slot.filter(|slot| !once.iter().flatten().any(|it: &ItemIndex| it.number() == slot.number()));
    }
    once
}

macro_rules! calls {
    (
        $map:ident $item:ident $module:ident $held:ident $made_by:ident $count:literal ($gone:ty) ($($as_gone:tt)*):
        $($n:literal $rank:ident $k:ident $key:ident $upcast:ident $get:ident $get_mut:ident $remove:ident $contains:ident $find:ident;)*
    ) => {
        #[doc = concat!("A map of [`", stringify!($item), "`]s, with the calls of the map of this name in the crate iddqd.")]
        ///
        /// A call by a key takes constant time: it hashes the key once, and compares it once, but where two hashes of 64 bits are equal. An
        /// insert hashes each key of its item; so does a removal, and so does a guard when it is made and when it ends.
        pub struct $map<T: $item, #[cfg(feature = "std")] S: BuildHasher = DefaultHashBuilder, #[cfg(not(feature = "std"))] S: BuildHasher> {
            pub(super) map: crate::$map<held::$held::Held<T>, S>,
        }

        #[cfg(feature = "std")]
        impl<T: $item> $map<T> {
            /// Makes an empty map. It allocates nothing.
            #[inline]
            pub fn new() -> Self {
                Self::default()
            }

            /// Makes an empty map with room for `capacity` items.
            pub fn with_capacity(capacity: usize) -> Self {
                Self::with_capacity_and_hasher(capacity, DefaultHashBuilder::default())
            }
        }

        impl<T: $item, S: BuildHasher> $map<T, S> {
            /// Makes an empty map with this builder of hashers. It allocates nothing.
            pub fn with_hasher(hasher: S) -> Self {
                $map { map: crate::$map::with_hasher(hasher) }
            }

            /// Makes an empty map with this builder of hashers, and with room for `capacity` items.
            pub fn with_capacity_and_hasher(capacity: usize, hasher: S) -> Self {
                $map { map: must(crate::$map::with_capacity_and_hasher(capacity, hasher)) }
            }

            /// Makes a map of these items. It fails with the first item that has a key of an earlier one, and with those earlier items; the
            /// others are dropped.
            pub fn from_iter_unique<I: IntoIterator<Item = T>>(iter: I) -> Result<Self, DuplicateItem<T>>
            where
                S: Default,
            {
                let mut iter = iter.into_iter();
                let mut map = Self::default();
                map.reserve(iter.size_hint().0);
                while let Some(item) = iter.next() {
                    let found = map.conflicts(&item);
                    if found.iter().any(Option::is_some) {
                        let found = map.known(found);
                        let error = DuplicateItem { new: item, duplicates: map.take_all(found).into_iter().flatten().collect() };
                        // Rust leaks what a function returns if the `drop` of a local panics on the way out.
                        drop((map, iter));
                        return Err(error);
                    }
                    map.put([None; $count], item);
                }
                Ok(map)
            }

            /// Returns how many items fit before the map grows.
            pub fn capacity(&self) -> usize {
                self.map.capacity()
            }

            /// Returns whether there is no item.
            #[inline]
            pub fn is_empty(&self) -> bool {
                self.map.is_empty()
            }

            /// Returns how many items there are.
            #[inline]
            pub fn len(&self) -> usize {
                self.map.len()
            }

            /// Drops all items. The map keeps its room. If an item's `drop` panics, the others are dropped, and the map is empty.
            pub fn clear(&mut self) {
                // The proved map removes the items one by one if they are few, and hashes their keys. So the slots go first.
                clear_all(&mut self.map, |map| {
                    map.items_mut().clear();
                    map.clear();
                })
            }

            /// Makes room for this many more items.
            pub fn reserve(&mut self, additional: usize) {
                must(self.map.reserve(additional))
            }

            /// Makes room for this many more items. It fails if there is no memory for them, and then the map is as before.
            pub fn try_reserve(&mut self, additional: usize) -> Result<(), TryReserveError> {
                self.map.try_reserve(additional)
            }

            /// Iterates over the items, in the order of their slots.
            #[inline]
            pub fn iter(&self) -> $module::Iter<'_, T> {
                Iter(self.map.iter())
            }

            /// Inserts an item, unless another one has one of its keys.
            pub fn insert_unique(&mut self, value: T) -> Result<(), DuplicateItem<T, &T>> {
                match self.map.insert_unique(Wraps::wrap(value)) {
                    Ok(()) => Ok(()),
                    Err(refused) => {
                        let (item, found) = refused.into_parts();
                        let duplicates: Vec<&T> = found.into_iter().map(Wraps::item).collect();
                        if duplicates.is_empty() {
                            // The proved map refuses an item without such others only where there is no memory.
                            must(Err(()))
                        }
                        Err(DuplicateItem { new: item.into_item(), duplicates })
                    }
                }
            }

            /// Inserts an item in the place of those that have one of its keys, and returns them.
            #[doc(alias = "insert")]
            pub fn insert_overwrite(&mut self, value: T) -> $gone {
                let found = self.known(self.conflicts(&value));
                let (gone, _) = self.put(found, value);
                gone.into_iter().flatten() $($as_gone)*
            }

            // What follows is for the other files of this module.

            pub(super) fn at(&self, slot: ItemIndex) -> &T {
                SlotMap::slots(&self.map).item(slot).item()
            }

            pub(super) fn hashes(&self, item: &T) -> [u64; $count] {
                held::$held::Held::<T>::hashes(item, SlotMap::hasher(&self.map))
            }

            // The slots of the items that have one of the keys of this one.
            fn conflicts(&self, item: &T) -> [Option<ItemIndex>; $count] {
                each_once([$(self.$find(&item.$key())),*])
            }

            pub(super) fn known(&self, slots: [Option<ItemIndex>; $count]) -> [Option<Known<$count>>; $count] {
                slots.map(|slot| slot.map(|slot| (slot, self.hashes(self.at(slot)))))
            }

            pub(super) fn take(&mut self, slot: ItemIndex) -> T {
                let hashes = self.hashes(self.at(slot));
                self.take_known((slot, hashes))
            }

            // It runs no code of the caller.
            fn take_known(&mut self, (slot, hashes): Known<$count>) -> T {
                self.map.remove_slot(slot, $(Some(hashes[$n]),)* &mut Meter::new()).into_item()
            }

            // It runs no code of the caller.
            pub(super) fn take_all(&mut self, found: [Option<Known<$count>>; $count]) -> [Option<T>; $count] {
                found.map(|it| it.map(|it| self.take_known(it)))
            }

            // Inserts an item for which there is room. It runs no code of the caller.
            fn insert_known(&mut self, item: held::$held::Held<T>, hashes: [u64; $count]) -> ItemIndex {
                let at = ($(Vacancy::unknown(hashes[$n])),*);
                SlotMap::insert_into(&mut self.map, item, at, &mut Meter::new())
            }

            // Puts an item in the place of those, which are all that have one of its keys. Once the map changes, no code of the caller
            // runs. It returns what they were, and the item's slot.
            pub(super) fn put(&mut self, found: [Option<Known<$count>>; $count], value: T) -> ([Option<T>; $count], ItemIndex) {
                let hashes = self.hashes(&value);
                if found.iter().all(Option::is_none) {
                    must(self.map.try_reserve(1));
                }
                let gone = self.take_all(found);
                (gone, self.insert_known(Wraps::wrap(value), hashes))
            }
        }

        impl<T: $item, S: Clone + BuildHasher> $map<T, S> {
            /// Iterates over guards of the items, in the order of their slots.
            #[inline]
            pub fn iter_mut(&mut self) -> $module::IterMut<'_, T, S> {
                let builder = SlotMap::hasher(&self.map).clone();
                IterMut { items: self.map.items_mut().into_iter(), builder }
            }

            /// Drops the items for which `f` returns `false`, in the order of their slots. It takes a step for each slot. If `f` panics, those that it has seen are dropped or kept as it said, and
            /// the others stay.
            pub fn retain<F>(&mut self, mut f: F)
            where
                F: for<'b> FnMut($module::RefMut<'b, T, S>) -> bool,
            {
                let mut from = 0;
                while let Some(slot) = self.map.slot_from(from) {
                    from = slot.number() + 1;
                    if !f(self.guard(slot)) {
                        drop(self.take(slot));
                    }
                }
            }

            /// Gives room back that the items do not need. The items move to lower slots, in their order. Where there is no memory for a
            /// smaller map beside this one, the map stays as it is.
            pub fn shrink_to_fit(&mut self) {
                self.shrink_to(0)
            }

            /// Gives room back as `shrink_to_fit` does, but keeps the capacity at `min_capacity` at least, if it is not lower by now.
            pub fn shrink_to(&mut self, min_capacity: usize) {
                let (room, mut hashes) = (self.len().max(min_capacity), Vec::new());
                if self.capacity() <= room || hashes.try_reserve_exact(self.len()).is_err() {
                    return;
                }
                // The proved map hashes the keys while it moves the items. Here all code of the caller comes first.
                hashes.extend(self.iter().map(|item| self.hashes(item)));
                let Ok(smaller) = crate::$map::with_capacity_and_hasher(room, SlotMap::hasher(&self.map).clone()) else { return };
                for (item, hashes) in core::mem::replace(&mut self.map, smaller).into_iter().zip(hashes) {
                    self.insert_known(item, hashes);
                }
            }

            pub(super) fn guard(&mut self, slot: ItemIndex) -> $module::RefMut<'_, T, S> {
                let builder = SlotMap::hasher(&self.map).clone();
                RefMut::new(builder, self.map.items_mut().item_mut(slot))
            }
        }
    };
}

each_hash_map!(calls);
