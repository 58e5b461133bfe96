//! The maps of the Rust crate iddqd over the bench's rows, and their calls that the loops make. The keys are returned
//! by value, as the crate advises for small keys, and the hasher is the same as on the other side. `bench/beside` alone
//! compiles this file, since it needs the crate.
//!
//! The crate's maps have no `extend_unique`, no `rekey1`, and none of the calls that take items out one by one. Their loops are
//! what a caller of the crate has to write, the defaults of `Map`. The crate's map with three keys has no entries, so
//! both rows of `or_insert` are left out there. A crate of that name may lack the map with one key: the script looks for it.
use crate::calls::{Map, told};
use crate::hasher::FoldHasher;
use crate::workload::Row;
use iddqd::{BiHashItem, BiHashMap, TriHashItem, TriHashMap};
#[cfg(feature = "beside_one")]
use iddqd::{IdHashItem, IdHashMap};
use std::hash::BuildHasherDefault;
use std::ops::DerefMut;

pub type Builder = BuildHasherDefault<FoldHasher>;
#[cfg(feature = "beside_one")]
pub type One = IdHashMap<Row<1>, Builder>;
pub type Two = BiHashMap<Row<2>, Builder>;
pub type Three = TriHashMap<Row<3>, Builder>;

/// Implements a trait of items for a row, which has this many keys.
macro_rules! item {
    ($trait:ident $keys:literal: $($key_type:ident $key:ident $upcast:ident $rank:literal),*) => {
        impl $trait for Row<$keys> {
            $(
                type $key_type<'a> = u64;

                fn $key(&self) -> u64 {
                    self.keys[$rank]
                }

                fn $upcast<'short, 'long: 'short>(long: u64) -> u64 {
                    long
                }
            )*
        }
    };
}

#[cfg(feature = "beside_one")]
item!(IdHashItem 1: Key key upcast_key 0);
item!(BiHashItem 2: K1 key1 upcast_key1 0, K2 key2 upcast_key2 1);
item!(TriHashItem 3: K1 key1 upcast_key1 0, K2 key2 upcast_key2 1, K3 key3 upcast_key3 2);

macro_rules! map {
    ($map:ident $keys:literal, $get:ident $get_mut:ident $remove:ident, lacks $lacks:expr, $or_insert:expr, $($more:tt)*) => {
        impl Map<$keys> for $map<Row<$keys>, Builder> {
            const NAME: &'static str = "crate";
            const LACKS: &'static [&'static str] = $lacks;

            fn with_capacity(items: usize) -> Self {
                $map::with_capacity_and_hasher(items, Builder::default())
            }

            fn from_rows(rows: impl Iterator<Item = Row<$keys>>) -> Self {
                rows.collect()
            }

            fn from_unique_rows(rows: impl Iterator<Item = Row<$keys>>) -> Option<Self> {
                $map::from_iter_unique(rows).ok()
            }

            fn len(&self) -> usize {
                $map::len(self)
            }

            fn insert(&mut self, row: Row<$keys>) -> bool {
                self.insert_unique(row).is_ok()
            }

            fn try_insert(&mut self, row: Row<$keys>) -> Result<(), (Row<$keys>, [bool; $keys])> {
                self.insert_unique(row).map_err(|error| {
                    let has = |rank: usize| {
                        let mut found = error.duplicates().iter();
                        found.any(|found| found.keys[rank] == row.keys[rank])
                    };
                    (*error.new_item(), std::array::from_fn(has))
                })
            }

            fn or_insert(&mut self, row: Row<$keys>) -> Option<u64> {
                $or_insert(self, row)
            }

            fn overwrite(&mut self, row: Row<$keys>) -> usize {
                self.insert_overwrite(row).into_iter().count()
            }

            fn extend(&mut self, rows: impl Iterator<Item = Row<$keys>>) {
                Extend::extend(self, rows);
            }

            fn get(&self, key: u64) -> Option<&Row<$keys>> {
                self.$get(&key)
            }

            fn get_mut(&mut self, key: u64) -> Option<impl DerefMut<Target = Row<$keys>>> {
                self.$get_mut(key)
            }

            fn remove(&mut self, key: u64) -> Option<Row<$keys>> {
                self.$remove(key)
            }

            fn iter(&self) -> impl Iterator<Item = &Row<$keys>> {
                $map::iter(self)
            }

            fn for_lent(&self) -> u64 {
                let mut sum = 0u64;
                for row in self {
                    sum = sum.wrapping_add(row.keys[0]);
                }
                sum
            }

            fn iter_mut(
                &mut self,
            ) -> impl ExactSizeIterator<Item = impl DerefMut<Target = Row<$keys>>> {
                $map::iter_mut(self)
            }

            fn into_rows(self) -> impl Iterator<Item = Row<$keys>> {
                self.into_iter()
            }

            fn retain(&mut self, mut keep: impl FnMut(&Row<$keys>) -> bool) {
                $map::retain(self, |row| keep(&row));
            }

            fn retain_mut(&mut self, mut keep: impl FnMut(&mut Row<$keys>) -> bool) {
                $map::retain(self, |mut row| keep(&mut row));
            }

            fn clear(&mut self) {
                $map::clear(self);
            }

            fn shrink(&mut self) {
                self.shrink_to_fit();
            }

            fn reserve(&mut self, more: usize) {
                $map::reserve(self, more);
            }

            $($more)*
        }
    };
}

#[cfg(feature = "beside_one")]
map!(
    IdHashMap 1, get get_mut remove, lacks &[],
    |map: &mut One, row: Row<1>| Some(told(&map.entry(row.keys[0]).or_insert(row))),
);

map!(
    BiHashMap 2, get1 get1_mut remove1, lacks &[],
    |map: &mut Two, row: Row<2>| {
        let mut held = map.entry(row.keys[0], row.keys[1]).or_insert(row);
        held.as_unique().map(|held| told(&held))
    },
    fn get_unique(&self, [key1, key2]: [u64; 2]) -> Option<&Row<2>> {
        BiHashMap::get_unique(self, &key1, &key2)
    }

    fn remove_unique(&mut self, [key1, key2]: [u64; 2]) -> Option<Row<2>> {
        BiHashMap::remove_unique(self, key1, key2)
    }
);

map!(
    TriHashMap 3, get1 get1_mut remove1, lacks &["or_insert, vacant", "or_insert, occupied"],
    |_: &mut Three, _: Row<3>| unreachable!("the map has no entries"),
    fn get_unique(&self, [key1, key2, key3]: [u64; 3]) -> Option<&Row<3>> {
        TriHashMap::get_unique(self, &key1, &key2, &key3)
    }

    fn remove_unique(&mut self, [key1, key2, key3]: [u64; 3]) -> Option<Row<3>> {
        TriHashMap::remove_unique(self, key1, key2, key3)
    }
);
