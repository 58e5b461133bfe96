//! One face for the calls that all seven maps have.
use super::item::{Item, Key, step};
use super::list::Order;
use super::{Few, Good, call};
use facetweave::*;
use std::hash::BuildHasher;

/// An item that was refused, and which of its keys are taken; none is if there was no memory.
pub type Refused = (Item, [bool; 3]);

pub trait Table: Sized {
    const NAME: &'static str;
    /// How many keys an item has.
    const WIDTH: usize;
    const ORDER: Order;
    fn made() -> Self;
    fn roomy(count: usize) -> Option<Self>;
    fn of(items: Vec<Item>) -> Self;
    fn try_of(items: Vec<Item>) -> Result<Self, Item>;
    fn unique_of(items: Vec<Item>) -> Result<Self, Item>;
    fn insert(&mut self, item: Item) -> Result<(), Refused>;
    fn overwrite(&mut self, item: Item) -> Result<Vec<Item>, Item>;
    fn add_all(&mut self, items: Vec<Item>);
    fn try_add_all(&mut self, items: Vec<Item>) -> Result<(), Item>;
    /// The error has the items before the refused one.
    fn add_unique(&mut self, items: Vec<Item>) -> Result<(), (Vec<Item>, Refused)>;
    fn find(&self, rank: usize, key: &Key) -> Option<&Item>;
    fn has(&self, rank: usize, key: &Key) -> bool;
    fn take(&mut self, rank: usize, key: &Key) -> Option<Item>;
    /// The error is whether an item had the key, and the new item.
    fn move_to(&mut self, rank: usize, key: &Key, item: Item) -> Result<Item, (bool, Item)>;
    fn write(&mut self, rank: usize, key: &Key, f: impl FnOnce(&Item) -> u64) -> bool;
    fn keep(&mut self, f: impl FnMut(&Item) -> bool);
    fn all(&self) -> Vec<&Item>;
    fn count(&self) -> usize;
    fn is_bare(&self) -> bool;
    fn room(&self) -> usize;
    fn more(&mut self, count: usize) -> bool;
    fn try_more(&mut self, count: usize) -> bool;
    fn shrink(&mut self, least: usize) -> bool;
    fn shrink_all(&mut self) -> bool;
    fn empty(&mut self);
    fn copy(&self) -> Self;
    fn try_copy(&self) -> Option<Self>;
    fn out(self) -> Vec<Item>;
    fn same(&self, other: &Self) -> bool;
    fn text(&self) -> String;
}

/// What is told of up to three keys, in no memory of its own.
fn three(taken: &[bool]) -> [bool; 3] {
    std::array::from_fn(|n| taken.get(n).copied().unwrap_or(false))
}

/// An iterator of a caller, each of whose steps may panic.
pub fn steps(items: Vec<Item>) -> impl Iterator<Item = Item> {
    items.into_iter().inspect(|_| step())
}

/// The item that `from_iter_unique` refused.
fn refused<L>(error: FromIterError<Item, L>) -> Item {
    match error {
        FromIterError::Duplicate(it) => it.into_parts().0,
        FromIterError::Memory(item) => item,
    }
}

macro_rules! tables {
    ($([$($s:ident)?] $map:ident<$item:ident $(, $hasher:ident)?>, $module:ident, $width:literal, $order:ident $(.$via:ident)?, $roomy:expr,
       $parts:expr, [$($taken:ident),*], [$($rank:literal $get:ident $has:ident $remove:ident $rekey:ident $update:ident),*];)*) => {
        $(impl<$($s: BuildHasher + Clone + Default)?> Table for $map<$item $(, $hasher)?> {
            const NAME: &'static str = stringify!($map);
            const WIDTH: usize = $width;
            const ORDER: Order = Order::$order;

            fn made() -> Self {
                call!("default", Default::default())
            }
            fn roomy(count: usize) -> Option<Self> {
                let make: fn(usize) -> Result<Self, TryReserveError> = $roomy;
                make(count).ok()
            }
            fn of(items: Vec<Item>) -> Self {
                call!("from_iter", steps(items).collect())
            }
            fn try_of(items: Vec<Item>) -> Result<Self, Item> {
                call!("try_from_iter", Self::try_from_iter(steps(items))).map_err(|e| e.value)
            }
            fn unique_of(items: Vec<Item>) -> Result<Self, Item> {
                call!("from_iter_unique", Self::from_iter_unique(steps(items))).map_err($parts)
            }
            fn insert(&mut self, item: Item) -> Result<(), Refused> {
                call!(self.try_insert(item)).map_err(|e| (e.item, three(&[$(e.$taken),*])))
            }
            fn overwrite(&mut self, item: Item) -> Result<Vec<Item>, Item> {
                call!(self.insert_overwrite(item)).map(|gone| gone.into_iter().collect()).map_err(|e| e.value)
            }
            fn add_all(&mut self, items: Vec<Item>) {
                call!("extend", Extend::extend(self, steps(items)))
            }
            fn try_add_all(&mut self, items: Vec<Item>) -> Result<(), Item> {
                call!("try_extend", self.try_extend(steps(items))).map_err(|e| e.value)
            }
            fn add_unique(&mut self, items: Vec<Item>) -> Result<(), (Vec<Item>, Refused)> {
                call!("extend_unique", self.extend_unique(steps(items))).map_err(|mut e| {
                    let (before, e) = (std::mem::take(&mut e.before), e$(.$via)?);
                    (before, (e.item, three(&[$(e.$taken),*])))
                })
            }
            fn find(&self, rank: usize, key: &Key) -> Option<&Item> {
                match rank { $($rank => call!(self.$get(key)),)* _ => unreachable!() }
            }
            fn has(&self, rank: usize, key: &Key) -> bool {
                match rank { $($rank => call!(self.$has(key)),)* _ => unreachable!() }
            }
            fn take(&mut self, rank: usize, key: &Key) -> Option<Item> {
                match rank { $($rank => call!(self.$remove(key)),)* _ => unreachable!() }
            }
            fn move_to(&mut self, rank: usize, key: &Key, item: Item) -> Result<Item, (bool, Item)> {
                match rank { $($rank => call!(self.$rekey(key, item)),)* _ => unreachable!() }
                    .map_err(|e| (matches!(e, $module::NotReplaced::Duplicate(_)), e.into_item()))
            }
            fn write(&mut self, rank: usize, key: &Key, f: impl FnOnce(&Item) -> u64) -> bool {
                match rank { $($rank => call!(self.$update(key, f)),)* _ => unreachable!() }
            }
            fn keep(&mut self, f: impl FnMut(&Item) -> bool) {
                call!(self.retain(f))
            }
            fn all(&self) -> Vec<&Item> {
                let mut walk = call!(self.iter());
                let mut out = Vec::with_capacity(self.len());
                while let Some(item) = call!("iter", walk.next()) {
                    out.push(item);
                }
                assert!(walk.len() == 0 && walk.next().is_none());
                out
            }
            fn count(&self) -> usize {
                call!(self.len())
            }
            fn is_bare(&self) -> bool {
                call!(self.is_empty())
            }
            fn room(&self) -> usize {
                call!(self.capacity())
            }
            fn more(&mut self, count: usize) -> bool {
                call!(self.reserve(count)).is_ok()
            }
            fn try_more(&mut self, count: usize) -> bool {
                call!(self.try_reserve(count)).is_ok()
            }
            fn shrink(&mut self, least: usize) -> bool {
                call!(self.shrink_to(least)).is_ok()
            }
            fn shrink_all(&mut self) -> bool {
                call!(self.shrink_to_fit()).is_ok()
            }
            fn empty(&mut self) {
                call!(self.clear())
            }
            fn copy(&self) -> Self {
                call!(self.clone())
            }
            fn try_copy(&self) -> Option<Self> {
                call!(self.try_clone()).ok()
            }
            fn out(self) -> Vec<Item> {
                let mut walk = call!(self.into_iter());
                let mut out = Vec::with_capacity(walk.len());
                while let Some(item) = call!("into_iter", walk.next()) {
                    out.push(item);
                }
                out
            }
            fn same(&self, other: &Self) -> bool {
                call!("==", self == other)
            }
            fn text(&self) -> String {
                call!("{:?}", format!("{self:?}"))
            }
        })*
    };
}

tables! {
    [S] IdHashMap<Item, S>, id_hash_map, 1, None, |n| call!("with_capacity_and_hasher", Self::with_capacity_and_hasher(n, S::default())),
        refused, [taken], [0 get contains_key remove rekey update];
    [S] BiHashMap<Item, S>, bi_hash_map, 2, None, |n| call!("with_capacity_and_hasher", Self::with_capacity_and_hasher(n, S::default())),
        refused, [taken1, taken2],
        [0 get1 contains_key1 remove1 rekey1 update1, 1 get2 contains_key2 remove2 rekey2 update2];
    [S] TriHashMap<Item, S>, tri_hash_map, 3, None, |n| call!("with_capacity_and_hasher", Self::with_capacity_and_hasher(n, S::default())),
        refused, [taken1, taken2, taken3],
        [0 get1 contains_key1 remove1 rekey1 update1, 1 get2 contains_key2 remove2 rekey2 update2, 2 get3 contains_key3 remove3 rekey3 update3];
    [] IdOrdMap<Item>, id_ord_map, 1, Key, |n| call!("with_capacity", Self::with_capacity(n)),
        refused, [taken], [0 get contains_key remove rekey update];
    [S] IdHashOrdMap<Item, S>, id_hash_map, 1, Sort.rejected, |n| call!("with_capacity_and_hasher", Self::with_capacity_and_hasher(n, S::default())),
        |e| e.rejected.item, [taken], [0 get contains_key remove rekey update];
    [S] BiHashOrdMap<Item, S>, bi_hash_map, 2, Sort.rejected, |n| call!("with_capacity_and_hasher", Self::with_capacity_and_hasher(n, S::default())),
        |e| e.rejected.item, [taken1, taken2],
        [0 get1 contains_key1 remove1 rekey1 update1, 1 get2 contains_key2 remove2 rekey2 update2];
    [S] TriHashOrdMap<Item, S>, tri_hash_map, 3, Sort.rejected, |n| call!("with_capacity_and_hasher", Self::with_capacity_and_hasher(n, S::default())),
        |e| e.rejected.item, [taken1, taken2, taken3],
        [0 get1 contains_key1 remove1 rekey1 update1, 1 get2 contains_key2 remove2 rekey2 update2, 2 get3 contains_key3 remove3 rekey3 update3];
}

/// Makes a test of each map: with a good hasher, and with one that gives all keys five hashes.
#[macro_export]
macro_rules! each_map {
    ($run:ident) => {
        $crate::each_map!($run; id_hash IdHashMap; bi_hash BiHashMap; tri_hash TriHashMap; id_hash_ord IdHashOrdMap; bi_hash_ord BiHashOrdMap;
            tri_hash_ord TriHashOrdMap);
        #[test]
        fn id_ord() {
            $run::<facetweave::IdOrdMap<Item>>(true);
        }
    };
    ($run:ident; $($name:ident $map:ident);*) => {
        $(#[test]
        fn $name() {
            $run::<facetweave::$map<Item, $crate::common::Good>>(true);
            $run::<facetweave::$map<Item, $crate::common::Few>>(false);
        })*
    };
}

/// Makes a call for each map and both hashers.
#[macro_export]
macro_rules! all_maps {
    ($run:ident $arguments:tt) => {
        $crate::all_maps!($run $arguments IdHashMap BiHashMap TriHashMap IdHashOrdMap BiHashOrdMap TriHashOrdMap);
        $run::<facetweave::IdOrdMap<Item>> $arguments;
    };
    ($run:ident $arguments:tt $($map:ident)*) => {
        $($crate::all_maps!(@ $run $map $arguments);)*
    };
    (@ $run:ident $map:ident $arguments:tt) => {
        $run::<facetweave::$map<Item, $crate::common::Good>> $arguments;
        $run::<facetweave::$map<Item, $crate::common::Few>> $arguments;
    };
}
