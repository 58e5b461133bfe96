#![doc = include_str!("FROM_IDDQD.md")]
use crate::iddqd_store::{Costs, FindsBy, ItemIndex, ItemSet, Meter, Query, SlotMap, TryReserveError, Vacancy};
use crate::rattle::must;
use ::alloc::boxed::Box;
use ::alloc::rc::Rc;
use ::alloc::sync::Arc;
use ::alloc::vec::Vec;
use core::borrow::Borrow;
use core::cell::Cell;
use core::cmp::Ordering;
use core::fmt;
use core::hash::{BuildHasher, Hash, Hasher};
use core::iter::FusedIterator;
use core::ops::{Bound, Deref, DerefMut, Range, RangeBounds, RangeFrom, RangeFull, RangeInclusive, RangeTo, RangeToInclusive};

// The maps with hashed keys have one text in each file, which `$text` names. Of a map: its name, its item, its module here, that of its
// items' newtypes, that of the proved map; how many keys an item has; what an insert returns of the items that it replaced, and how.
// Of a key: its number, its rank, its names in the item's trait, and the names of the calls by it.
macro_rules! each_hash_map {
    ($text:ident) => {
        $text! {
            IdHashMap IdHashItem id_hash_map id iddqd_id 1 (Option<T>) (.next()):
            0 First Key key upcast_key get get_mut remove contains_key find;
        }
        $text! {
            BiHashMap BiHashItem bi_hash_map bi iddqd_bi 2 (Vec<T>) (.collect()):
            0 First K1 key1 upcast_key1 get1 get1_mut remove1 contains_key1 find1;
            1 Second K2 key2 upcast_key2 get2 get2_mut remove2 contains_key2 find2;
        }
        $text! {
            TriHashMap TriHashItem tri_hash_map tri iddqd_tri 3 (Vec<T>) (.collect()):
            0 First K1 key1 upcast_key1 get1 get1_mut remove1 contains_key1 find1;
            1 Second K2 key2 upcast_key2 get2 get2_mut remove2 contains_key2 find2;
            2 Third K3 key3 upcast_key3 get3 get3_mut remove3 contains_key3 find3;
        }
    };
}

mod bi_entry;
mod bi_entry_items;
mod duplicate;
pub mod guard;
mod hash_lookup;
mod hash_map;
mod hash_traits;
mod held;
mod id_entry;
mod item;
mod macros;
mod one_key_entry;
mod ord_entry;
mod ord_map;
mod ord_search;
mod ord_traits;
mod query;
pub mod walk;

#[cfg(feature = "std")]
pub use crate::DefaultHashBuilder;
pub use crate::{
    __bi_hash_map as bi_hash_map, __id_hash_map as id_hash_map, __id_ord_map as id_ord_map, __tri_hash_map as tri_hash_map, bi_upcast, id_upcast,
    tri_upcast,
};
pub use bi_hash_map::{BiHashItem, BiHashMap};
pub use id_hash_map::{IdHashItem, IdHashMap};
pub use id_ord_map::{IdOrdItem, IdOrdMap};
pub use query::{Comparable, Equivalent};
pub use tri_hash_map::{TriHashItem, TriHashMap};

/// The errors of the maps.
pub mod errors {
    pub use super::duplicate::DuplicateItem;
    pub use crate::errors::TryReserveError;
}

use errors::DuplicateItem;
use id_ord_map::KeyRange;

macro_rules! module {
    ($map:ident $item:ident $module:ident $held:ident $($entries:item)*) => {
        #[doc = concat!("[`", stringify!($map), "`] and what belongs to it.")]
        pub mod $module {
            use super::*;

            pub use super::hash_map::$map;
            pub use super::item::$item;
            $($entries)*

            type Held<T> = held::$held::Held<T>;

            /// The items of a map, by reference.
            pub type Iter<'a, T> = walk::Iter<crate::iddqd_store::Iter<'a, Held<T>>>;

            /// The items of a map, by value.
            pub type IntoIter<T> = walk::IntoIter<crate::iddqd_store::IntoIter<Held<T>>>;

            /// Guards of the items of a map. All of them may be alive at once.
            pub type IterMut<'a, T, #[cfg(feature = "std")] S = DefaultHashBuilder, #[cfg(not(feature = "std"))] S> =
                walk::IterMut<<&'a mut ItemSet<Held<T>> as IntoIterator>::IntoIter, S>;

            /// A guard of an item: [`guard::RefMut`].
            pub type RefMut<'a, T, #[cfg(feature = "std")] S = DefaultHashBuilder, #[cfg(not(feature = "std"))] S> =
                guard::RefMut<'a, Held<T>, S>;
        }
    };
}

module!(IdHashMap IdHashItem id_hash_map id pub use super::id_entry::{Entry, OccupiedEntry, VacantEntry};);
module!(BiHashMap BiHashItem bi_hash_map bi
    pub use super::bi_entry::{Entry, OccupiedEntry, VacantEntry};
    pub use super::bi_entry_items::{OccupiedEntryMut, OccupiedEntryRef};
);
module!(TriHashMap TriHashItem tri_hash_map tri);

/// [`IdOrdMap`] and what belongs to it.
pub mod id_ord_map {
    use super::held::ord::Held;
    use super::*;

    pub use super::item::IdOrdItem;
    pub use super::ord_entry::{Entry, OccupiedEntry, VacantEntry};
    pub use super::ord_map::IdOrdMap;
    pub use super::ord_search::KeyRange;

    /// What hashes a key at both ends of a guard: with a random seed where there is one.
    #[cfg(feature = "std")]
    pub(super) type GuardBuilder = DefaultHashBuilder;
    #[cfg(not(feature = "std"))]
    pub(super) type GuardBuilder = core::hash::BuildHasherDefault<crate::FoldHasher>;

    /// The items of a map in order, by reference.
    pub type Iter<'a, T> = walk::Iter<crate::iddqd_order::Iter<'a, Held<T>>>;

    /// The items of a map in order, by value.
    pub type IntoIter<T> = walk::IntoIter<<crate::IdOrdMap<Held<T>> as IntoIterator>::IntoIter>;

    /// Guards of the items of a map in order. All of them may be alive at once.
    pub type IterMut<'a, T> = walk::IterMut<<&'a mut crate::iddqd_order::Blocks<Held<T>> as IntoIterator>::IntoIter, GuardBuilder>;

    /// A guard of an item: [`guard::RefMut`].
    pub type RefMut<'a, T> = guard::RefMut<'a, Held<T>, GuardBuilder>;
}

/// What a function shows.
struct Shown<F>(F);

impl<F: Fn(&mut fmt::Formatter<'_>) -> fmt::Result> fmt::Debug for Shown<F> {
    fn fmt(&self, f: &mut fmt::Formatter<'_>) -> fmt::Result {
        (self.0)(f)
    }
}

/// Calls `clear`, and once more if an item's `drop` panics in it: then items are gone that the map still counts.
fn clear_all<M>(map: &mut M, clear: fn(&mut M)) {
    struct Again<'a, M>(&'a mut M, Option<fn(&mut M)>);

    impl<M> Drop for Again<'_, M> {
        fn drop(&mut self) {
            if let Some(clear) = self.1 {
                clear(self.0)
            }
        }
    }

    let mut again = Again(map, Some(clear));
    clear(again.0);
    again.1 = None;
}
