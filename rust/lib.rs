#![doc = include_str!("README.md")]
#![cfg_attr(not(feature = "std"), no_std)]
#![forbid(unsafe_code)]

#[cfg(not(target_pointer_width = "64"))]
compile_error!("facetweave is for targets of 64 bits, since the proofs of its maps are: build for one, as x86_64 or aarch64");

extern crate alloc;

#[deny(clippy::disallowed_methods)]
#[path = "std/mod.rs"]
mod rattle;

include!(concat!(env!("OUT_DIR"), "/maps.rs"));

pub mod iddqd;
#[deny(clippy::disallowed_methods)]
mod traits;

#[doc(inline)]
pub use bi_hash_map::{BiHashItem, BiHashItemMut, BiHashMap};
#[doc(inline)]
pub use errors::{AllocError, DuplicateItem, FromIterError, InsertReason, MemoryRefused, TryReserveError};
#[doc(inline)]
pub use id_hash_map::{IdHashItem, IdHashItemMut, IdHashMap};
#[doc(inline)]
pub use id_ord_map::{IdOrdItem, IdOrdItemMut, IdOrdMap};
#[doc(inline)]
pub use iddqd_store::{Difference, Equivalent, ItemPair, Query, Row1, Row2, Row3};
#[cfg(feature = "std")]
#[doc(inline)]
pub use rattle::hash::DefaultHashBuilder;
#[doc(inline)]
pub use rattle::hash::FoldHasher;
#[doc(inline)]
pub use sorted::{BiHashOrdMap, IdHashOrdMap, Sortable, Sorted, TriHashOrdMap};
#[doc(inline)]
pub use tri_hash_map::{TriHashItem, TriHashItemMut, TriHashMap};

/// [`IdHashMap`]: items with one hashed key.
///
/// Begin with [`IdHashMap::try_insert`], [`get`](IdHashMap::get), [`data_mut`](IdHashMap::data_mut) and [`remove`](IdHashMap::remove). An item says
/// what its key is by [`IdHashItem`], and what may be written in place by [`IdHashItemMut`]; [`Row1`] does so for you. The other types are what calls
/// return: errors, entries, guards and iterators. The bounds `Ranked` and `Hashed` hold for every item.
pub mod id_hash_map {
    pub use crate::iddqd_id::*;
}

/// [`BiHashMap`]: items with two hashed keys, each unique.
///
/// Begin with [`BiHashMap::try_insert`], [`get1`](BiHashMap::get1), [`data1_mut`](BiHashMap::data1_mut) and [`remove1`](BiHashMap::remove1), which
/// have siblings for the second key. An item says what its keys are by [`BiHashItem`], and what may be written in place by [`BiHashItemMut`];
/// [`Row2`] does so for you. The other types are what calls return: errors, entries, guards and iterators. The bounds `Ranked` and `Hashed` hold for
/// every item.
pub mod bi_hash_map {
    pub use crate::iddqd_bi::*;
}

/// [`TriHashMap`]: items with three hashed keys, each unique.
///
/// Begin with [`TriHashMap::try_insert`], [`get1`](TriHashMap::get1), [`data1_mut`](TriHashMap::data1_mut) and [`remove1`](TriHashMap::remove1),
/// which have siblings for the other keys. An item says what its keys are by [`TriHashItem`], and what may be written in place by
/// [`TriHashItemMut`]; [`Row3`] does so for you. The other types are what calls return: errors, entries, guards and iterators. The bounds `Ranked`
/// and `Hashed` hold for every item.
pub mod tri_hash_map {
    pub use crate::iddqd_tri::*;
}

/// [`IdOrdMap`]: items in the order of their keys, each unique.
///
/// Begin with [`IdOrdMap::try_insert`], [`get`](IdOrdMap::get), [`range`](IdOrdMap::range), [`first`](IdOrdMap::first) and
/// [`pop_first`](IdOrdMap::pop_first). An item says what its key is by [`IdOrdItem`], and what may be written in place by [`IdOrdItemMut`];
/// [`Row1`] does so for you. [`Prefix`](id_ord_map::Prefix) and [`First`](id_ord_map::First) find the keys that begin alike. The other types are what
/// calls return.
pub mod id_ord_map {
    pub use crate::iddqd_ord::*;
}

/// [`Sorted`]: a hash map that also keeps its items in an order, in which several may be equal.
///
/// Name it by [`IdHashOrdMap`], [`BiHashOrdMap`] or [`TriHashOrdMap`], for one, two or three keys. Begin with [`Sorted::try_insert`],
/// [`first`](Sorted::first), [`range`](Sorted::range), [`pop_to`](Sorted::pop_to) and [`replace`](Sorted::replace). An item says what it is ordered
/// by with [`Sortable`]. [`inside`](Sorted::inside) is the hash map, with its lookups. Code that serves all three is generic over a
/// [`SlotMap`](sorted::SlotMap), [`FindsBy`](sorted::FindsBy) or [`StoresData`](sorted::StoresData).
pub mod sorted {
    pub use crate::iddqd_sorted::*;
    pub use crate::iddqd_store::{FindsBy, SlotMap, StoresData};
}

/// How to read what is folded below "Proved" and "Laws".
///
/// Below a function stand its clauses: what holds when it returns (`ensures`), and what its caller has to see to (`requires`). Below a trait and its
/// functions stand its laws, which its implementor has to keep. A checker has proved each clause from the text of the function and the laws; Rust
/// checks neither.
///
/// | Word | What it says |
/// |---|---|
/// | `ensures granted { .. }` | a clause, with its name |
/// | `x.now`; `x.old`, `x.new` | what a reference `x` shows; what a `&mut` shows before and after the call |
/// | `self`, `result` | the map, or what the function belongs to; what it returns |
/// | `bag map.now` | the list of the map's items, in no order; `items` of an ordered map, in the order of the keys |
/// | `IsPermutation a b` | the lists have the same items: `IsPermutation (bag self.new) (item ∷ bag self.old)` says that one item was inserted |
/// | `a ∷ b`, `[]` | the list `b` with `a` before it; the empty list |
/// | `IfOk`, `IfErr`, `IfSome` | if a result is `Ok(v)`, what follows holds for `v`; likewise for an error and for an `Option` |
/// | `OnOk`, `OnErr` | if a result is `Ok`, or an error, what follows holds |
/// | `has1 .. q` | the test whether an item has the first key that the query `q` stands for |
/// | `IsOnly p bag x` | `x` is the only item that passes the test `p`, or `None` |
/// | `IsSound`, `T.ranks` | no two items have an equal key of the same rank; the comparisons of the keys, rank by rank: the first key has the first rank |
/// | `conflicts_of .. bag x` | the items that have a key of `x` |
/// | `T.key1`, `T.put` | what a trait gives: an item's first key; the item with other data |
/// | `capacity`, `builder` | how many items fit; what makes the hashes |
/// | `λ x. ..`, `→`, `×`, `≡` | a function of `x`; if .. then; and; equal |
///
/// All words stand in `docs/DEFINITIONS.md` and `docs/words.md` of the repository.
pub mod contracts {}

/// What the maps are made of, for tests.
#[doc(hidden)]
pub mod shared {
    pub use crate::iddqd_store::*;
}

/// The errors that the maps have in common: a key that is taken, and memory that ran out. Each map's module has those of its own calls.
pub mod errors {
    pub use crate::iddqd_store::{DuplicateItem, FromIterError, InsertReason, MemoryRefused, TryReserveError};
    pub use crate::rattle::alloc::AllocError;
}
