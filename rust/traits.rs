//! Traits of Rust's std whose functions the proved text has by the same names.
use crate::{iddqd_bi, iddqd_id, iddqd_ord, iddqd_order, iddqd_sorted, iddqd_store, iddqd_tri};
use core::error::Error;
use core::fmt::{Debug, Formatter};
use core::hash::BuildHasher;

impl<T> Clone for iddqd_store::Iter<'_, T> {
    fn clone(&self) -> Self {
        iddqd_store::Iter::clone(self)
    }
}

impl<T> Default for iddqd_store::Iter<'_, T> {
    fn default() -> Self {
        iddqd_store::Iter::default()
    }
}

impl<T> Clone for iddqd_order::Iter<'_, T> {
    fn clone(&self) -> Self {
        iddqd_order::Iter::clone(self)
    }
}

impl<T> Default for iddqd_order::Iter<'_, T> {
    fn default() -> Self {
        iddqd_order::Iter::default()
    }
}

impl<T: iddqd_sorted::Sortable> Clone for iddqd_sorted::Iter<'_, T> {
    fn clone(&self) -> Self {
        iddqd_sorted::Iter::clone(self)
    }
}

impl<T> Clone for iddqd_store::ShortIter<'_, T> {
    fn clone(&self) -> Self {
        iddqd_store::ShortIter::clone(self)
    }
}

impl<M: iddqd_store::SlotMap> Clone for iddqd_sorted::Sorted<M>
where
    M::Item: iddqd_sorted::Sortable + Clone,
    M::FirstKey: Ord,
    M::Builder: Clone,
{
    fn clone(&self) -> Self {
        crate::rattle::must(self.try_clone())
    }
}

/// The traits of laws: each type keeps them that has what they stand on.
macro_rules! laws {
    ($($of:ident: $item:ident;)*) => {
        $(impl<T: $of::$item + Clone> $of::ClonesKeys for T {}
        impl<T: core::hash::BuildHasher + Clone> $of::ClonesHashes for T {})*
    };
}

laws! {
    iddqd_id: IdHashItem;
    iddqd_bi: BiHashItem;
    iddqd_tri: TriHashItem;
}

impl<T: iddqd_ord::IdOrdItem + Clone> iddqd_ord::ClonesKeys for T {}

/// The default builder of each map is the one of this crate.
#[cfg(feature = "std")]
const _: [fn() -> crate::DefaultHashBuilder; 3] =
    [iddqd_id::DefaultHashBuilder::new, iddqd_bi::DefaultHashBuilder::new, iddqd_tri::DefaultHashBuilder::new];

// A map of the items of an array: a later item replaces those that conflict with it, as `collect` has it. The builder is the
// default one, as std's maps have it, so that no type has to be named.
macro_rules! from_array {
    ($($(#[$when:meta])? $map:ident $item:ident;)*) => {
        $(
            $(#[$when])?
            impl<T: crate::$item, const N: usize> From<[T; N]> for crate::$map<T> {
                fn from(items: [T; N]) -> Self {
                    crate::rattle::must(Self::try_from_iter(items))
                }
            }
        )*
    };
}

from_array! {
    #[cfg(feature = "std")] IdHashMap IdHashItem;
    #[cfg(feature = "std")] BiHashMap BiHashItem;
    #[cfg(feature = "std")] TriHashMap TriHashItem;
    IdOrdMap IdOrdItem;
}

#[cfg(feature = "std")]
impl<M: iddqd_store::SlotMap<Builder = crate::DefaultHashBuilder>, const N: usize> From<[M::Item; N]> for iddqd_sorted::Sorted<M>
where
    M::Item: iddqd_sorted::Sortable,
    M::FirstKey: Ord,
{
    fn from(items: [M::Item; N]) -> Self {
        crate::rattle::must(Self::try_from_iter(items))
    }
}

// The data of each item, to be written.
macro_rules! data_mut {
    ($($map:ident $item:ident;)*) => {
        $(
            impl<'a, T: crate::$item, S: core::hash::BuildHasher> IntoIterator for &'a mut crate::$map<T, S> {
                type Item = &'a mut T::Data;
                type IntoIter = core::iter::Map<<&'a mut iddqd_store::ItemSet<T> as IntoIterator>::IntoIter, fn(&'a mut T) -> &'a mut T::Data>;

                fn into_iter(self) -> Self::IntoIter {
                    self.items_mut().into_iter().map(T::data_mut)
                }
            }
        )*
    };
}

data_mut! {
    IdHashMap IdHashItemMut;
    BiHashMap BiHashItemMut;
    TriHashMap TriHashItemMut;
}

impl<'a, T: crate::IdOrdItemMut> IntoIterator for &'a mut crate::IdOrdMap<T> {
    type Item = &'a mut T::Data;
    type IntoIter = core::iter::Map<<&'a mut iddqd_order::Blocks<T> as IntoIterator>::IntoIter, fn(&'a mut T) -> &'a mut T::Data>;

    fn into_iter(self) -> Self::IntoIter {
        self.blocks_mut().into_iter().map(T::data_mut)
    }
}

impl<'a, M: iddqd_store::SlotMap> IntoIterator for &'a iddqd_sorted::Sorted<M>
where
    M::Item: iddqd_sorted::Sortable,
    M::FirstKey: Ord,
{
    type Item = &'a M::Item;
    type IntoIter = iddqd_sorted::Iter<'a, M::Item>;

    fn into_iter(self) -> Self::IntoIter {
        self.iter()
    }
}

macro_rules! row_traits {
    ($($row:ident($($field:ident: $kind:ident),*);)*) => {
        $(
            impl<$($kind: Eq),*> Eq for crate::$row<$($kind),*> {}

            impl<$($kind: PartialOrd),*> PartialOrd for crate::$row<$($kind),*> {
                fn partial_cmp(&self, other: &Self) -> Option<core::cmp::Ordering> {
                    ($(&self.$field,)*).partial_cmp(&($(&other.$field,)*))
                }
            }

            impl<$($kind: Ord),*> Ord for crate::$row<$($kind),*> {
                fn cmp(&self, other: &Self) -> core::cmp::Ordering {
                    ($(&self.$field,)*).cmp(&($(&other.$field,)*))
                }
            }

            impl<$($kind: core::hash::Hash),*> core::hash::Hash for crate::$row<$($kind),*> {
                fn hash<H: core::hash::Hasher>(&self, state: &mut H) {
                    ($(&self.$field,)*).hash(state)
                }
            }
        )*
    };
}

row_traits! {
    Row1(key: K, value: D);
    Row2(key1: K1, key2: K2, value: D);
    Row3(key1: K1, key2: K2, key3: K3, value: D);
}

macro_rules! short_lists {
    ($($list:ident)*) => {
        $(
            impl<T> core::ops::Index<usize> for iddqd_store::$list<T> {
                type Output = T;

                fn index(&self, at: usize) -> &T {
                    self.get(at).expect("the list has as many items")
                }
            }

            impl<T: PartialEq<U>, U, const N: usize> PartialEq<[U; N]> for iddqd_store::$list<T> {
                fn eq(&self, other: &[U; N]) -> bool {
                    self.len() == N && self.iter().zip(other).all(|(a, b)| a == b)
                }
            }
        )*
    };
}

short_lists!(UpToTwo UpToThree);

// The errors that borrow a map show the item and those in its way, as iddqd's do. A caller's function returns them by `?` as long as
// the map lives there.
macro_rules! borrowing_errors {
    ($($module:ident $item:ident [$($builder:ident)?] $conflicts:ident;)*) => {
        $(
            impl<T: crate::$item + Debug $(, $builder: BuildHasher)?> Debug for crate::$module::InsertError<'_, T $(, $builder)?> {
                fn fmt(&self, f: &mut Formatter<'_>) -> core::fmt::Result {
                    let mut out = f.debug_struct("InsertError");
                    out.field("reason", &self.reason()).field("item", self.item()).field(stringify!($conflicts), &self.$conflicts()).finish()
                }
            }

            impl<T: crate::$item + Debug $(, $builder: BuildHasher)?> Error for crate::$module::InsertError<'_, T $(, $builder)?> {}
            impl<T: crate::$item + Debug $(, $builder: BuildHasher)?> Error for crate::$module::EntryRefusal<'_, T $(, $builder)?> {}
            impl<T: crate::$item + Debug, E: Error $(, $builder: BuildHasher)?> Error for crate::$module::TryEntryRefusal<'_, T, E $(, $builder)?> {}
        )*
    };
}

borrowing_errors! {
    id_hash_map IdHashItem [S] duplicate;
    bi_hash_map BiHashItem [S] duplicates;
    tri_hash_map TriHashItem [S] duplicates;
    id_ord_map IdOrdItem [] duplicate;
}
