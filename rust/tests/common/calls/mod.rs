//! Random calls of each map beside a plain list, in families, and the names of the calls that they make.
pub mod entries;
pub mod ordered;
pub mod shared;
pub mod sorted;
pub mod unique;
pub mod written;

use super::item::Item;
use super::list::List;
use super::table::Table;
use facetweave::*;
use std::hash::BuildHasher;

/// A random call of a family, whose keys are below a number, and how often it is made beside the other families.
pub type Family<M> = (u64, fn(&mut M, &mut List, u64));

pub trait Kind: Table {
    fn families() -> Vec<Family<Self>>;
    /// The calls that the families make.
    const CALLS: &'static [&'static [&'static str]];
}

fn of_all<M: Table>() -> Vec<Family<M>> {
    use shared::*;
    vec![
        (60, insert),
        (15, overwrite),
        (20, look_up),
        (15, remove),
        (15, rekey),
        (15, update),
        (10, extend),
        (15, extend_unique),
        (10, room),
        (1, retain),
        (1, collect),
        (1, clear),
        (1, clone),
        (1, walk),
    ]
}

fn of_written<M: written::Written>() -> Vec<Family<M>> {
    use written::*;
    vec![(20, insert_unique), (10, data), (15, guard), (2, update_all), (1, retain_mut), (3, extract), (3, walk_and_write), (1, diff)]
}

const OF_ALL: &[&str] = &[
    "default",
    "from_iter",
    "try_from_iter",
    "from_iter_unique",
    "try_insert",
    "insert_overwrite",
    "extend",
    "try_extend",
    "extend_unique",
    "retain",
    "iter",
    "len",
    "is_empty",
    "capacity",
    "reserve",
    "try_reserve",
    "shrink_to",
    "shrink_to_fit",
    "clear",
    "clone",
    "try_clone",
    "into_iter",
    "==",
    "{:?}",
];
const OF_HASHED: &[&str] = &["with_capacity_and_hasher"];
const OF_ONE: &[&str] = &["get", "contains_key", "remove", "rekey", "update"];
const OF_TWO: &[&str] = &["get1", "get2", "contains_key1", "contains_key2", "remove1", "remove2", "rekey1", "rekey2", "update1", "update2"];
const OF_THREE: &[&str] = &["get3", "contains_key3", "remove3", "rekey3", "update3"];
const OF_WRITTEN: &[&str] = &[
    "insert_unique",
    "update_all",
    "retain_mut",
    "extract_from",
    "pop_from",
    "next_from",
    "iter_mut",
    "next_data",
    "for &mut",
    "guard.replace",
    "guard.data_mut",
    "guard.reborrow",
    "guard.into_data",
    "guard.into_ref",
    "entry",
    "entry.or_insert",
    "entry.or_insert_with",
    "entry.or_try_insert_with",
    "entry.and_modify",
    "vacant.insert",
    "vacant.insert_entry",
    "occupied.get",
    "occupied.remove",
    "occupied.data_mut",
    "occupied.get_mut",
    "occupied.into_mut",
    "occupied.into_ref",
    "occupied.insert",
];
const OF_WRITTEN_ONE: &[&str] = &["data_mut", "get_mut", "diff", "occupied.update"];
const OF_WRITTEN_TWO: &[&str] = &["data1_mut", "data2_mut", "get1_mut", "get2_mut", "diff1", "diff2"];
const OF_WRITTEN_THREE: &[&str] = &["data3_mut", "get3_mut", "diff3"];
const OF_SLOTS: &[&str] = &["pop", "next_mut"];
const OF_SEVERAL: &[&str] = &[
    "get_unique",
    "contains_key_unique",
    "update_unique",
    "data_unique_mut",
    "get_mut_unique",
    "remove_unique",
    "conflicts_with",
    "vacant.insert_mut",
    "occupied.for_each",
    "guards.by_key",
    "guards.data_mut",
    "guards.data_unique_mut",
    "guards.for_each",
    "guards.into_by_key",
    "guards.into_unique",
];
const OF_ORDER: &[&str] = &[
    "with_capacity",
    "first",
    "last",
    "pop_first",
    "pop_last",
    "first_mut",
    "last_mut",
    "first_entry",
    "last_entry",
    "range",
    "range_mut",
    "matching",
    "next_data_back",
];
const OF_SORTED: &[&str] =
    &["first", "last", "pop_first", "pop_last", "pop_to", "pop_before", "drop_before", "group", "range", "replace", "inside", "hasher", "for &"];

macro_rules! kinds {
    ($([$($s:ident)?] $map:ty, [$($of:expr),*], [$($weight:literal $family:path),*], [$($calls:ident),*];)*) => {
        $(impl<$($s: BuildHasher + Clone + Default)?> Kind for $map {
            fn families() -> Vec<Family<Self>> {
                let mut all: Vec<Family<Self>> = vec![$(($weight, $family)),*];
                $(all.extend($of);)*
                all
            }
            const CALLS: &'static [&'static [&'static str]] = &[OF_ALL, $($calls),*];
        })*
    };
}

kinds! {
    [S] IdHashMap<Item, S>, [of_all(), of_written()], [30 entries::id_hash, 5 unique::pop_id],
        [OF_HASHED, OF_ONE, OF_WRITTEN, OF_WRITTEN_ONE, OF_SLOTS];
    [S] BiHashMap<Item, S>, [of_all(), of_written()], [20 unique::bi, 40 unique::bi_entries, 5 unique::pop_bi],
        [OF_HASHED, OF_TWO, OF_WRITTEN, OF_WRITTEN_TWO, OF_SLOTS, OF_SEVERAL];
    [S] TriHashMap<Item, S>, [of_all(), of_written()], [20 unique::tri, 40 unique::tri_entries, 5 unique::pop_tri],
        [OF_HASHED, OF_TWO, OF_THREE, OF_WRITTEN, OF_WRITTEN_TWO, OF_WRITTEN_THREE, OF_SLOTS, OF_SEVERAL];
    [] IdOrdMap<Item>, [of_all(), of_written()], [30 entries::id_ord, 20 ordered::ends, 20 ordered::ranges, 1 ordered::out],
        [OF_ONE, OF_WRITTEN, OF_WRITTEN_ONE, OF_ORDER];
    [S] IdHashOrdMap<Item, S>, [of_all()], [15 sorted::ends, 20 sorted::ranges, 20 sorted::replace, 2 sorted::inside, 1 sorted::out],
        [OF_HASHED, OF_ONE, OF_SORTED];
    [S] BiHashOrdMap<Item, S>, [of_all()], [15 sorted::ends, 20 sorted::ranges, 20 sorted::replace, 2 sorted::inside, 1 sorted::out],
        [OF_HASHED, OF_TWO, OF_SORTED];
    [S] TriHashOrdMap<Item, S>, [of_all()], [15 sorted::ends, 20 sorted::ranges, 20 sorted::replace, 2 sorted::inside, 1 sorted::out],
        [OF_HASHED, OF_TWO, OF_THREE, OF_SORTED];
}

/// A family drawn by its weight.
pub fn some_family<M: Kind>(families: &[Family<M>]) -> fn(&mut M, &mut List, u64) {
    let mut left = super::below(families.iter().map(|it| it.0).sum());
    for (weight, family) in families {
        if left < *weight {
            return *family;
        }
        left -= weight;
    }
    unreachable!()
}
