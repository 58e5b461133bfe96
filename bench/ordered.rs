//! The ordered map. One side has the loops that `bench/loops` exports, and the other the same loops over a `BTreeMap` from
//! the key to the item, which has the key again.
use crate::calls::{sum_of, told};
use crate::loops::{asked, each_map};
use crate::measure::ran;
use crate::operations::{Kind, Loop, Operation, sides};
use crate::workload::{Row, Workload};
use crate::workload::{
    asked_again, doubled, exchanged, fresh, grown, missed, reordered, repeated, rows, shuffled,
};
use std::cmp::Reverse;
use std::collections::btree_map::Entry;
use std::collections::{BTreeMap, HashMap};
use std::hint::black_box;

/// The numbers of items.
pub const SIZES: [usize; 5] = [100, 1_000, 10_000, 100_000, 1_000_000];

/// The number of items in a range.
const RANGE: usize = 100;

type Map = BTreeMap<u64, Row<1>>;

/// Returns whether the row was inserted.
fn enter(map: &mut Map, row: &Row<1>) -> bool {
    match map.entry(row.keys[0]) {
        Entry::Vacant(entry) => {
            entry.insert(*row);
            true
        }
        Entry::Occupied(_) => false,
    }
}

/// Inserts the rows, and counts those whose key another item has.
fn fill(map: &mut Map, rows: &[Row<1>]) -> u64 {
    sum_of(rows.iter().map(|row| u64::from(!enter(map, row))))
}

fn filled(rows: &[Row<1>]) -> Map {
    let mut map = Map::new();
    fill(&mut map, rows);
    map
}

/// Returns what `told` says of an item, or 0 if there is none.
fn said(row: Option<Row<1>>) -> u64 {
    row.map_or(0, |row| told(&row))
}

fn insert(load: &Workload<1>, whole: bool) -> u64 {
    each_map(load, |rows, _| {
        let map = filled(if whole { rows } else { &[] });
        said(map.values().next().copied())
    })
}

/// Returns what is summed of a map that was filled by one call.
fn summed(map: &Map) -> u64 {
    said(map.values().next().copied()).wrapping_add(map.len() as u64)
}

/// Returns what the map has of a row.
fn pair(row: &Row<1>) -> (u64, Row<1>) {
    (row.keys[0], *row)
}

fn collect(load: &Workload<1>, whole: bool) -> u64 {
    each_map(load, |rows, _| {
        let made = whole.then(|| rows.iter().map(pair).collect());
        made.map_or(0, |map| summed(&map))
    })
}

fn extend(load: &Workload<1>, whole: bool) -> u64 {
    each_map(load, |rows, _| {
        let (there, more) = rows.split_at(rows.len() / 2);
        let mut map = filled(there);
        map.extend(if whole { more } else { &[] }.iter().map(pair));
        summed(&map)
    })
}

/// How many maps are filled to find out what each insert takes at least.
const FILLS: usize = 3;

/// Inserts the rows into a new map, and writes down the nanoseconds of each insert where they are fewer than those before.
fn time_each(rows: &[Row<1>], least: &mut [u64]) {
    let mut map = Map::new();
    let mut before = ran();
    for (row, least) in rows.iter().zip(least) {
        enter(&mut map, row);
        let after = ran();
        *least = (after - before).min(*least);
        before = after;
    }
}

/// Returns the nanoseconds of the longest insert, each of which counts as what it took at least, or, if the loop is only
/// prepared, what `insert` returns.
fn longest(load: &Workload<1>, whole: bool) -> u64 {
    if !whole {
        let mut map = Map::new();
        let refused = fill(&mut map, &load.rows);
        return refused.wrapping_add(said(map.values().next().copied()));
    }
    let mut least = vec![u64::MAX; load.rows.len()];
    (0..FILLS).for_each(|_| time_each(&load.rows, &mut least));
    least.into_iter().fold(0, u64::max)
}

fn grow(load: &Workload<1>, _: bool) -> u64 {
    let mut map = Map::new();
    let refused = fill(&mut map, &load.rows);
    refused + u64::from(Vec::<u8>::new().try_reserve_exact(load.number).is_err())
}

fn get(load: &Workload<1>, whole: bool) -> u64 {
    let map = filled(&load.rows);
    let rows = asked(load, whole).iter();
    sum_of(rows.map(|row| map.get(&row.keys[0]).map_or(0, told)))
}

fn remove(load: &Workload<1>, whole: bool) -> u64 {
    each_map(load, |rows, asked| {
        let mut map = filled(rows);
        let rows = if whole { asked } else { &[] }.iter();
        sum_of(rows.map(|row| said(map.remove(&row.keys[0]))))
    })
}

fn remove_insert(load: &Workload<1>, whole: bool) -> u64 {
    let mut map = filled(&load.rows);
    let pairs = asked(load, whole).chunks_exact(2);
    sum_of(pairs.map(|two| {
        let gone = said(map.remove(&two[0].keys[0]));
        gone.wrapping_add(u64::from(!enter(&mut map, &two[1])))
    }))
}

/// A `BTreeMap` has no such call, so this removes the one item and inserts the other.
fn rekey(load: &Workload<1>, whole: bool) -> u64 {
    remove_insert(load, whole)
}

fn pop_first(load: &Workload<1>, whole: bool) -> u64 {
    each_map(load, |rows, _| {
        let mut map = filled(rows);
        let rows = if whole { rows } else { &[] }.iter();
        sum_of(rows.map(|_| said(map.pop_first().map(|(_, row)| row))))
    })
}

fn iter(load: &Workload<1>, whole: bool) -> u64 {
    let map = filled(&load.rows);
    let times = if whole { load.number } else { 0 };
    sum_of((0..times).map(|_| sum_of(map.values().map(|row| row.keys[0]))))
}

fn clones(load: &Workload<1>, map: &Map) -> Vec<Map> {
    (0..load.number).map(|_| map.clone()).collect()
}

/// Returns how many nanoseconds an iteration over clones took, or, if the loop is only prepared, the sum of the keys.
fn by_value(load: &Workload<1>, whole: bool) -> u64 {
    let copies = clones(load, &filled(&load.rows));
    let before = ran();
    let keys = copies.into_iter().flat_map(Map::into_values);
    let sum = black_box(sum_of(keys.map(|row| row.keys[0])));
    let took = ran() - before;
    if whole { took } else { sum }
}

/// Returns how many nanoseconds the clones took, or, if the loop is only prepared, how many items they have.
fn clone(load: &Workload<1>, whole: bool) -> u64 {
    let map = filled(&load.rows);
    let before = ran();
    let copies = black_box(clones(load, &map));
    let took = ran() - before;
    if whole {
        return took;
    }
    sum_of(copies.iter().map(|copy| copy.len() as u64))
}

fn retain(load: &Workload<1>, whole: bool) -> u64 {
    each_map(load, |rows, _| {
        let mut map = filled(rows);
        if whole {
            map.retain(|_, row| row.keys[0] % 2 == 0);
        }
        map.len() as u64
    })
}

fn range(load: &Workload<1>, whole: bool) -> u64 {
    let map = filled(&load.rows);
    let pairs = asked(load, whole).chunks_exact(2);
    sum_of(pairs.map(|two| {
        let found = map.range(two[0].keys[0]..two[1].keys[0]);
        sum_of(found.map(|(_, row)| row.keys[0]))
    }))
}

/// Returns the same maps, each filled in the order of the keys.
fn ascending(mut load: Workload<1>) -> Workload<1> {
    load.rows.sort_by_key(|row| row.keys[0]);
    load
}

/// Returns the same maps, each filled in the opposite order.
fn descending(mut load: Workload<1>) -> Workload<1> {
    load.rows.sort_by_key(|row| Reverse(row.keys[0]));
    load
}

/// One map that was filled in the order of its keys, and pairs of rows: one that is in the map by then, and one with a key that is
/// higher than all before it.
fn rekeyed_last(items: usize) -> Workload<1> {
    let mut load = exchanged(items);
    let new = load.asked.chunks(2).map(|two| two[1].keys[0]);
    let keys = load.rows.iter().map(|row| row.keys[0]).chain(new);
    let numbers: HashMap<u64, u64> = keys.zip(0..).collect();
    for row in load.rows.iter_mut().chain(&mut load.asked) {
        row.keys[0] = numbers[&row.keys[0]];
    }
    load
}

/// One map, and how often it is cloned.
fn cloned(items: usize) -> Workload<1> {
    let number = (20_000 / items).max(1);
    Workload::new(rows(0, items), Vec::new(), number, items * number)
}

/// One map, of whose inserts only the longest counts.
fn counted_once(items: usize) -> Workload<1> {
    Workload::new(rows(0, items), Vec::new(), items, 1)
}

/// One map, and pairs of rows that bound a hundred of its items each. The operations are counted by the items that are met.
fn hundreds(items: usize) -> Workload<1> {
    let mut load = grown(items);
    let sorted = ascending(grown(items)).rows;
    let part = RANGE.min(items);
    let begins: Vec<usize> = (0..=items - part).collect();
    let drawn = (0..).flat_map(|round| shuffled(&begins, round));
    // The upper bound is a key that no item has.
    let mut end = sorted.clone();
    end.iter_mut().for_each(|row| row.keys[0] += 1);
    let pairs = drawn.take(20_000);
    load.asked = pairs
        .flat_map(|at| [sorted[at], end[at + part - 1]])
        .collect();
    load.operations = load.asked.len() / 2 * part;
    load
}

macro_rules! operations {
    ($($kind:ident $name:literal: $load:expr, $loop:ident;)*) => {
        /// All of them.
        pub fn operations() -> Vec<Operation<1>> {
            vec![$({
                let (exported, others) = sides!(("std", Some($loop as Loop<1>)); "ord", $loop, 1);
                Operation {
                    name: $name,
                    kind: Kind::$kind,
                    load: $load,
                    exported,
                    others,
                }
            }),*]
        }
    };
}

operations! {
    Held "bytes": grown, grow;
    Held "bytes, ascending": |items| ascending(grown(items)), grow;
    Each "look-up, hit": asked_again, get;
    Each "look-up, miss": missed, get;
    Each "insert": fresh, insert;
    Each "insert, ascending": |items| ascending(fresh(items)), insert;
    Each "insert, descending": |items| descending(fresh(items)), insert;
    All "collect": fresh, collect;
    All "collect, ascending": |items| ascending(fresh(items)), collect;
    All "extend by as many": doubled, extend;
    All "extend by as many, ascending": |items| ascending(doubled(items)), extend;
    Each "removal": reordered, remove;
    Each "removal and insert": exchanged, remove_insert;
    Each "rekey to the end": rekeyed_last, rekey;
    All "pop_first, all": fresh, pop_first;
    All "iter": repeated, iter;
    All "iter, filled ascending": |items| ascending(repeated(items)), iter;
    All "range of 100 items": hundreds, range;
    Own "by value, of a clone": cloned, by_value;
    Own "clone": cloned, clone;
    All "retain half": fresh, retain;
    Own "longest insert": counted_once, longest;
}
