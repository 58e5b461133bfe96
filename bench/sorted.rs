//! The maps with hashed keys that also list their items by a sort key, which is the value of a row. One side has the loops
//! that `bench/loops` exports, and the other the same loops over what a careful user of std keeps in step: the hash maps by
//! hand, and beside them a `BTreeSet` of each item's sort key and first key.
use crate::by_hand::ByHand;
use crate::calls::{Map, sum_of};
use crate::loops::{asked, each_map};
use crate::one_by_hand::OneByHand;
use crate::operations::{Kind, Loop, Operation, sides};
use crate::workload::{
    Row, Workload, asked_again, doubled, fresh, grown, mix, reordered, shuffled,
};
use std::collections::BTreeSet;

/// The numbers of items.
pub const SIZES: [usize; 4] = [1_000, 10_000, 100_000, 1_000_000];

/// The names of the maps, by the number of their keys.
pub const NAMES: [&str; 3] = ["IdHashOrdMap", "BiHashOrdMap", "TriHashOrdMap"];

/// The number of items with one sort key that a group has.
const GROUP: usize = 10;

/// A hash map by hand, and the order of its items.
struct Sorted<M> {
    map: M,
    /// The sort key and the first key of each item.
    order: BTreeSet<(u64, u64)>,
}

/// Returns what the loops sum of an item that they meet.
fn told<const N: usize>(row: &Row<N>) -> u64 {
    row.keys[0].wrapping_add(row.value)
}

impl<M> Sorted<M> {
    fn with_capacity<const N: usize>(items: usize) -> Sorted<M>
    where
        M: Map<N>,
    {
        Sorted {
            map: M::with_capacity(items),
            order: BTreeSet::new(),
        }
    }

    /// Returns whether the row was inserted.
    fn insert<const N: usize>(&mut self, row: Row<N>) -> bool
    where
        M: Map<N>,
    {
        self.map.insert(row) && self.order.insert((row.value, row.keys[0]))
    }

    fn remove<const N: usize>(&mut self, key: u64) -> Option<Row<N>>
    where
        M: Map<N>,
    {
        let gone = self.map.remove(key)?;
        self.order.remove(&(gone.value, key));
        Some(gone)
    }

    /// Gives the item with the first key of this row its sort key. Returns the item as it was.
    fn touch<const N: usize>(&mut self, row: &Row<N>) -> Option<Row<N>>
    where
        M: Map<N>,
    {
        let mut held = self.map.get_mut(row.keys[0])?;
        let old = *held;
        held.value = row.value;
        drop(held);
        if old.value != row.value {
            self.order.remove(&(old.value, row.keys[0]));
            self.order.insert((row.value, row.keys[0]));
        }
        Some(old)
    }

    /// Removes the item with the lowest sort key if that is at most this one.
    fn pop_to<const N: usize>(&mut self, bound: u64) -> Option<Row<N>>
    where
        M: Map<N>,
    {
        let &(sort_key, key) = self.order.first()?;
        if sort_key > bound {
            return None;
        }
        self.order.pop_first();
        self.map.remove(key)
    }

    /// Returns the items with this sort key.
    fn group<'a, const N: usize>(&'a self, sort_key: u64) -> impl Iterator<Item = &'a Row<N>>
    where
        M: Map<N> + 'a,
    {
        let found = self.order.range((sort_key, 0)..=(sort_key, u64::MAX));
        found.filter_map(|(_, key)| self.map.get(*key))
    }
}

/// Inserts the rows, and counts those that conflict with another.
fn fill<const N: usize, M: Map<N>>(map: &mut Sorted<M>, rows: &[Row<N>]) -> u64 {
    sum_of(rows.iter().map(|row| u64::from(!map.insert(*row))))
}

fn filled<const N: usize, M: Map<N>>(load: &Workload<N>, rows: &[Row<N>]) -> Sorted<M> {
    let mut map = Sorted::with_capacity(load.room);
    fill(&mut map, rows);
    map
}

/// Sums what `made` returns for a map of each part of the rows, and a part of those that are asked for.
fn each_filled<const N: usize, M: Map<N>>(
    load: &Workload<N>,
    whole: bool,
    made: impl Fn(&mut Sorted<M>, &[Row<N>]) -> u64,
) -> u64 {
    each_map(load, |rows, asked| {
        let mut map = filled::<N, M>(load, rows);
        if whole { made(&mut map, asked) } else { 0 }
    })
}

fn sorted_insert<const N: usize, M: Map<N>>(load: &Workload<N>, whole: bool) -> u64 {
    each_map(load, |rows, _| {
        let map = filled::<N, M>(load, if whole { rows } else { &[] });
        let first = map.order.first();
        first.map_or(0, |(sort_key, key)| key.wrapping_add(*sort_key))
    })
}

fn sorted_grow<const N: usize, M: Map<N>>(load: &Workload<N>, _: bool) -> u64 {
    let mut map = Sorted::<M>::with_capacity(0);
    let refused = fill(&mut map, &load.rows);
    refused + u64::from(Vec::<u8>::new().try_reserve_exact(load.number).is_err())
}

fn sorted_get<const N: usize, M: Map<N>>(load: &Workload<N>, whole: bool) -> u64 {
    let map = filled::<N, M>(load, &load.rows);
    let rows = asked(load, whole).iter();
    sum_of(rows.map(|row| map.map.get(row.keys[0]).map_or(0, told)))
}

fn sorted_touch<const N: usize, M: Map<N>>(load: &Workload<N>, whole: bool) -> u64 {
    let mut map = filled::<N, M>(load, &load.rows);
    let rows = asked(load, whole).iter();
    sum_of(rows.map(|row| map.touch(row).map_or(0, |old| told(&old))))
}

fn sorted_update<const N: usize, M: Map<N>>(load: &Workload<N>, whole: bool) -> u64 {
    let mut map = filled::<N, M>(load, &load.rows);
    let rows = asked(load, whole).iter();
    sum_of(rows.map(|row| u64::from(map.touch(row).is_some())))
}

/// Returns what is summed of a map that was filled by one call.
fn summed<const N: usize, M: Map<N>>(map: &Sorted<M>) -> u64 {
    let first = map.order.first();
    let first = first.map_or(0, |(sort_key, key)| key.wrapping_add(*sort_key));
    first.wrapping_add(map.map.len() as u64)
}

/// No row conflicts with another one.
fn sorted_extend<const N: usize, M: Map<N>>(load: &Workload<N>, whole: bool) -> u64 {
    each_map(load, |rows, _| {
        let (there, more) = rows.split_at(rows.len() / 2);
        let mut map = filled::<N, M>(load, there);
        if whole {
            map.map.reserve(more.len());
            fill(&mut map, more);
        }
        summed(&map)
    })
}

/// Makes the hash map of all rows, and then the order of its items.
fn sorted_from_iter<const N: usize, M: Map<N>>(load: &Workload<N>, whole: bool) -> u64 {
    each_map(load, |rows, _| {
        if !whole {
            return 0;
        }
        let map = M::from_rows(rows.iter().copied());
        let order = map.iter().map(|row| (row.value, row.keys[0])).collect();
        summed(&Sorted { map, order })
    })
}

fn sorted_remove<const N: usize, M: Map<N>>(load: &Workload<N>, whole: bool) -> u64 {
    each_filled(load, whole, |map: &mut Sorted<M>, asked| {
        sum_of(
            asked
                .iter()
                .map(|row| map.remove(row.keys[0]).map_or(0, |gone| told(&gone))),
        )
    })
}

fn sorted_pop_to<const N: usize, M: Map<N>>(load: &Workload<N>, whole: bool) -> u64 {
    each_filled(load, whole, |map: &mut Sorted<M>, asked| {
        sum_of(
            asked
                .iter()
                .map(|_| map.pop_to(u64::MAX).map_or(0, |gone| told(&gone))),
        )
    })
}

fn sorted_group<const N: usize, M: Map<N>>(load: &Workload<N>, whole: bool) -> u64 {
    let map = filled::<N, M>(load, &load.rows);
    let rows = asked(load, whole).iter();
    sum_of(rows.map(|row| sum_of(map.group(row.value).map(told))))
}

/// Gives each row a drawn sort key. On average one item of a map has each.
fn sorted<const N: usize>(mut load: Workload<N>, items: usize) -> Workload<N> {
    for row in load.rows.iter_mut().chain(&mut load.asked) {
        row.value = mix(row.keys[0]) % items as u64;
    }
    load
}

/// Gives each row a sort key that no other one has.
fn distinct<const N: usize>(mut load: Workload<N>) -> Workload<N> {
    for row in load.rows.iter_mut().chain(&mut load.asked) {
        row.value = mix(row.keys[0]);
    }
    load
}

/// Gives each row that fills a map a sort key that is higher than all before it.
fn in_order<const N: usize>(mut load: Workload<N>) -> Workload<N> {
    for (at, row) in load.rows.iter_mut().enumerate() {
        row.value = at as u64;
    }
    load
}

/// One map, and rows that give its items other sort keys, in many orders.
fn touched<const N: usize>(items: usize) -> Workload<N> {
    let mut load = sorted(asked_again(items), items);
    for (at, row) in load.asked.iter_mut().enumerate() {
        row.value = mix(at as u64) % items as u64;
    }
    load
}

/// The same, where no two items ever have an equal sort key.
fn touched_apart<const N: usize>(items: usize) -> Workload<N> {
    let mut load = distinct(asked_again(items));
    for (at, row) in load.asked.iter_mut().enumerate() {
        row.value = mix(at as u64);
    }
    load
}

/// One map, and rows that give its items sort keys, each of which is higher than all before it.
fn touched_last<const N: usize>(items: usize) -> Workload<N> {
    let mut load = sorted(asked_again(items), items);
    for (at, row) in load.asked.iter_mut().enumerate() {
        row.value = (items + at) as u64;
    }
    load
}

/// One map whose items came in the order of their sort keys, as a cache is filled, and rows that give them sort keys, each of which is
/// higher than all before it.
fn touched_again<const N: usize>(items: usize) -> Workload<N> {
    in_order(touched_last(items))
}

/// One map of groups, and rows with the sort keys that are asked for. The operations are counted by the items that are met.
fn grouped<const N: usize>(items: usize) -> Workload<N> {
    let mut load = grown::<N>(items - items % GROUP);
    for (at, row) in load.rows.iter_mut().enumerate() {
        row.value = (at / GROUP) as u64;
    }
    let orders = (0..).flat_map(|round| shuffled(&load.rows, round));
    load.asked = orders.take(20_000).collect();
    load.rows = shuffled(&load.rows, load.asked.len());
    load.operations = GROUP * load.asked.len();
    load
}

/// Makes the operations on maps with this many keys.
macro_rules! operations {
    ($name:ident, $keys:literal, $map:literal, $by_hand:ty) => {
        pub fn $name() -> Vec<Operation<$keys>> {
            macro_rules! operation {
                ($kind:ident $row:literal, $load:expr, $loop:ident) => {
                    {
                        let other = ("std", Some($loop::<$keys, $by_hand> as Loop<$keys>));
                        let (exported, others) = sides!(other; $map, $loop, $keys);
                        Operation {
                            name: $row,
                            kind: Kind::$kind,
                            load: $load,
                            exported,
                            others,
                        }
                    }
                };
            }
            vec![
                operation!(Held "bytes", |items| sorted(grown(items), items), sorted_grow),
                operation!(Each "look-up, hit", |items| sorted(asked_again(items), items), sorted_get),
                operation!(Each "insert without room", |items| sorted(fresh(items), items), sorted_insert),
                operation!(Each "insert, distinct", |items| distinct(fresh(items)), sorted_insert),
                operation!(Each "insert with room", |items| sorted(fresh(items), items).reserved(items), sorted_insert),
                operation!(Each "insert at the end", |items| in_order(fresh(items)), sorted_insert),
                operation!(All "extend by as many", |items| sorted(doubled(items), items), sorted_extend),
                operation!(All "collect", |items| sorted(fresh(items), items), sorted_from_iter),
                operation!(Each "removal", |items| sorted(reordered(items), items), sorted_remove),
                operation!(Each "removal, distinct", |items| distinct(reordered(items)), sorted_remove),
                operation!(Each "replace, same sort key", |items| sorted(asked_again(items), items), sorted_touch),
                operation!(Each "replace, same, distinct", |items| distinct(asked_again(items)), sorted_touch),
                operation!(Each "update1, same sort key", |items| sorted(asked_again(items), items), sorted_update),
                operation!(Each "update1, same, distinct", |items| distinct(asked_again(items)), sorted_update),
                operation!(Each "touch, drawn", touched, sorted_touch),
                operation!(Each "touch, drawn, distinct", touched_apart, sorted_touch),
                operation!(Each "touch, to the end", touched_last, sorted_touch),
                operation!(Each "touch, filled in order", touched_again, sorted_touch),
                operation!(Each "pop_to, all", |items| sorted(reordered(items), items), sorted_pop_to),
                operation!(All "group of 10 items", grouped, sorted_group),
            ]
        }
    };
}

operations!(one, 1, "id", OneByHand);
operations!(two, 2, "bi", ByHand<2>);
operations!(three, 3, "tri", ByHand<3>);
