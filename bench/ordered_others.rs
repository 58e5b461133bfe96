//! The ordered map with other items: items of 128 bytes, items whose key is a text, and items whose key is the first eight bytes of
//! a text as a number, and then the text. One side has the loops that `bench/loops` exports, and the other the same loops over a
//! `BTreeMap`: from the number to the item, which has the number again, and from the text to the rest of the item. The third kind
//! of keys is timed beside a `BTreeMap` of texts, and beside one that has such keys too.
use crate::calls::sum_of;
use crate::loops::{asked, each_map};
use crate::operations::{Kind, Loop, Operation, sides};
use crate::workload::{Row, Workload, asked_again, digits, fresh, missed, reordered};
use std::borrow::Borrow;
use std::collections::BTreeMap;
use std::collections::btree_map::Entry;

/// The numbers of items.
pub const SIZES: [usize; 3] = [1_000, 10_000, 100_000];

/// A key, and what the map has for it.
trait Pair: Sized {
    type Key: Ord;

    fn key_of(row: &Row<1>) -> Self::Key;
    fn from_row(row: &Row<1>) -> (Self::Key, Self);
    /// Returns what a look-up sums of the item that it finds.
    fn told(&self) -> u64;
    /// Returns what a removal sums of the item that is gone.
    fn gone(self) -> u64;
}

#[derive(Clone, Copy)]
struct Large {
    key: u64,
    data: [u64; 15],
}

impl Pair for Large {
    type Key = u64;

    fn key_of(row: &Row<1>) -> u64 {
        row.keys[0]
    }

    fn from_row(row: &Row<1>) -> (u64, Large) {
        let (key, data) = (row.keys[0], [row.value; 15]);
        (key, Large { key, data })
    }

    fn told(&self) -> u64 {
        self.data[14].wrapping_add(self.key)
    }

    fn gone(self) -> u64 {
        self.key
    }
}

/// The number of an item that has a text and a number.
struct Number(u64);

impl Pair for Number {
    type Key = String;

    /// Makes a text of 10 to 40 digits, as `bench/loops` does.
    fn key_of(row: &Row<1>) -> String {
        digits(row.keys[0], 10 + (row.keys[0] % 31) as usize)
    }

    fn from_row(row: &Row<1>) -> (String, Number) {
        (Number::key_of(row), Number(row.keys[0]))
    }

    fn told(&self) -> u64 {
        self.0
    }

    fn gone(self) -> u64 {
        self.0
    }
}

/// The number of an item whose text has its first eight bytes before it as a number.
struct Headed(u64);

impl Pair for Headed {
    type Key = (u64, String);

    fn key_of(row: &Row<1>) -> (u64, String) {
        let text = Number::key_of(row);
        let head = text.as_bytes().first_chunk();
        (u64::from_be_bytes(*head.expect("ten digits")), text)
    }

    fn from_row(row: &Row<1>) -> ((u64, String), Headed) {
        (Headed::key_of(row), Headed(row.keys[0]))
    }

    fn told(&self) -> u64 {
        self.0
    }

    fn gone(self) -> u64 {
        self.0
    }
}

type Map<T> = BTreeMap<<T as Pair>::Key, T>;

/// Inserts the items, and counts those whose key another item has.
fn fill<T: Pair>(map: &mut Map<T>, items: impl Iterator<Item = (T::Key, T)>) -> u64 {
    sum_of(items.map(|(key, item)| match map.entry(key) {
        Entry::Vacant(entry) => {
            entry.insert(item);
            0
        }
        Entry::Occupied(_) => 1,
    }))
}

fn filled<T: Pair>(rows: &[Row<1>]) -> Map<T> {
    let mut map = Map::<T>::new();
    let items: Vec<(T::Key, T)> = rows.iter().map(T::from_row).collect();
    fill(&mut map, items.into_iter());
    map
}

fn insert<T: Pair>(load: &Workload<1>, whole: bool) -> u64 {
    each_map(load, |rows, _| {
        let mut map = Map::<T>::new();
        let items: Vec<(T::Key, T)> = rows.iter().map(T::from_row).collect();
        let refused = if whole {
            fill(&mut map, items.into_iter())
        } else {
            0
        };
        refused.wrapping_add(map.len() as u64)
    })
}

/// Returns the keys of the rows, or none if the loop is only prepared. It makes them in either case.
fn keys<T: Pair>(rows: &[Row<1>], whole: bool) -> Vec<T::Key> {
    let mut keys: Vec<T::Key> = rows.iter().map(T::key_of).collect();
    if !whole {
        keys.clear();
    }
    keys
}

fn get<T: Pair, Q: Ord + ?Sized>(load: &Workload<1>, whole: bool) -> u64
where
    T::Key: Borrow<Q>,
{
    let map = filled::<T>(&load.rows);
    let keys = keys::<T>(&load.asked, whole);
    sum_of(
        keys.iter()
            .map(|key| map.get(key.borrow()).map_or(0, T::told)),
    )
}

fn get_large(load: &Workload<1>, whole: bool) -> u64 {
    let map = filled::<Large>(&load.rows);
    let rows = asked(load, whole).iter();
    sum_of(rows.map(|row| map.get(&row.keys[0]).map_or(0, Large::told)))
}

fn remove<T: Pair, Q: Ord + ?Sized>(load: &Workload<1>, whole: bool) -> u64
where
    T::Key: Borrow<Q>,
{
    each_map(load, |rows, asked| {
        let mut map = filled::<T>(rows);
        let keys = keys::<T>(asked, whole);
        sum_of(
            keys.iter()
                .map(|key| map.remove(key.borrow()).map_or(0, T::gone)),
        )
    })
}

fn remove_large(load: &Workload<1>, whole: bool) -> u64 {
    each_map(load, |rows, asked| {
        let mut map = filled::<Large>(rows);
        let rows = if whole { asked } else { &[] }.iter();
        sum_of(rows.map(|row| map.remove(&row.keys[0]).map_or(0, Large::gone)))
    })
}

macro_rules! operations {
    ($($name:literal: $load:expr, $other:expr, $loop:ident;)*) => {
        /// All of them.
        pub fn operations() -> Vec<Operation<1>> {
            vec![$({
                let (exported, others) = sides!(("std", Some($other as Loop<1>)); "ord", $loop, 1);
                Operation {
                    name: $name,
                    kind: Kind::Each,
                    load: $load,
                    exported,
                    others,
                }
            }),*]
        }
    };
}

operations! {
    "128 bytes: look-up, hit": asked_again, get_large, get_large;
    "128 bytes: look-up, miss": missed, get_large, get_large;
    "128 bytes: insert": fresh, insert::<Large>, insert_large;
    "128 bytes: removal": reordered, remove_large, remove_large;
    "text keys: look-up, hit": asked_again, get::<Number, str>, get_texts;
    "text keys: look-up, miss": missed, get::<Number, str>, get_texts;
    "text keys: insert": fresh, insert::<Number>, insert_texts;
    "text keys: removal": reordered, remove::<Number, str>, remove_texts;
    "number and text: look-up, hit": asked_again, get::<Number, str>, get_headed;
    "number and text: look-up, miss": missed, get::<Number, str>, get_headed;
    "number and text: insert": fresh, insert::<Number>, insert_headed;
    "number and text: removal": reordered, remove::<Number, str>, remove_headed;
    "both so: look-up, hit": asked_again, get::<Headed, (u64, String)>, get_headed;
    "both so: look-up, miss": missed, get::<Headed, (u64, String)>, get_headed;
    "both so: insert": fresh, insert::<Headed>, insert_headed;
    "both so: removal": reordered, remove::<Headed, (u64, String)>, remove_headed;
}
