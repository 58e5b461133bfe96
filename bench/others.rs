//! Other keys, items and hashers, at two keys: text keys, items of 128 bytes, and the hasher of `RandomState`. One side
//! has the loops that `bench/loops` exports, and the other the same loops over std hash maps kept by hand.
use crate::calls::sum_of;
use crate::hasher::FoldHasher;
use crate::loops::{asked, each_map};
use crate::operations::{Kind, Operation, exported};
use crate::workload::{Row, Workload, asked_again, fresh, reordered};
use std::borrow::Borrow;
use std::collections::HashMap;
use std::collections::hash_map::{DefaultHasher, Entry};
use std::hash::{BuildHasherDefault, Hash, Hasher};

/// An item, which knows its first key and its second.
trait Item {
    type First: Hash + Eq + Clone;

    fn first(&self) -> &Self::First;
    fn second(&self) -> u64;
    /// Returns what a look-up sums of the item that it finds.
    fn told(&self) -> u64 {
        self.second()
    }
    fn from_row(row: &Row<2>) -> Self;
}

struct Named {
    name: String,
    number: u64,
}

/// Returns the first key of a row as a text. All of them have the same length.
fn name_of(row: &Row<2>) -> String {
    format!("{:020}", row.keys[0])
}

impl Item for Named {
    type First = String;

    fn first(&self) -> &String {
        &self.name
    }

    fn second(&self) -> u64 {
        self.number
    }

    fn from_row(row: &Row<2>) -> Named {
        Named {
            name: name_of(row),
            number: row.keys[1],
        }
    }
}

struct Large {
    keys: [u64; 2],
    data: [u64; 14],
}

impl Item for Large {
    type First = u64;

    fn first(&self) -> &u64 {
        &self.keys[0]
    }

    fn second(&self) -> u64 {
        self.keys[1]
    }

    fn told(&self) -> u64 {
        self.data[13]
    }

    fn from_row(row: &Row<2>) -> Large {
        Large {
            keys: row.keys,
            data: [row.value; 14],
        }
    }
}

impl Item for Row<2> {
    type First = u64;

    fn first(&self) -> &u64 {
        &self.keys[0]
    }

    fn second(&self) -> u64 {
        self.keys[1]
    }

    fn from_row(row: &Row<2>) -> Row<2> {
        *row
    }
}

type Table<K, H> = HashMap<K, usize, BuildHasherDefault<H>>;

/// A slab of items, and a hash map from each key to a slot.
struct Keyed<T: Item, H> {
    slab: Vec<Option<T>>,
    free: Vec<usize>,
    first: Table<T::First, H>,
    second: Table<u64, H>,
}

impl<T: Item, H: Hasher + Default> Keyed<T, H> {
    fn with_capacity(items: usize) -> Self {
        Keyed {
            slab: Vec::with_capacity(items),
            free: Vec::new(),
            first: Table::with_capacity_and_hasher(items, Default::default()),
            second: Table::with_capacity_and_hasher(items, Default::default()),
        }
    }

    /// Inserts the items, and counts those that conflict with another.
    fn fill(&mut self, items: impl Iterator<Item = T>) -> u64 {
        items.map(|item| u64::from(!self.insert(item))).sum()
    }

    fn filled(load: &Workload<2>, rows: &[Row<2>]) -> Self {
        let mut map = Keyed::with_capacity(load.room);
        map.fill(rows.iter().map(T::from_row));
        map
    }

    fn insert(&mut self, item: T) -> bool {
        let second = item.second();
        let (Entry::Vacant(first), Entry::Vacant(second)) = (
            self.first.entry(item.first().clone()),
            self.second.entry(second),
        ) else {
            return false;
        };
        let slot = match self.free.pop() {
            Some(slot) => {
                self.slab[slot] = Some(item);
                slot
            }
            None => {
                self.slab.push(Some(item));
                self.slab.len() - 1
            }
        };
        first.insert(slot);
        second.insert(slot);
        true
    }

    fn get<Q: Hash + Eq + ?Sized>(&self, key: &Q) -> Option<&T>
    where
        T::First: Borrow<Q>,
    {
        self.slab[*self.first.get(key)?].as_ref()
    }

    fn remove<Q: Hash + Eq + ?Sized>(&mut self, key: &Q) -> Option<T>
    where
        T::First: Borrow<Q>,
    {
        let slot = self.first.remove(key)?;
        let item = self.slab[slot].take()?;
        self.second.remove(&item.second());
        self.free.push(slot);
        Some(item)
    }

    /// Replaces the item with the same first key, which has the same second key too.
    fn replace(&mut self, item: T) -> Option<T> {
        let slot = *self.first.get(item.first())?;
        if self.second.get(&item.second()) != Some(&slot) {
            return None;
        }
        self.slab[slot].replace(item)
    }
}

fn insert<T: Item, H: Hasher + Default>(load: &Workload<2>, whole: bool) -> u64 {
    each_map(load, |rows, _| {
        let mut map = Keyed::<T, H>::with_capacity(load.room);
        let items: Vec<T> = rows.iter().map(T::from_row).collect();
        let refused = if whole {
            map.fill(items.into_iter())
        } else {
            0
        };
        refused.wrapping_add(map.first.len() as u64)
    })
}

fn get<T: Item<First = u64>, H: Hasher + Default>(load: &Workload<2>, whole: bool) -> u64 {
    let map = Keyed::<T, H>::filled(load, &load.rows);
    let rows = asked(load, whole).iter();
    sum_of(rows.map(|row| map.get(&row.keys[0]).map_or(0, T::told)))
}

fn remove<T: Item<First = u64>, H: Hasher + Default>(load: &Workload<2>, whole: bool) -> u64 {
    each_map(load, |rows, asked| {
        let mut map = Keyed::<T, H>::filled(load, rows);
        let rows = if whole { asked } else { &[] }.iter();
        sum_of(rows.map(|row| map.remove(&row.keys[0]).map_or(0, |gone| gone.second())))
    })
}

fn get_texts(load: &Workload<2>, whole: bool) -> u64 {
    let map = Keyed::<Named, FoldHasher>::filled(load, &load.rows);
    let names: Vec<String> = load.asked.iter().map(name_of).collect();
    let names = if whole { &names[..] } else { &[] }.iter();
    sum_of(names.map(|name| map.get(name.as_str()).map_or(0, Named::told)))
}

fn remove_texts(load: &Workload<2>, whole: bool) -> u64 {
    each_map(load, |rows, asked| {
        let mut map = Keyed::<Named, FoldHasher>::filled(load, rows);
        let names: Vec<String> = asked.iter().map(name_of).collect();
        let names = if whole { &names[..] } else { &[] }.iter();
        sum_of(names.map(|name| map.remove(name.as_str()).map_or(0, |gone| gone.number)))
    })
}

fn overwrite_same(load: &Workload<2>, whole: bool) -> u64 {
    let mut map = Keyed::<Large, FoldHasher>::filled(load, &load.rows);
    let rows = asked(load, whole).iter();
    sum_of(rows.map(|row| u64::from(map.replace(Large::from_row(row)).is_some())))
}

macro_rules! operations {
    ($($name:literal: $load:expr, $other:expr, $exported:ident;)*) => {
        /// All of them.
        pub fn operations() -> Vec<Operation<2>> {
            vec![$(Operation {
                name: $name,
                kind: Kind::Each,
                load: $load,
                exported: exported!("bi", $exported, 2),
                others: vec![("std", Some($other))],
            }),*]
        }
    };
}

operations! {
    "text keys: insert with room": |items| fresh(items).reserved(items), insert::<Named, FoldHasher>, insert_texts;
    "text keys: look-up, hit": asked_again, get_texts, get_texts;
    "text keys: removal": reordered, remove_texts, remove_texts;
    "128 bytes: insert with room": |items| fresh(items).reserved(items), insert::<Large, FoldHasher>, insert_large;
    "128 bytes: look-up, hit": asked_again, get::<Large, FoldHasher>, get_large;
    "128 bytes: removal": reordered, remove::<Large, FoldHasher>, remove_large;
    "128 bytes: overwrite, same keys": asked_again, overwrite_same, overwrite_same_large;
    "random seed: insert with room": |items| fresh(items).reserved(items), insert::<Row<2>, DefaultHasher>, insert_seeded;
    "random seed: look-up, hit": asked_again, get::<Row<2>, DefaultHasher>, get_seeded;
    "random seed: removal": reordered, remove::<Row<2>, DefaultHasher>, remove_seeded;
}
