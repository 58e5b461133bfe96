//! A map as a careful user of std would write it: a slab of items, and a hash map from each key to a slot.
//!
//! With one key it stands for the Rust crate's map, which has slots and a table from hashes to these. std offers no
//! such table. A hash map from the key to the slot has entries of the same size, found by the same hash, but it compares
//! the key in the entry, where the crate compares that of the item, and it hashes the keys again as it grows.
use crate::calls::{Map, sum_of, told};
use crate::hasher::FoldHasher;
use crate::workload::Row;
use std::array::from_fn;
use std::collections::HashMap;
use std::collections::hash_map::Entry;
use std::hash::BuildHasherDefault;
use std::ops::DerefMut;

pub type Builder = BuildHasherDefault<FoldHasher>;

type Slots = HashMap<u64, usize, Builder>;

/// The slots that the keys of an item found, in the order of the keys.
pub type Found<const N: usize> = [Option<usize>; N];

/// The error of a list if no item of it was inserted.
struct Refused<const N: usize> {
    /// The items before the one that conflicts.
    pub taken: Vec<Row<N>>,
    /// The slots of the items that conflict with it.
    pub found: Found<N>,
}

#[derive(Clone)]
pub struct ByHand<const N: usize> {
    slab: Vec<Option<Row<N>>>,
    free: Vec<usize>,
    tables: [Slots; N],
}

/// Stores an item in a free slot, and returns the slot.
fn place<const N: usize>(
    slab: &mut Vec<Option<Row<N>>>,
    free: &mut Vec<usize>,
    row: Row<N>,
) -> usize {
    match free.pop() {
        Some(slot) => {
            slab[slot] = Some(row);
            slot
        }
        None => {
            slab.push(Some(row));
            slab.len() - 1
        }
    }
}

fn slot_of(entry: Entry<'_, u64, usize>) -> Option<usize> {
    match entry {
        Entry::Occupied(entry) => Some(*entry.get()),
        Entry::Vacant(_) => None,
    }
}

/// Inserts an item by the entry of each key. Each table has a variable of its own, so that all entries can be held at
/// once.
macro_rules! insert_by {
    ($map:ident, $row:ident, $($table:ident $rank:literal),*) => {
        match ($($table.entry($row.keys[$rank]),)*) {
            ($(Entry::Vacant($table),)*) => {
                let slot = place(&mut $map.slab, &mut $map.free, $row);
                $($table.insert(slot);)*
                Ok(slot)
            }
            ($($table,)*) => {
                let mut found = [None; N];
                $(found[$rank] = slot_of($table);)*
                Err(found)
            }
        }
    };
}

impl<const N: usize> ByHand<N> {
    /// Inserts an item if no item has one of its keys, and returns its slot. Otherwise returns what its keys found.
    pub fn enter(&mut self, row: Row<N>) -> Result<usize, Found<N>> {
        // The compiler keeps one arm for each number of keys, which is what one would write by hand for that number.
        match &mut self.tables[..] {
            [first] => insert_by!(self, row, first 0),
            [first, second] => insert_by!(self, row, first 0, second 1),
            [first, second, third] => insert_by!(self, row, first 0, second 1, third 2),
            _ => unreachable!("at most three keys"),
        }
    }

    /// Returns the items of these slots, each once. `text_by_hand.rs` alone calls it.
    #[allow(dead_code)]
    pub fn items_of(&self, found: Found<N>) -> impl Iterator<Item = &Row<N>> {
        let slots = found.into_iter().enumerate();
        let first = slots.filter(move |(rank, slot)| !found[..*rank].contains(slot));
        first.filter_map(|(_, slot)| self.slab[slot?].as_ref())
    }

    /// Inserts a row, and removes the items that conflict with it. If one item has all of its keys, the row replaces
    /// it in its slot.
    fn put(&mut self, row: Row<N>) -> [Option<Row<N>>; N] {
        let mut displaced = [None; N];
        let Err(found) = self.enter(row) else {
            return displaced;
        };
        if let Some(slot) = found[0]
            && found.iter().all(|other| *other == found[0])
        {
            displaced[0] = self.slab[slot].replace(row);
            return displaced;
        }
        for (displaced, slot) in displaced.iter_mut().zip(found) {
            *displaced = slot.and_then(|slot| self.take(slot));
        }
        let _ = self.enter(row);
        displaced
    }

    /// Removes the item of a slot, if there is one.
    fn take(&mut self, slot: usize) -> Option<Row<N>> {
        let row = self.slab[slot].take()?;
        for rank in 0..N {
            self.tables[rank].remove(&row.keys[rank]);
        }
        self.free.push(slot);
        Some(row)
    }

    /// Removes the next item from a slot on for which `f` returns `true`. A caller may end the loop early: then the map
    /// has the other items.
    fn take_from(&mut self, at: &mut usize, f: impl Fn(&Row<N>) -> bool) -> Option<Row<N>> {
        while *at < self.slab.len() {
            let slot = *at;
            *at += 1;
            if self.slab[slot].as_ref().is_some_and(&f) {
                return self.take(slot);
            }
        }
        None
    }

    /// Removes the items of these slots.
    fn take_all(&mut self, slots: &[usize]) -> Vec<Row<N>> {
        let mut taken = Vec::with_capacity(slots.len());
        taken.extend(slots.iter().filter_map(|slot| self.take(*slot)));
        taken
    }

    /// Inserts all rows or none.
    fn enter_rows(&mut self, rows: impl Iterator<Item = Row<N>>) -> Result<(), Refused<N>> {
        let mut entered = Vec::new();
        for row in rows {
            match self.enter(row) {
                Ok(slot) => entered.push(slot),
                Err(found) => {
                    let taken = self.take_all(&entered);
                    return Err(Refused { taken, found });
                }
            }
        }
        Ok(())
    }
}

/// An iteration over the items for writing, which knows how many are left.
struct Held<'a, const N: usize> {
    slots: std::slice::IterMut<'a, Option<Row<N>>>,
    left: usize,
}

impl<'a, const N: usize> Iterator for Held<'a, N> {
    type Item = &'a mut Row<N>;

    fn next(&mut self) -> Option<&'a mut Row<N>> {
        let row = self.slots.find_map(Option::as_mut)?;
        self.left -= 1;
        Some(row)
    }

    fn size_hint(&self) -> (usize, Option<usize>) {
        (self.left, Some(self.left))
    }
}

impl<const N: usize> ExactSizeIterator for Held<'_, N> {}

impl<const N: usize> Map<N> for ByHand<N> {
    const NAME: &'static str = if N == 1 { "slots" } else { "std" };

    fn with_capacity(items: usize) -> ByHand<N> {
        ByHand {
            slab: Vec::with_capacity(items),
            free: Vec::new(),
            tables: from_fn(|_| Slots::with_capacity_and_hasher(items, Default::default())),
        }
    }

    fn from_rows(rows: impl Iterator<Item = Row<N>>) -> ByHand<N> {
        let mut map = ByHand::with_capacity(0);
        map.extend(rows);
        map
    }

    fn from_unique_rows(rows: impl Iterator<Item = Row<N>>) -> Option<ByHand<N>> {
        let mut map = ByHand::with_capacity(0);
        map.reserve(rows.size_hint().0);
        for row in rows {
            map.enter(row).ok()?;
        }
        Some(map)
    }

    fn len(&self) -> usize {
        self.tables[0].len()
    }

    fn insert(&mut self, row: Row<N>) -> bool {
        self.enter(row).is_ok()
    }

    fn overwrite(&mut self, row: Row<N>) -> usize {
        self.put(row).iter().flatten().count()
    }

    fn extend(&mut self, rows: impl Iterator<Item = Row<N>>) {
        self.reserve(rows.size_hint().0);
        for row in rows {
            self.put(row);
        }
    }

    fn enter_all(&mut self, rows: &[Row<N>]) -> usize {
        match self.enter_rows(rows.iter().copied()) {
            Ok(()) => 0,
            Err(refused) => refused.taken.len() + usize::from(refused.found == [None; N]),
        }
    }

    fn get(&self, key: u64) -> Option<&Row<N>> {
        self.slab[*self.tables[0].get(&key)?].as_ref()
    }

    fn get_mut(&mut self, key: u64) -> Option<impl DerefMut<Target = Row<N>>> {
        self.slab[*self.tables[0].get(&key)?].as_mut()
    }

    fn remove(&mut self, key: u64) -> Option<Row<N>> {
        let slot = self.tables[0].remove(&key)?;
        let row = self.slab[slot].take()?;
        for rank in 1..N {
            self.tables[rank].remove(&row.keys[rank]);
        }
        self.free.push(slot);
        Some(row)
    }

    fn or_insert(&mut self, row: Row<N>) -> Option<u64> {
        let slot = match self.enter(row) {
            Ok(slot) => slot,
            Err(found) if found.iter().all(|slot| *slot == found[0]) => found[0]?,
            Err(_) => return None,
        };
        self.slab[slot].as_ref().map(told)
    }

    fn try_insert(&mut self, row: Row<N>) -> Result<(), (Row<N>, [bool; N])> {
        match self.enter(row) {
            Ok(_) => Ok(()),
            Err(found) => Err((row, found.map(|slot| slot.is_some()))),
        }
    }

    fn remove_unique(&mut self, keys: [u64; N]) -> Option<Row<N>> {
        let Entry::Occupied(found) = self.tables[0].entry(keys[0]) else {
            return None;
        };
        let slot = *found.get();
        let row = self.slab[slot].take_if(|row| row.keys == keys)?;
        found.remove();
        for rank in 1..N {
            self.tables[rank].remove(&keys[rank]);
        }
        self.free.push(slot);
        Some(row)
    }

    fn rekey(&mut self, key: u64, row: Row<N>) -> Option<Row<N>> {
        let slot = *self.tables[0].get(&key)?;
        let mut finds = self
            .tables
            .iter()
            .zip(&row.keys)
            .map(|(table, key)| table.get(key));
        if finds.any(|found| found.is_some_and(|found| *found != slot)) {
            return None;
        }
        let old = self.slab[slot].replace(row)?;
        for (rank, table) in self.tables.iter_mut().enumerate() {
            if old.keys[rank] != row.keys[rank] {
                table.remove(&old.keys[rank]);
                table.insert(row.keys[rank], slot);
            }
        }
        Some(old)
    }

    fn extract(&mut self, f: impl Fn(&Row<N>) -> bool) -> u64 {
        let mut sum = 0u64;
        let mut at = 0;
        while let Some(row) = self.take_from(&mut at, &f) {
            sum = sum.wrapping_add(row.keys[0]);
        }
        sum
    }

    fn iter(&self) -> impl Iterator<Item = &Row<N>> {
        self.slab.iter().flatten()
    }

    fn for_lent(&self) -> u64 {
        sum_of(self.iter().map(|row| row.keys[0]))
    }

    fn iter_mut(&mut self) -> impl ExactSizeIterator<Item = impl DerefMut<Target = Row<N>>> {
        let left = self.len();
        Held {
            slots: self.slab.iter_mut(),
            left,
        }
    }

    fn into_rows(self) -> impl Iterator<Item = Row<N>> {
        self.slab.into_iter().flatten()
    }

    fn retain(&mut self, mut keep: impl FnMut(&Row<N>) -> bool) {
        self.retain_mut(|row| keep(row));
    }

    fn retain_mut(&mut self, mut keep: impl FnMut(&mut Row<N>) -> bool) {
        for (slot, place) in self.slab.iter_mut().enumerate() {
            if let Some(row) = place.take_if(|row| !keep(row)) {
                for (table, key) in self.tables.iter_mut().zip(row.keys) {
                    table.remove(&key);
                }
                self.free.push(slot);
            }
        }
    }

    fn clear(&mut self) {
        self.slab.clear();
        self.free.clear();
        for table in &mut self.tables {
            table.clear();
        }
    }

    /// Moves the items to the first slots, so that they get other numbers, and makes new tables.
    fn shrink(&mut self) {
        self.slab.retain(|row| row.is_some());
        self.slab.shrink_to_fit();
        self.free = Vec::new();
        for (rank, table) in self.tables.iter_mut().enumerate() {
            table.clear();
            table.shrink_to(self.slab.len());
            for (slot, row) in self.slab.iter().flatten().enumerate() {
                table.insert(row.keys[rank], slot);
            }
        }
    }

    fn reserve(&mut self, more: usize) {
        self.slab.reserve(more.saturating_sub(self.free.len()));
        for table in &mut self.tables {
            table.reserve(more);
        }
    }
}

impl<const N: usize> PartialEq for ByHand<N> {
    fn eq(&self, other: &ByHand<N>) -> bool {
        self.len() == other.len() && self.iter().all(|row| other.get(row.keys[0]) == Some(row))
    }
}
