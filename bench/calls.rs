//! The calls that the loops make. If a map has no call for something, the default is what a caller of the map writes.
use crate::workload::Row;
use std::ops::DerefMut;

pub fn sum_of(numbers: impl Iterator<Item = u64>) -> u64 {
    numbers.fold(0, u64::wrapping_add)
}

/// Returns what the loops sum of an item that they meet: its second key, or, if it has one key, this and its value.
pub fn told<const N: usize>(row: &Row<N>) -> u64 {
    if N == 1 {
        row.keys[0].wrapping_add(row.value)
    } else {
        row.keys[1]
    }
}

/// A map with N keys.
pub trait Map<const N: usize>: Clone + PartialEq {
    /// What the side of this map is called.
    const NAME: &'static str;

    /// The names of operations that the map has no call for, and that a caller cannot write either.
    const LACKS: &'static [&'static str] = &[];

    fn with_capacity(items: usize) -> Self;
    fn from_rows(rows: impl Iterator<Item = Row<N>>) -> Self;
    fn from_unique_rows(rows: impl Iterator<Item = Row<N>>) -> Option<Self>;
    fn len(&self) -> usize;
    /// Returns whether the row was inserted.
    fn insert(&mut self, row: Row<N>) -> bool;
    /// Returns how many items conflicted.
    fn overwrite(&mut self, row: Row<N>) -> usize;
    fn extend(&mut self, rows: impl Iterator<Item = Row<N>>);
    fn get(&self, key: u64) -> Option<&Row<N>>;
    fn get_mut(&mut self, key: u64) -> Option<impl DerefMut<Target = Row<N>>>;
    fn remove(&mut self, key: u64) -> Option<Row<N>>;
    fn iter(&self) -> impl Iterator<Item = &Row<N>>;
    fn for_lent(&self) -> u64;
    fn iter_mut(&mut self) -> impl ExactSizeIterator<Item = impl DerefMut<Target = Row<N>>>;
    fn into_rows(self) -> impl Iterator<Item = Row<N>>;
    fn retain(&mut self, keep: impl FnMut(&Row<N>) -> bool);
    fn retain_mut(&mut self, keep: impl FnMut(&mut Row<N>) -> bool);
    fn clear(&mut self);
    fn shrink(&mut self);
    fn reserve(&mut self, more: usize);

    /// Inserts the row through the entry of its keys if no item has one of them. Returns what `told` says of the item
    /// that has all of them then, or `None` if there is no such item.
    fn or_insert(&mut self, row: Row<N>) -> Option<u64>;

    fn get_unique(&self, keys: [u64; N]) -> Option<&Row<N>> {
        self.get(keys[0]).filter(|row| row.keys == keys)
    }

    fn remove_unique(&mut self, keys: [u64; N]) -> Option<Row<N>> {
        self.get_unique(keys)?;
        self.remove(keys[0])
    }

    /// Inserts the row. The error has the row, and says of each key whether an item has it.
    fn try_insert(&mut self, row: Row<N>) -> Result<(), (Row<N>, [bool; N])>;

    /// Stores as each item's value what `f` returns for the item.
    fn update_all(&mut self, f: impl Fn(&Row<N>) -> u64) {
        for mut row in self.iter_mut() {
            row.value = f(&row);
        }
    }

    /// Puts a row in the place of the item with this first key, and returns that item. If there is none, or if the row
    /// conflicts with another item, the map is as before.
    fn rekey(&mut self, key: u64, row: Row<N>) -> Option<Row<N>> {
        let old = self.remove(key)?;
        if self.insert(row) {
            return Some(old);
        }
        self.insert(old);
        None
    }

    /// Takes out the items for which `f` returns `true`, and sums their first keys.
    fn extract(&mut self, f: impl Fn(&Row<N>) -> bool) -> u64 {
        let mut taken = Vec::new();
        self.retain(|row| {
            let stays = !f(row);
            if !stays {
                taken.push(*row);
            }
            stays
        });
        sum_of(taken.iter().map(|row| row.keys[0]))
    }

    /// Inserts all rows, or none of them. Returns how many it removed again.
    fn enter_all(&mut self, rows: &[Row<N>]) -> usize {
        let mut entered = Vec::new();
        for row in rows {
            if self.insert(*row) {
                entered.push(row.keys[0]);
                continue;
            }
            // The removed items are kept, because the error of this repository's call keeps them.
            let mut taken = Vec::with_capacity(entered.len());
            taken.extend(entered.into_iter().filter_map(|key| self.remove(key)));
            return taken.len();
        }
        0
    }
}
