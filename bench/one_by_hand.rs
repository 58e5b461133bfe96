//! A map with one key, as a careful user of std would write it: a hash map from the key to the item, which has the key
//! again.
use crate::by_hand::Builder;
use crate::calls::{Map, sum_of, told};
use crate::workload::Row;
use std::collections::HashMap;
use std::collections::hash_map::Entry;
use std::ops::DerefMut;

#[derive(Clone, PartialEq)]
pub struct OneByHand(HashMap<u64, Row<1>, Builder>);

/// Returns what the map keeps of a row.
fn pair(row: Row<1>) -> (u64, Row<1>) {
    (row.keys[0], row)
}

impl Map<1> for OneByHand {
    const NAME: &'static str = "std";

    fn with_capacity(items: usize) -> OneByHand {
        OneByHand(HashMap::with_capacity_and_hasher(items, Builder::default()))
    }

    fn from_rows(rows: impl Iterator<Item = Row<1>>) -> OneByHand {
        OneByHand(rows.map(pair).collect())
    }

    fn from_unique_rows(rows: impl Iterator<Item = Row<1>>) -> Option<OneByHand> {
        let mut map = OneByHand::with_capacity(rows.size_hint().0);
        for row in rows {
            map.try_insert(row).ok()?;
        }
        Some(map)
    }

    fn len(&self) -> usize {
        self.0.len()
    }

    fn insert(&mut self, row: Row<1>) -> bool {
        self.try_insert(row).is_ok()
    }

    fn try_insert(&mut self, row: Row<1>) -> Result<(), (Row<1>, [bool; 1])> {
        match self.0.entry(row.keys[0]) {
            Entry::Vacant(entry) => {
                entry.insert(row);
                Ok(())
            }
            Entry::Occupied(_) => Err((row, [true])),
        }
    }

    fn or_insert(&mut self, row: Row<1>) -> Option<u64> {
        Some(told(self.0.entry(row.keys[0]).or_insert(row)))
    }

    fn overwrite(&mut self, row: Row<1>) -> usize {
        usize::from(self.0.insert(row.keys[0], row).is_some())
    }

    fn extend(&mut self, rows: impl Iterator<Item = Row<1>>) {
        self.0.extend(rows.map(pair));
    }

    fn get(&self, key: u64) -> Option<&Row<1>> {
        self.0.get(&key)
    }

    fn get_mut(&mut self, key: u64) -> Option<impl DerefMut<Target = Row<1>>> {
        self.0.get_mut(&key)
    }

    fn remove(&mut self, key: u64) -> Option<Row<1>> {
        self.0.remove(&key)
    }

    fn extract(&mut self, f: impl Fn(&Row<1>) -> bool) -> u64 {
        sum_of(self.0.extract_if(|_, row| f(row)).map(|(key, _)| key))
    }

    fn iter(&self) -> impl Iterator<Item = &Row<1>> {
        self.0.values()
    }

    fn for_lent(&self) -> u64 {
        sum_of(self.0.values().map(|row| row.keys[0]))
    }

    fn iter_mut(&mut self) -> impl ExactSizeIterator<Item = impl DerefMut<Target = Row<1>>> {
        self.0.values_mut()
    }

    fn into_rows(self) -> impl Iterator<Item = Row<1>> {
        self.0.into_values()
    }

    fn retain(&mut self, mut keep: impl FnMut(&Row<1>) -> bool) {
        self.0.retain(|_, row| keep(row));
    }

    fn retain_mut(&mut self, mut keep: impl FnMut(&mut Row<1>) -> bool) {
        self.0.retain(|_, row| keep(row));
    }

    fn clear(&mut self) {
        self.0.clear();
    }

    fn shrink(&mut self) {
        self.0.shrink_to_fit();
    }

    fn reserve(&mut self, more: usize) {
        self.0.reserve(more);
    }
}
