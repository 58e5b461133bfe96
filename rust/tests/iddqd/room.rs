//! Making a map, its room, and walks over it.
use super::*;

#[test]
fn new() {
    let map: BiHashMap<Item> = BiHashMap::new();
    assert!(map.is_empty());
    assert_eq!(map.len(), 0);
}

#[test]
fn with_capacity() {
    let map: BiHashMap<Item> = BiHashMap::with_capacity(10);
    assert!(map.capacity() >= 10);
    assert!(map.is_empty());
}

#[test]
fn with_hasher() {
    let hasher = RandomState::new();
    let map: BiHashMap<Item, RandomState> = BiHashMap::with_hasher(hasher);
    assert!(map.is_empty());
}

#[test]
fn with_capacity_and_hasher() {
    let hasher = RandomState::new();
    let map: BiHashMap<Item, _> = BiHashMap::with_capacity_and_hasher(10, hasher);
    assert!(map.capacity() >= 10);
    assert!(map.is_empty());
}

#[test]
fn capacity() {
    let map: BiHashMap<Item> = BiHashMap::with_capacity(10);
    assert!(map.capacity() >= 10);
    let empty_map: BiHashMap<Item> = BiHashMap::new();
    // (This example may be 0 or more.)
    let _ = empty_map.capacity();
}

#[test]
fn is_empty() {
    let mut map = BiHashMap::new();
    assert!(map.is_empty());
    map.insert_unique(item(1, "foo", 42)).unwrap();
    assert!(!map.is_empty());
}

#[test]
fn len() {
    let mut map = BiHashMap::new();
    assert_eq!(map.len(), 0);
    map.insert_unique(item(1, "foo", 42)).unwrap();
    map.insert_unique(item(2, "bar", 99)).unwrap();
    assert_eq!(map.len(), 2);
}

#[test]
fn clear() {
    let mut map = BiHashMap::new();
    map.insert_unique(item(1, "foo", 42)).unwrap();
    map.insert_unique(item(2, "bar", 99)).unwrap();
    assert_eq!(map.len(), 2);
    map.clear();
    assert!(map.is_empty());
    assert_eq!(map.len(), 0);
}

#[test]
fn reserve() {
    let mut map: BiHashMap<Item> = BiHashMap::new();
    map.reserve(100);
    assert!(map.capacity() >= 100);
}

#[test]
fn try_reserve() {
    let mut map: BiHashMap<Item> = BiHashMap::new();
    map.try_reserve(100).expect("allocation should succeed");
    assert!(map.capacity() >= 100);
}

#[test]
fn shrink_to_fit() {
    let mut map: BiHashMap<Item> = BiHashMap::with_capacity(100);
    map.insert_unique(item(1, "foo", 42)).unwrap();
    map.insert_unique(item(2, "bar", 99)).unwrap();
    assert!(map.capacity() >= 100);
    map.shrink_to_fit();
    assert!(map.capacity() >= 2);
}

#[test]
fn shrink_to() {
    let mut map: BiHashMap<Item> = BiHashMap::with_capacity(100);
    map.insert_unique(item(1, "foo", 42)).unwrap();
    map.insert_unique(item(2, "bar", 99)).unwrap();
    assert!(map.capacity() >= 100);
    map.shrink_to(10);
    assert!(map.capacity() >= 10);
    map.shrink_to(0);
    assert!(map.capacity() >= 2);
}

#[test]
fn iter() {
    let mut map = BiHashMap::new();
    map.insert_unique(item(1, "foo", 42)).unwrap();
    map.insert_unique(item(2, "bar", 99)).unwrap();
    let mut values: Vec<i32> = map.iter().map(|item| item.value).collect();
    values.sort();
    assert_eq!(values, vec![42, 99]);
}

#[test]
fn iter_mut() {
    let mut map = BiHashMap::new();
    map.insert_unique(item(1, "foo", 42)).unwrap();
    map.insert_unique(item(2, "bar", 99)).unwrap();
    for mut item in map.iter_mut() {
        item.value += 10;
    }
    assert_eq!(map.get1(&1).unwrap().value, 52);
    assert_eq!(map.get1(&2).unwrap().value, 109);
}
