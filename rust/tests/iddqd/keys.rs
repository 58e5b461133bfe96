//! Calls that insert, and calls by a key.
use super::*;

#[test]
fn insert_overwrite() {
    let mut map = BiHashMap::new();
    // First insertion - no conflicts
    let overwritten = map.insert_overwrite(item(1, "foo", 42));
    assert!(overwritten.is_empty());
    // Overwrite existing item with key1 = 1
    let overwritten = map.insert_overwrite(item(1, "bar", 99));
    assert_eq!(overwritten.len(), 1);
    assert_eq!(overwritten[0].value, 42);
    // Overwrite two at once
    map.insert_unique(item(2, "baz", 7)).unwrap();
    let overwritten = map.insert_overwrite(item(2, "bar", 1));
    assert_eq!(overwritten.len(), 2);
    assert_eq!(map.len(), 1);
}

#[test]
fn insert_unique() {
    let mut map = BiHashMap::new();
    // Successful insertion
    assert!(map.insert_unique(item(1, "foo", 42)).is_ok());
    assert!(map.insert_unique(item(2, "bar", 99)).is_ok());
    // Duplicate key1
    assert!(map.insert_unique(item(1, "baz", 100)).is_err());
    // Duplicate key2
    assert!(map.insert_unique(item(3, "foo", 200)).is_err());
    // Both duplicates are reported
    let error = map.insert_unique(item(1, "bar", 300)).unwrap_err();
    assert_eq!(error.new_item().value, 300);
    assert_eq!(error.duplicates().len(), 2);
}

#[test]
fn contains_key_unique() {
    let mut map = BiHashMap::new();
    map.insert_unique(item(1, "foo", 42)).unwrap();
    map.insert_unique(item(2, "bar", 99)).unwrap();
    assert!(map.contains_key_unique(&1, "foo"));
    assert!(map.contains_key_unique(&2, "bar"));
    assert!(!map.contains_key_unique(&1, "bar"));
    assert!(!map.contains_key_unique(&3, "baz"));
}

#[test]
fn get_unique() {
    let mut map = BiHashMap::new();
    map.insert_unique(item(1, "foo", 42)).unwrap();
    assert_eq!(map.get_unique(&1, "foo").unwrap().value, 42);
    assert!(map.get_unique(&1, "bar").is_none());
    assert!(map.get_unique(&2, "foo").is_none());
}

#[test]
fn get_mut_unique() {
    let mut map = BiHashMap::new();
    map.insert_unique(item(1, "foo", 42)).unwrap();
    if let Some(mut item) = map.get_mut_unique(1, "foo") {
        item.value = 100;
    }
    assert_eq!(map.get_unique(&1, "foo").unwrap().value, 100);
}

#[test]
fn remove_unique() {
    let mut map = BiHashMap::new();
    map.insert_unique(item(1, "foo", 42)).unwrap();
    let removed = map.remove_unique(1, "foo");
    assert!(removed.is_some());
    assert_eq!(removed.unwrap().value, 42);
    assert!(map.is_empty());
    assert!(map.remove_unique(1, "foo").is_none());
}

#[test]
fn contains_key1() {
    let mut map = BiHashMap::new();
    map.insert_unique(item(1, "foo", 42)).unwrap();
    assert!(map.contains_key1(&1));
    assert!(!map.contains_key1(&2));
}

#[test]
fn get1() {
    let mut map = BiHashMap::new();
    map.insert_unique(item(1, "foo", 42)).unwrap();
    assert_eq!(map.get1(&1).unwrap().value, 42);
    assert!(map.get1(&2).is_none());
}

#[test]
fn get1_mut() {
    let mut map = BiHashMap::new();
    map.insert_unique(item(1, "foo", 42)).unwrap();
    if let Some(mut item) = map.get1_mut(1) {
        item.value = 100;
    }
    assert_eq!(map.get1(&1).unwrap().value, 100);
}

#[test]
fn remove1() {
    let mut map = BiHashMap::new();
    map.insert_unique(item(1, "foo", 42)).unwrap();
    let removed = map.remove1(1);
    assert!(removed.is_some());
    assert_eq!(removed.unwrap().value, 42);
    assert!(map.is_empty());
}

#[test]
fn contains_key2() {
    let mut map = BiHashMap::new();
    map.insert_unique(item(1, "foo", 42)).unwrap();
    assert!(map.contains_key2("foo"));
    assert!(!map.contains_key2("bar"));
}

#[test]
fn get2() {
    let mut map = BiHashMap::new();
    map.insert_unique(item(1, "foo", 42)).unwrap();
    assert_eq!(map.get2("foo").unwrap().value, 42);
    assert!(map.get2("bar").is_none());
}

#[test]
fn get2_mut() {
    let mut map = BiHashMap::new();
    map.insert_unique(item(1, "foo", 42)).unwrap();
    if let Some(mut item) = map.get2_mut("foo") {
        item.value = 100;
    }
    assert_eq!(map.get2("foo").unwrap().value, 100);
}

#[test]
fn remove2() {
    let mut map = BiHashMap::new();
    map.insert_unique(item(1, "foo", 42)).unwrap();
    let removed = map.remove2("foo");
    assert!(removed.is_some());
    assert_eq!(removed.unwrap().value, 42);
    assert!(map.is_empty());
}
