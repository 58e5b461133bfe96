//! Calls about all the items of a map.
use super::*;

#[test]
fn retain() {
    let mut map = BiHashMap::new();
    map.insert_unique(item(1, "foo", 42)).unwrap();
    map.insert_unique(item(2, "bar", 20)).unwrap();
    map.insert_unique(item(3, "baz", 99)).unwrap();
    // Retain only items where value is greater than 30
    map.retain(|item| item.value > 30);
    assert_eq!(map.len(), 2);
    assert_eq!(map.get1(&1).unwrap().value, 42);
    assert_eq!(map.get1(&3).unwrap().value, 99);
    assert!(map.get1(&2).is_none());
}

#[test]
fn retain_writes() {
    let mut map = BiHashMap::new();
    map.insert_unique(item(1, "foo", 42)).unwrap();
    map.insert_unique(item(2, "bar", 20)).unwrap();
    map.retain(|mut item| {
        item.value += 1;
        item.value > 30
    });
    assert_eq!(map.get1(&1).unwrap().value, 43);
}

#[test]
fn from_iter_unique() {
    let items = vec![item(1, "foo", 42), item(2, "bar", 99)];
    let map: BiHashMap<Item> = BiHashMap::from_iter_unique(items).unwrap();
    assert_eq!(map.len(), 2);
    assert_eq!(map.get1(&1).unwrap().value, 42);
    assert_eq!(map.get2("bar").unwrap().value, 99);
    // Duplicate keys are rejected
    let items = vec![item(1, "foo", 42), item(1, "bar", 99)];
    assert!(BiHashMap::<Item>::from_iter_unique(items).is_err());
}

#[test]
fn from_iter() {
    let map: BiHashMap<Item> = [item(1, "foo", 42), item(1, "bar", 99)].into_iter().collect();
    assert_eq!(map.len(), 1);
    assert_eq!(map.get1(&1).unwrap().value, 99);
}

#[test]
fn partial_eq() {
    let mut map1 = BiHashMap::new();
    map1.insert_unique(item(1, "foo", 42)).unwrap();
    map1.insert_unique(item(2, "bar", 99)).unwrap();
    let mut map2 = BiHashMap::new();
    map2.insert_unique(item(2, "bar", 99)).unwrap();
    map2.insert_unique(item(1, "foo", 42)).unwrap();
    // Maps are equal even if insertion order differs
    assert_eq!(map1, map2);
    map2.insert_unique(item(3, "baz", 1)).unwrap();
    assert_ne!(map1, map2);
}

#[test]
fn extend() {
    let mut map = BiHashMap::new();
    map.insert_unique(item(1, "foo", 42)).unwrap();
    let new_items = vec![item(2, "bar", 99), item(1, "baz", 100)];
    map.extend(new_items);
    assert_eq!(map.len(), 2);
    assert_eq!(map.get1(&1).unwrap().name, "baz"); // overwritten
    assert_eq!(map.get1(&1).unwrap().value, 100);
    assert_eq!(map.get1(&2).unwrap().value, 99);
}

#[test]
fn into_iter() {
    let mut map = BiHashMap::new();
    map.insert_unique(item(1, "foo", 42)).unwrap();
    map.insert_unique(item(2, "bar", 99)).unwrap();
    let mut seen = 0;
    for item in &map {
        seen += item.value;
    }
    for mut item in &mut map {
        item.value += 1;
    }
    for item in map {
        seen += item.value;
    }
    assert_eq!(seen, 42 + 99 + 43 + 100);
}

#[test]
fn clone_and_default() {
    let mut map: BiHashMap<Item> = BiHashMap::default();
    map.insert_unique(item(1, "foo", 42)).unwrap();
    let copy = map.clone();
    map.clear();
    assert_eq!(copy.len(), 1);
    assert_ne!(copy, map);
}

#[test]
fn lent_and_boxed_items() {
    let first = item(1, "foo", 42);
    let second = item(2, "bar", 99);
    let mut lent: BiHashMap<&Item> = BiHashMap::new();
    lent.insert_unique(&first).unwrap();
    lent.insert_unique(&second).unwrap();
    assert!(lent.insert_unique(&first).is_err());
    assert_eq!(lent.get2("bar").unwrap().value, 99);
    let mut boxed: BiHashMap<Box<Item>> = BiHashMap::new();
    boxed.insert_unique(Box::new(first)).unwrap();
    boxed.get1_mut(1).unwrap().value = 7;
    assert_eq!(boxed.get2("foo").unwrap().value, 7);
}

#[test]
fn duplicate_into_parts() {
    let mut map = BiHashMap::new();
    map.insert_unique(item(1, "foo", 42)).unwrap();
    let error = map.insert_unique(item(1, "bar", 99)).unwrap_err();
    let (new, duplicates) = error.into_parts();
    assert_eq!(new, item(1, "bar", 99));
    assert_eq!(duplicates, [&item(1, "foo", 42)]);
}
