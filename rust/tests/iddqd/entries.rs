//! Entries of a map with two keys.
use super::*;

#[test]
fn entry() {
    let mut map = BiHashMap::new();
    map.insert_unique(item(1, "foo", 42)).unwrap();
    // Get existing entry
    match map.entry(1, "foo") {
        Entry::Occupied(entry) => match entry.get() {
            OccupiedEntryRef::Unique(item) => assert_eq!(item.value, 42),
            OccupiedEntryRef::NonUnique { .. } => panic!("unique"),
        },
        Entry::Vacant(_) => panic!("occupied"),
    }
    // Try to get a non-existing entry
    match map.entry(2, "bar") {
        Entry::Vacant(entry) => {
            entry.insert(item(2, "bar", 99));
        }
        Entry::Occupied(_) => panic!("vacant"),
    }
    assert_eq!(map.len(), 2);
    // Keys of two items
    match map.entry(1, "bar") {
        Entry::Occupied(mut entry) => {
            assert!(entry.is_non_unique());
            let old = entry.insert(item(1, "bar", 5));
            assert_eq!(old.len(), 2);
            assert!(entry.is_unique());
        }
        Entry::Vacant(_) => panic!("occupied"),
    }
    assert_eq!(map.len(), 1);
}

#[test]
fn entry_or_insert() {
    let mut map = BiHashMap::new();
    // Insert a new item
    let mut v = map.entry(1, "foo").or_insert(item(1, "foo", 42));
    assert_eq!(v.as_unique().unwrap().value, 42);
    drop(v);
    // An existing one stays
    let mut v = map.entry(1, "foo").or_insert(item(1, "foo", 7));
    assert_eq!(v.as_unique().unwrap().value, 42);
}

#[test]
fn entry_or_insert_with() {
    let mut map = BiHashMap::new();
    map.entry(1, "foo").or_insert_with(|| item(1, "foo", 42));
    map.entry(1, "foo").or_insert_with(|| panic!("not called"));
    assert_eq!(map.get1(&1).unwrap().value, 42);
}

#[test]
fn entry_and_modify() {
    let mut map = BiHashMap::new();
    map.insert_unique(item(1, "foo", 42)).unwrap();
    map.entry(1, "foo").and_modify(|mut item| item.value += 1).or_insert(item(1, "foo", 0));
    assert_eq!(map.get1(&1).unwrap().value, 43);
    map.entry(2, "bar").and_modify(|mut item| item.value += 1).or_insert(item(2, "bar", 0));
    assert_eq!(map.get1(&2).unwrap().value, 0);
}

#[test]
fn vacant_insert_entry() {
    let mut map = BiHashMap::new();
    if let Entry::Vacant(entry) = map.entry(1, "foo") {
        let mut occupied = entry.insert_entry(item(1, "foo", 42));
        assert!(occupied.is_unique());
        assert_eq!(occupied.get().as_unique().unwrap().value, 42);
        match occupied.get_mut() {
            OccupiedEntryMut::Unique(mut item) => item.value = 43,
            OccupiedEntryMut::NonUnique { .. } => panic!("unique"),
        }
    }
    assert_eq!(map.get1(&1).unwrap().value, 43);
}

#[test]
fn occupied_remove() {
    let mut map = BiHashMap::new();
    map.insert_unique(item(1, "foo", 42)).unwrap();
    map.insert_unique(item(2, "bar", 99)).unwrap();
    if let Entry::Occupied(entry) = map.entry(1, "bar") {
        let mut removed = entry.remove();
        removed.sort_by_key(|x| x.id);
        assert_eq!(removed.iter().map(|x| x.value).collect::<Vec<_>>(), [42, 99]);
    }
    assert!(map.is_empty());
}

#[test]
fn occupied_into_ref_and_into_mut() {
    let mut map = BiHashMap::new();
    map.insert_unique(item(1, "foo", 42)).unwrap();
    if let Entry::Occupied(entry) = map.entry(1, "other") {
        let found = entry.into_ref();
        assert!(found.is_non_unique());
        assert_eq!(found.by_key1().unwrap().value, 42);
        assert!(found.by_key2().is_none());
    }
    if let Entry::Occupied(entry) = map.entry(1, "other") {
        let mut found = entry.into_mut();
        found.by_key1().unwrap().value = 5;
        assert!(found.by_key2().is_none());
        assert!(found.as_unique().is_none());
        found.for_each(|mut item| item.value += 1);
    }
    assert_eq!(map.get1(&1).unwrap().value, 6);
}
