//! A map with three keys.
use super::*;

fn three() -> TriHashMap<Person> {
    let mut map = TriHashMap::new();
    map.insert_unique(person(1, "alice@example.com", "555-1234", "Alice")).unwrap();
    map
}

#[test]
fn new() {
    let map: TriHashMap<Person> = TriHashMap::new();
    assert!(map.is_empty());
    assert_eq!(map.len(), 0);
}

#[test]
fn with_capacity() {
    let map: TriHashMap<Person> = TriHashMap::with_capacity(10);
    assert!(map.capacity() >= 10);
    assert!(map.is_empty());
}

#[test]
fn with_hasher() {
    let map: TriHashMap<Person, RandomState> = TriHashMap::with_hasher(RandomState::new());
    assert!(map.is_empty());
}

#[test]
fn with_capacity_and_hasher() {
    let map: TriHashMap<Person, _> = TriHashMap::with_capacity_and_hasher(10, RandomState::new());
    assert!(map.capacity() >= 10);
    assert!(map.is_empty());
}

#[test]
fn capacity_len_is_empty_clear() {
    let mut map = three();
    assert!(map.capacity() >= 1);
    assert_eq!(map.len(), 1);
    assert!(!map.is_empty());
    map.clear();
    assert!(map.is_empty());
}

#[test]
fn insert_overwrite() {
    let mut map = TriHashMap::new();
    let overwritten = map.insert_overwrite(person(1, "alice@example.com", "555-1234", "Alice"));
    assert!(overwritten.is_empty());
    // Three people are displaced at once
    map.insert_unique(person(2, "bob@example.com", "555-5678", "Bob")).unwrap();
    map.insert_unique(person(3, "carol@example.com", "555-9999", "Carol")).unwrap();
    let overwritten = map.insert_overwrite(person(1, "bob@example.com", "555-9999", "Dave"));
    assert_eq!(overwritten.len(), 3);
    assert_eq!(map.len(), 1);
}

#[test]
fn insert_unique() {
    let mut map = TriHashMap::new();
    assert!(map.insert_unique(person(1, "alice@example.com", "555-1234", "Alice")).is_ok());
    // Duplicate id, email, phone
    assert!(map.insert_unique(person(1, "bob@example.com", "555-5678", "Bob")).is_err());
    assert!(map.insert_unique(person(2, "alice@example.com", "555-5678", "Bob")).is_err());
    assert!(map.insert_unique(person(2, "bob@example.com", "555-1234", "Bob")).is_err());
    assert!(map.insert_unique(person(2, "bob@example.com", "555-5678", "Bob")).is_ok());
    let error = map.insert_unique(person(1, "bob@example.com", "x", "Eve")).unwrap_err();
    assert_eq!(error.duplicates().len(), 2);
}

#[test]
fn unique_lookups() {
    let mut map = three();
    assert!(map.contains_key_unique(&1, "alice@example.com", "555-1234"));
    assert!(!map.contains_key_unique(&2, "alice@example.com", "555-1234"));
    assert_eq!(map.get_unique(&1, "alice@example.com", "555-1234").unwrap().name, "Alice");
    assert!(map.get_unique(&1, "alice@example.com", "555-0000").is_none());
    if let Some(mut p) = map.get_mut_unique(1, "alice@example.com", "555-1234") {
        p.name = "Alicia".to_string();
    }
    assert_eq!(map.get1(&1).unwrap().name, "Alicia");
    let removed = map.remove_unique(1, "alice@example.com", "555-1234");
    assert_eq!(removed.unwrap().name, "Alicia");
    assert!(map.remove_unique(1, "alice@example.com", "555-1234").is_none());
}

#[test]
fn contains() {
    let map = three();
    assert!(map.contains_key1(&1) && !map.contains_key1(&2));
    assert!(map.contains_key2("alice@example.com") && !map.contains_key2("bob@example.com"));
    assert!(map.contains_key3("555-1234") && !map.contains_key3("555-5678"));
}

#[test]
fn get() {
    let map = three();
    assert_eq!(map.get1(&1).unwrap().name, "Alice");
    assert_eq!(map.get2("alice@example.com").unwrap().name, "Alice");
    assert_eq!(map.get3("555-1234").unwrap().name, "Alice");
    assert!(map.get1(&2).is_none() && map.get2("x").is_none() && map.get3("y").is_none());
}

#[test]
fn get_mut() {
    let mut map = three();
    map.get1_mut(1).unwrap().name = "A".to_string();
    assert_eq!(map.get1(&1).unwrap().name, "A");
    map.get2_mut("alice@example.com").unwrap().name = "B".to_string();
    assert_eq!(map.get1(&1).unwrap().name, "B");
    map.get3_mut("555-1234").unwrap().name = "C".to_string();
    assert_eq!(map.get1(&1).unwrap().name, "C");
}

#[test]
fn remove() {
    let mut map = three();
    assert_eq!(map.remove1(1).unwrap().name, "Alice");
    assert!(map.is_empty() && map.remove1(1).is_none());
    let mut map = three();
    assert_eq!(map.remove2("alice@example.com").unwrap().name, "Alice");
    assert!(map.is_empty());
    let mut map = three();
    assert_eq!(map.remove3("555-1234").unwrap().name, "Alice");
    assert!(map.is_empty());
}

#[test]
fn others() {
    let people = vec![person(1, "alice@example.com", "555-1234", "Alice"), person(2, "bob@example.com", "555-5678", "Bob")];
    let mut map: TriHashMap<Person> = TriHashMap::from_iter_unique(people).unwrap();
    map.extend([person(2, "z", "555-0000", "Zed")]);
    assert_eq!(map.get2("z").unwrap().name, "Zed");
    map.retain(|p| p.id == 2);
    assert_eq!(map.len(), 1);
    let mut names: Vec<&str> = map.iter().map(|p| p.name.as_str()).collect();
    names.sort();
    assert_eq!(names, ["Zed"]);
    for mut p in map.iter_mut() {
        p.name.push('!');
    }
    assert_eq!(map.get1(&2).unwrap().name, "Zed!");
}
