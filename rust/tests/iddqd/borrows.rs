//! How long an answer borrows its map.
use super::*;

/// The answer is bound, taken apart by a match, and the map is used behind it in the same block.
#[test]
fn a_bound_answer_lets_the_map_go() {
    let mut map = BiHashMap::new();
    map.insert_unique(item(1, "foo", 42)).unwrap();
    let answer = map.insert_unique(item(1, "bar", 99));
    let is_refused = match answer {
        Ok(()) => false,
        Err(e) => e.into_parts().0.value == 99,
    };
    assert!(is_refused && map.len() == 1);
}

/// The map is used in the arm of a refusal that is taken apart.
#[test]
fn a_refusal_taken_apart_lets_the_map_go() {
    let mut map = BiHashMap::new();
    map.insert_unique(item(1, "foo", 42)).unwrap();
    match map.insert_unique(item(1, "bar", 99)) {
        Ok(()) => panic!("refused"),
        Err(e) => {
            let (item, _) = e.into_parts();
            let old = map.insert_overwrite(item);
            assert_eq!(old.len(), 1);
        }
    }
}

/// The map is used in the arm of a refusal, whose duplicates have been read.
#[test]
fn ids_of_duplicates_are_removed() {
    let mut map = BiHashMap::new();
    map.insert_unique(item(1, "foo", 42)).unwrap();
    map.insert_unique(item(2, "bar", 99)).unwrap();
    if let Err(e) = map.insert_unique(item(1, "bar", 0)) {
        let ids: Vec<u32> = e.duplicates().iter().map(|x| x.id).collect();
        for id in ids {
            map.remove1(id);
        }
    }
    assert!(map.is_empty());
}

#[test]
fn guard_entry_walk_then_map() {
    let mut map = BiHashMap::new();
    map.insert_overwrite(item(1, "foo", 42));
    let mut walk = map.iter_mut();
    while let Some(mut x) = walk.next() {
        x.value = 0;
    }
    assert_eq!(map.len(), 1);
    let is_vacant = matches!(map.entry(2, "x"), Entry::Vacant(_));
    assert!(is_vacant && map.len() == 1);
}
