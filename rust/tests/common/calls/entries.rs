//! Random calls of entries of the maps with one key.
use super::super::item::{Item, Key, step};
use super::super::list::List;
use super::super::{Table, below, call};
use facetweave::{IdHashMap, IdOrdMap, id_hash_map, id_ord_map};
use std::hash::BuildHasher;

/// An entry that inserts, if it is vacant, an item of its key or one that it refuses.
fn some_item(list: &List, key: u64, n: u64) -> Item {
    let mut told = Item::random(n).shown();
    if list.width > 0 && below(3) > 0 {
        told.0[0] = key;
    }
    Item::new(told)
}

macro_rules! entries {
    ($([$($s:ident)?] $family:ident $map:ty, $module:ident;)*) => {
        $(pub fn $family<$($s: BuildHasher + Clone + Default)?>(map: &mut $map, list: &mut List, n: u64) {
            use $module::{Entry, EntryError, TryEntryError};
            let (key, item, data) = (below(n), some_item(list, 0, n), below(n + 8));
            let key = if below(3) > 0 { item.shown().0[0] } else { key };
            let (told, place, query) = (item.shown(), list.at(0, key), Key::new(key));
            let fits = told.0[0] == key;
            let entry = call!(map.entry(&query));
            assert_eq!(matches!(entry, Entry::Occupied(_)), place.is_some());
            match (below(4), entry) {
                (0, entry) => {
                    // What a vacant entry refuses is an item of another key.
                    let way = below(4);
                    let result = match way {
                        0 => call!("entry.or_insert", entry.or_insert(item)).map_err(|e| e.into_error()),
                        1 => call!("entry.or_insert_with", entry.or_insert_with(|| { step(); item })).map_err(|e| e.into_error()),
                        _ => call!("entry.or_try_insert_with", entry.or_try_insert_with(|| {
                            step();
                            if way == 2 { Ok(item) } else { Err(item) }
                        })).map_err(|e| match e.into_error() {
                            TryEntryError::Insert(e) => e,
                            TryEntryError::Closure(item) => {
                                assert_eq!(way, 3);
                                EntryError::Memory(item)
                            }
                        }),
                    };
                    match (result, place) {
                        (Ok(guard), Some(at)) => assert_eq!(guard.shown(), list.items[at]),
                        (Ok(guard), None) => {
                            assert!(fits && way != 3 && guard.shown() == told);
                            drop(guard);
                            list.add(told);
                        }
                        (Err(EntryError::Key(item)), None) => assert!(!fits && item.shown() == told),
                        (Err(EntryError::Memory(item)), None) => assert!(way == 3 && item.shown() == told),
                        (Err(_), Some(_)) => panic!("an occupied entry refuses nothing"),
                    }
                }
                (1, entry) => {
                    let entry = call!("entry.and_modify", entry.and_modify(|it| { step(); it.data ^ 9 }));
                    if let Some(at) = place {
                        let Entry::Occupied(entry) = entry else { panic!("it was occupied") };
                        assert_eq!(entry.get().data, list.items[at].1 ^ 9);
                        list.items[at].1 ^= 9;
                    }
                }
                (way, Entry::Vacant(entry)) => {
                    if way == 2 {
                        match call!("vacant.insert", entry.insert(item)) {
                            Ok(mut guard) => {
                                assert!(fits && guard.shown() == told);
                                *guard.data_mut() = data;
                                list.add((told.0, data));
                            }
                            Err(e) => assert!(!fits && e.into_item().shown() == told),
                        }
                    } else {
                        match call!("vacant.insert_entry", entry.insert_entry(item)) {
                            Ok(entry) => {
                                assert!(fits && entry.get().shown() == told);
                                list.add(told);
                            }
                            Err(e) => assert!(!fits && e.into_item().shown() == told),
                        }
                    }
                }
                (way, Entry::Occupied(mut entry)) => {
                    let at = place.expect("an item has the key");
                    assert_eq!(call!("occupied.get", entry.get()).shown(), list.items[at]);
                    match way + 2 * below(4) {
                        2 => assert_eq!(call!("occupied.remove", entry.remove()).shown(), list.take(at)),
                        3 => {
                            *call!("occupied.data_mut", entry.data_mut()) = data;
                            list.items[at].1 = data;
                        }
                        4 => {
                            call!("occupied.update", entry.update(|it| { step(); it.data ^ data }));
                            list.items[at].1 ^= data;
                        }
                        5 => {
                            *call!("occupied.get_mut", entry.get_mut()).data_mut() = data;
                            list.items[at].1 = data;
                        }
                        6 => *call!("occupied.into_mut", entry.into_mut()).data_mut() = list.items[at].1,
                        7 => assert_eq!(call!("occupied.into_ref", entry.into_ref()).shown(), list.items[at]),
                        _ => match call!("occupied.insert", entry.insert(item)) {
                            Ok(old) => {
                                assert!(fits && old.shown() == list.items[at]);
                                list.items[at] = told;
                            }
                            Err(e) => assert!(!fits && e.into_item().shown() == told),
                        },
                    }
                }
            }
        })*
    };
}

entries! {
    [S] id_hash IdHashMap<Item, S>, id_hash_map;
    [] id_ord IdOrdMap<Item>, id_ord_map;
}
