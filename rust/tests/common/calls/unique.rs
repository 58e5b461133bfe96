//! Random calls of the maps with two or three keys that name all the keys, and calls of hash maps alone.
use super::super::item::{Item, Key, shown, step};
use super::super::list::List;
use super::super::{Table, below, call};
use facetweave::{BiHashMap, IdHashMap, TriHashMap, bi_hash_map, tri_hash_map};
use std::hash::BuildHasher;

/// Keys of one item, of several, or of none.
fn some_keys(list: &List, n: u64) -> [u64; 3] {
    let mut keys = std::array::from_fn(|_| below(n));
    if !list.items.is_empty() {
        let (one, other) = (list.items[below(list.items.len() as u64) as usize], list.items[below(list.items.len() as u64) as usize]);
        match below(4) {
            0 => keys = one.0,
            1 => keys = [one.0[0], other.0[1], keys[2]],
            2 => keys = [keys[0], one.0[1], other.0[2]],
            _ => {}
        }
    }
    keys
}

fn same_keys(one: [u64; 3], other: [u64; 3], width: usize) -> bool {
    one[..width] == other[..width]
}

macro_rules! pops {
    ($($name:ident $map:ident;)*) => {
        $(pub fn $name<S: BuildHasher + Clone + Default>(map: &mut $map<Item, S>, list: &mut List, _: u64) {
            let gone = call!(map.pop());
            assert_eq!(gone.is_none(), list.items.is_empty());
            if let Some(item) = gone {
                let at = list.items.iter().position(|it| *it == item.shown()).expect("it was there");
                list.take(at);
            }
        })*
    };
}

pops! {
    pop_id IdHashMap;
    pop_bi BiHashMap;
    pop_tri TriHashMap;
}

macro_rules! unique {
    ($($family:ident $entries:ident $map:ident, $module:ident, $width:literal, [$($rank:literal $by:ident $into_by:ident $data:ident),*];)*) => {
        $(pub fn $family<S: BuildHasher + Clone + Default>(map: &mut $map<Item, S>, list: &mut List, n: u64) {
            let keys = some_keys(list, n);
            let (place, data, item) = (list.unique(keys), below(n + 8), Item::random(n));
            let wanted = place.map(|at| list.items[at]);
            let [$($by),*] = [$(Key::new(keys[$rank])),*];
            match below(6) {
                0 => assert_eq!(call!(map.get_unique($(&$by),*)).map(Item::shown), wanted),
                1 => assert_eq!(call!(map.contains_key_unique($(&$by),*)), wanted.is_some()),
                2 => {
                    let found = call!("update_unique", map.update_unique($(&$by,)* |it| { step(); it.data ^ 6 }));
                    assert_eq!(found, wanted.is_some());
                    place.inspect(|&at| list.items[at].1 ^= 6);
                }
                3 => {
                    let found = if below(2) == 0 {
                        call!(map.data_unique_mut($(&$by),*)).map(|it| *it = data).is_some()
                    } else {
                        call!(map.get_mut_unique($(&$by),*)).map(|mut it| *it.data_mut() = data).is_some()
                    };
                    assert_eq!(found, wanted.is_some());
                    place.inspect(|&at| list.items[at].1 = data);
                }
                4 => {
                    assert_eq!(call!(map.remove_unique($(&$by),*)).map(|it| it.shown()), wanted);
                    place.map(|at| list.take(at));
                }
                _ => assert_eq!(shown(call!(map.conflicts_with(&item))), list.conflicts(&item.shown())),
            }
        }

        pub fn $entries<S: BuildHasher + Clone + Default>(map: &mut $map<Item, S>, list: &mut List, n: u64) {
            use $module::{Entry, TryEntryError};
            let keys = some_keys(list, n);
            let (data, wanted, unique) = (below(n + 8), list.conflicts(&(keys, 0)), list.unique(keys).is_some());
            let by_rank = |list: &List, rank: usize| list.get(rank, keys[rank]);
            let told = if below(3) > 0 { (keys, data) } else { Item::random(n).shown() };
            let (item, fits) = (Item::new(told), same_keys(told.0, keys, $width));
            let [$($by),*] = [$(Key::new(keys[$rank])),*];
            let change = |list: &mut List, f: &dyn Fn(u64) -> u64| {
                list.items.iter_mut().filter(|it| (0..$width).any(|rank| it.0[rank] == keys[rank])).for_each(|it| it.1 = f(it.1));
            };
            let entry = call!(map.entry($(&$by),*));
            assert_eq!(matches!(entry, Entry::Occupied(_)), !wanted.is_empty());
            match (below(4), entry) {
                (0, entry) => {
                    // What a vacant entry refuses is an item of other keys.
                    let way = below(4);
                    let result = match way {
                        0 => call!("entry.or_insert", entry.or_insert(item)).map_err(|e| e.into_item()),
                        1 => call!("entry.or_insert_with", entry.or_insert_with(|| { step(); item })).map_err(|e| e.into_item()),
                        _ => call!("entry.or_try_insert_with", entry.or_try_insert_with(|| {
                            step();
                            if way == 2 { Ok(item) } else { Err(item) }
                        })).map_err(|e| match e.into_error() {
                            TryEntryError::Insert(e) => e.into_item(),
                            TryEntryError::Closure(item) => item,
                        }),
                    };
                    match result {
                        Ok(mut guard) if wanted.is_empty() => {
                            assert!(fits && way != 3 && guard.as_unique().expect("one item").shown() == told);
                            drop(guard);
                            list.add(told);
                        }
                        Ok(mut guard) => {
                            assert!(guard.is_unique() == unique && guard.is_non_unique() != unique);
                            $(assert_eq!(call!("guards.by_key", guard.$by()).map(|it| it.shown()), by_rank(list, $rank));)*
                            $(assert_eq!(call!("guards.data_mut", guard.$data()).map(|it| *it), by_rank(list, $rank).map(|it| it.1));)*
                            call!("guards.for_each", guard.for_each(|it| { step(); it.data ^ data }));
                            change(list, &|it| it ^ data);
                            assert_eq!(call!("guards.data_unique_mut", guard.data_unique_mut()).is_some(), unique);
                            match below($width + 1) {
                                $($rank => assert_eq!(call!("guards.into_by_key", guard.$into_by()).map(|it| it.shown()), by_rank(list, $rank)),)*
                                _ => assert_eq!(call!("guards.into_unique", guard.into_unique()).map(|it| it.shown()), by_rank(list, 0).filter(|_| unique)),
                            }
                        }
                        Err(item) => assert!(wanted.is_empty() && item.shown() == told && (!fits || way == 3)),
                    }
                }
                (1, entry) => {
                    let entry = call!("entry.and_modify", entry.and_modify(|it| { step(); it.data ^ 9 }));
                    change(list, &|it| it ^ 9);
                    if let Entry::Occupied(entry) = entry {
                        let found = call!("occupied.into_ref", entry.into_ref());
                        $(assert_eq!(found.$by().map(Item::shown), by_rank(list, $rank));)*
                        assert!(found.is_unique() == unique && found.as_unique().is_some() == unique);
                    }
                }
                (way, Entry::Vacant(entry)) => {
                    let result = match way + 2 * below(2) {
                        2 => call!("vacant.insert", entry.insert(item)).map(|it| assert_eq!(it.shown(), told)).map_err(|e| e.into_item()),
                        3 => call!("vacant.insert_mut", entry.insert_mut(item)).map(|it| assert!(it.is_unique())).map_err(|e| e.into_item()),
                        _ => call!("vacant.insert_entry", entry.insert_entry(item)).map(|it| assert!(it.is_unique())).map_err(|e| e.into_item()),
                    };
                    match result {
                        Ok(()) => {
                            assert!(fits);
                            list.add(told);
                        }
                        Err(item) => assert!(!fits && item.shown() == told),
                    }
                }
                (way, Entry::Occupied(mut entry)) => {
                    assert!(entry.is_unique() == unique && entry.is_non_unique() != unique);
                    let found = call!("occupied.get", entry.get());
                    $(assert_eq!(found.$by().map(Item::shown), by_rank(list, $rank));)*
                    match way + 2 * below(3) {
                        2 => {
                            let gone = call!("occupied.remove", entry.remove());
                            assert_eq!(shown(gone.iter()), wanted);
                            list.items.retain(|it| !wanted.contains(it));
                        }
                        3 => {
                            call!("occupied.for_each", entry.for_each(|it| { step(); it.data ^ data }));
                            change(list, &|it| it ^ data);
                        }
                        4 => {
                            let mut all = call!("occupied.get_mut", entry.get_mut());
                            assert_eq!(all.as_unique().is_some(), unique);
                        }
                        5 => {
                            $(assert_eq!(call!("occupied.data_mut", entry.$data()).map(|it| *it), by_rank(list, $rank).map(|it| it.1));)*
                            assert_eq!(call!("occupied.into_mut", entry.into_mut()).is_unique(), unique);
                        }
                        _ => match call!("occupied.insert", entry.insert(item)) {
                            Ok(gone) => {
                                assert!(fits && entry.is_unique() && shown(gone.iter()) == wanted);
                                list.overwrite(told);
                            }
                            Err(e) => assert!(!fits && e.into_item().shown() == told),
                        },
                    }
                }
            }
        })*
    };
}

unique! {
    bi bi_entries BiHashMap, bi_hash_map, 2, [0 by_key1 into_by_key1 data1_mut, 1 by_key2 into_by_key2 data2_mut];
    tri tri_entries TriHashMap, tri_hash_map, 3, [0 by_key1 into_by_key1 data1_mut, 1 by_key2 into_by_key2 data2_mut, 2 by_key3 into_by_key3 data3_mut];
}
