//! Drawn calls of `iddqd::BiHashMap` and `iddqd::TriHashMap`, with entries, guards and walks, beside a list of items; in the other files
//! `range_mut`, and what the maps show.
use facetweave::iddqd::bi_hash_map::{Entry, OccupiedEntryMut, OccupiedEntryRef};
use facetweave::iddqd::{BiHashMap, TriHashMap};
use item::{Build, Draw, Item};
use model::Model;
use std::collections::BTreeMap;
use std::panic::{AssertUnwindSafe, catch_unwind};

mod item;
mod model;
mod range_mut;
mod shown;

macro_rules! drawn {
    (
        $name:ident $map:ident $keys:literal: $($n:literal $get:ident $get_mut:ident $remove:ident $contains:ident |$it:ident| $key:expr;)*
        unique |$u:ident| $unique:tt, by value $by_value:tt; then $more:expr
    ) => {
        #[test]
        fn $name() {
            for n in [4, 30, 600] {
                let mut draw = Draw(n * 77 + 1);
                let mut map = $map::<Item, Build>::default();
                let mut model = Model { items: Vec::new(), keys: $keys };
                for call in 0..12_000 {
                    let x = draw.item(n);
                    match draw.below(11) {
                        0 | 1 => {
                            let found = model.conflicts(&x);
                            match map.insert_unique(x.clone()) {
                                Ok(()) => assert!(found.is_empty()),
                                Err(e) => {
                                    assert!(e.new_item() == &x && e.duplicates().iter().copied().eq(&found) && !found.is_empty());
                                    assert_eq!(e.into_owned().into_parts(), (x.clone(), found.clone()));
                                }
                            }
                            if found.is_empty() {
                                model.items.push(x);
                            }
                        }
                        2 => {
                            let found = model.conflicts(&x);
                            model.take(&found);
                            model.items.push(x.clone());
                            assert_eq!(map.insert_overwrite(x), found);
                        }
                        $(
                            3 if draw.below(2) == 0 && $n == draw.below($keys) => {
                                let $it = &x;
                                let gone: Vec<Item> = model.by($n, &x).cloned().into_iter().collect();
                                model.take(&gone);
                                assert_eq!(map.$remove($key), gone.first().cloned());
                            }
                        )*
                        4 => {
                            $(
                                let $it = &x;
                                assert_eq!(map.$get(&$key), model.by($n, &x).as_deref());
                                assert_eq!(map.$contains(&$key), model.by($n, &x).is_some());
                                let written = map.$get_mut($key).map(|mut it| {
                                    it.3 += 1;
                                    it.reborrow().3 *= 2;
                                    it.into_ref().clone()
                                });
                                assert_eq!(written, model.by($n, &x).map(|it| {
                                    it.3 = (it.3 + 1) * 2;
                                    it.clone()
                                }));
                            )*
                        }
                        5 => {
                            let $u = &x;
                            assert_eq!(map.get_unique$unique, model.unique(&x).as_deref());
                            assert_eq!(map.contains_key_unique$unique, model.unique(&x).is_some());
                            assert_eq!(map.get_mut_unique$by_value.map(|mut it| std::mem::take(&mut it.3)), model.unique(&x).map(|it| std::mem::take(&mut it.3)));
                            if draw.below(4) == 0 {
                                let gone: Vec<Item> = model.unique(&x).cloned().into_iter().collect();
                                model.take(&gone);
                                assert_eq!(map.remove_unique$by_value, gone.first().cloned());
                            }
                        }
                        6 if call % 16 == 0 => {
                            let keep = draw.below(5);
                            map.retain(|mut it| {
                                it.3 += 1;
                                it.3 % 5 != keep
                            });
                            model.items.iter_mut().for_each(|it| it.3 += 1);
                            model.items.retain(|it| it.3 % 5 != keep);
                        }
                        7 if call % 16 == 0 => {
                            let values: BTreeMap<u32, u64> = model.items.iter().map(|it| (it.0, it.3)).collect();
                            let mut guards: Vec<_> = map.iter_mut().collect();
                            assert_eq!(guards.len(), model.items.len());
                            guards.iter_mut().for_each(|it| it.3 = values[&it.0] + 9);
                            drop(guards);
                            assert_eq!((&mut map).into_iter().len(), model.items.len());
                            model.items.iter_mut().for_each(|it| it.3 += 9);
                        }
                        8 if call % 64 == 0 => {
                            let copy = map.clone();
                            assert!(copy == map && (model.items.is_empty() || copy != $map::default()));
                            map = copy.into_iter().collect();
                            map.shrink_to(draw.below(40) as usize);
                            map.try_reserve(draw.below(40) as usize).unwrap();
                        }
                        9 if call % 256 == 0 => {
                            map.clear();
                            model.items.clear();
                        }
                        10 => $more(&mut map, &mut model, &mut draw, x),
                        _ => {}
                    }
                    assert_eq!((map.len(), map.is_empty(), map.iter().len()), (model.items.len(), model.items.is_empty(), model.items.len()));
                    if call % 32 == 0 {
                        let mut all: Vec<Item> = map.iter().cloned().collect();
                        all.sort();
                        assert_eq!(all, model.sorted());
                    }
                }
            }
        }
    };
}

drawn! {
    bi_hash BiHashMap 2:
    0 get1 get1_mut remove1 contains_key1 |it| it.0;
    1 get2 get2_mut remove2 contains_key2 |it| it.1.as_str();
    unique |it| (&it.0, it.1.as_str()), by value (it.0, &it.1); then entries
}

drawn! {
    tri_hash TriHashMap 3:
    0 get1 get1_mut remove1 contains_key1 |it| it.0;
    1 get2 get2_mut remove2 contains_key2 |it| it.1.as_str();
    2 get3 get3_mut remove3 contains_key3 |it| (it.2, "x");
    unique |it| (&it.0, it.1.as_str(), &(it.2, "x")), by value (it.0, &it.1, (it.2, "x")); then from_lists
}

fn entries(map: &mut BiHashMap<Item, Build>, model: &mut Model, draw: &mut Draw, x: Item) {
    let found = model.conflicts(&x);
    let unique = model.unique(&x).is_some();
    match map.entry(x.0, &x.1) {
        Entry::Vacant(entry) => {
            assert!(found.is_empty());
            model.items.push(x.clone());
            match draw.below(3) {
                0 => assert_eq!(*entry.insert(x.clone()), x),
                1 => assert_eq!(entry.insert_entry(x.clone()).into_ref().as_unique(), Some(&x)),
                _ => assert!(Entry::Vacant(entry).or_insert(x).is_unique()),
            }
        }
        Entry::Occupied(mut entry) => {
            assert!(!found.is_empty() && entry.is_unique() == unique && entry.is_non_unique() != unique);
            let (one, other) = (entry.get().by_key1().cloned(), entry.get().by_key2().cloned());
            assert_eq!((one, other), (model.by(0, &x).cloned(), model.by(1, &x).cloned()));
            match draw.below(5) {
                0 => {
                    model.take(&found);
                    assert_eq!(entry.remove(), found);
                }
                1 => {
                    model.take(&found);
                    model.items.push(x.clone());
                    assert_eq!(entry.insert(x.clone()), found);
                    assert!(matches!(entry.get(), OccupiedEntryRef::Unique(it) if *it == x));
                }
                2 => {
                    Entry::Occupied(entry).and_modify(|mut it| it.3 += 5).or_insert_with(|| unreachable!()).for_each(|mut it| it.3 += 1);
                    found.iter().for_each(|x| model.unique(x).unwrap().3 += 6);
                }
                3 => {
                    // An item with another key is refused, and the map is as it was.
                    let other = Item(x.0 + 1, x.1.clone(), 0, 0);
                    let expected = model.by(0, &other).cloned() == model.by(0, &x).cloned() && !unique;
                    let refused = catch_unwind(AssertUnwindSafe(|| if expected { panic!("as refused") } else { entry.insert(other) }));
                    assert!(refused.is_err());
                }
                _ => match entry.into_mut() {
                    OccupiedEntryMut::NonUnique { by_key1: Some(mut one), by_key2: Some(mut other) } => {
                        assert_eq!((one.0, &other.1), (x.0, &x.1));
                        std::mem::swap(&mut one.3, &mut other.3);
                        let (value, of_other) = (model.by(0, &x).unwrap().3, model.by(1, &x).unwrap().3);
                        model.by(0, &x).unwrap().3 = of_other;
                        model.by(1, &x).unwrap().3 = value;
                    }
                    mut items => assert_eq!(items.by_key1().is_some() && items.by_key2().is_some(), items.as_unique().is_some()),
                },
            }
        }
    }
}

fn from_lists(_: &mut TriHashMap<Item, Build>, _: &mut Model, draw: &mut Draw, x: Item) {
    let list = [x, draw.item(6), draw.item(6), draw.item(6)];
    let mut model = Model { items: Vec::new(), keys: 3 };
    let refused = list.iter().find_map(|it| {
        let found = model.conflicts(it);
        model.items.push(it.clone());
        (!found.is_empty()).then(|| (it.clone(), found))
    });
    match TriHashMap::<Item, Build>::from_iter_unique(list) {
        Ok(map) => assert!(refused.is_none() && map.iter().all(|it| model.items.contains(it)) && map.len() == 4),
        Err(e) => assert_eq!(Some(e.into_parts()), refused),
    }
}
