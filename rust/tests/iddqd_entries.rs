//! Drawn calls of the entries of `iddqd::IdHashMap` and `iddqd::IdOrdMap` beside a `BTreeMap`.
use facetweave::iddqd::{IdHashItem, IdHashMap, IdOrdItem, IdOrdMap, id_hash_map, id_ord_map, id_upcast};
use std::collections::BTreeMap;
use std::panic::{AssertUnwindSafe, catch_unwind};

#[derive(Clone, Debug, PartialEq)]
struct It {
    name: String,
    value: u64,
}

impl IdOrdItem for It {
    type Key<'a> = &'a str;
    fn key(&self) -> &str {
        &self.name
    }
    id_upcast!();
}

impl IdHashItem for It {
    type Key<'a> = &'a str;
    fn key(&self) -> &str {
        &self.name
    }
    id_upcast!();
}

struct Rng(u64);

impl Rng {
    fn below(&mut self, n: u64) -> u64 {
        self.0 ^= self.0 << 13;
        self.0 ^= self.0 >> 7;
        self.0 ^= self.0 << 17;
        (self.0 >> 11) % n
    }
}

macro_rules! drawn {
    ($name:ident $map:ty, $module:ident, $ends:expr) => {
        #[test]
        fn $name() {
            use $module::Entry;
            let mut rng = Rng(0x5EED);
            let (mut map, mut model) = (<$map>::default(), BTreeMap::<String, u64>::new());
            for call in 0..60_000 {
                let name = format!("n{:03}", rng.below(if call < 30_000 { 60 } else { 900 }));
                let item = It { name: name.clone(), value: call };
                match rng.below(9) {
                    0 => {
                        let value = *model.entry(name.clone()).or_insert(call);
                        assert_eq!(map.entry(&name).or_insert(item).value, value);
                    }
                    1 => {
                        let value = *model.entry(name.clone()).or_insert(call);
                        assert_eq!(map.entry(&name).or_insert_with_ref(|| item).value, value);
                    }
                    2 => {
                        let value = *model.entry(name.clone()).and_modify(|it| *it += 7).or_insert(call);
                        assert_eq!(map.entry(&name).and_modify(|mut it| it.value += 7).or_insert_ref(item).value, value);
                    }
                    3 => {
                        model.entry(name.clone()).and_modify(|it| *it *= 3).or_insert(call);
                        map.entry(&name).or_insert_with(|| It { value: u64::MAX, ..item }).value = model[&name];
                    }
                    4 | 5 => match map.entry(&name) {
                        Entry::Occupied(mut entry) => {
                            assert_eq!(entry.get().value, model[&name]);
                            entry.get_mut().value += 1;
                            assert_eq!(entry.insert(item).value, model[&name] + 1);
                            assert_eq!(entry.into_ref().value, call);
                            model.insert(name, call);
                        }
                        Entry::Vacant(entry) => {
                            assert_eq!(model.insert(name, call), None);
                            let mut entry = entry.insert_entry(item);
                            entry.get_mut().value = call;
                            assert_eq!(entry.into_mut().value, call);
                        }
                    },
                    6 | 7 => match map.entry(&name) {
                        Entry::Occupied(entry) => assert_eq!(Some(entry.remove().value), model.remove(&name)),
                        Entry::Vacant(_) => assert!(!model.contains_key(&name)),
                    },
                    _ => {
                        // An item of another key is refused, and the map is as it was.
                        let other = It { name: format!("n{:03}", rng.below(60)), value: 0 };
                        let same = other.name == name;
                        let refused = catch_unwind(AssertUnwindSafe(|| match map.entry(&name) {
                            Entry::Occupied(mut entry) if !same => drop(entry.insert(other)),
                            _ => panic!("as refused"),
                        }));
                        assert!(refused.is_err());
                    }
                }
                assert_eq!(map.len(), model.len());
                $ends(&mut map, &mut model, &mut rng);
                if call % 100 == 0 {
                    let mut all: Vec<_> = map.iter().map(|it| (it.name.clone(), it.value)).collect();
                    all.sort();
                    assert!(all.into_iter().eq(model.clone()));
                    assert!(model.iter().all(|(name, value)| map.get(name.as_str()).unwrap().value == *value));
                }
            }
        }
    };
}

drawn!(id_hash_entries IdHashMap<It>, id_hash_map, |_: &mut IdHashMap<It>, _: &mut BTreeMap<String, u64>, _: &mut Rng| {});
drawn!(id_ord_entries IdOrdMap<It>, id_ord_map, ends);

fn ends(map: &mut IdOrdMap<It>, model: &mut BTreeMap<String, u64>, rng: &mut Rng) {
    assert_eq!(map.first().map(|it| it.value), model.values().next().copied());
    match rng.below(40) {
        0 => assert_eq!(map.first_entry().map(|it| it.remove().value), model.pop_first().map(|it| it.1)),
        1 => assert_eq!(map.last_entry().map(|it| it.remove().value), model.pop_last().map(|it| it.1)),
        3 => {
            for (mut item, value) in map.iter_mut().zip(model.values_mut()) {
                item.value += 3;
                *value += 3;
            }
            let guards: Vec<_> = map.into_iter().rev().take(2).collect();
            assert!(guards.iter().map(|it| it.value).eq(model.values().rev().take(2).copied()));
        }
        2 => assert_eq!(map.last_entry().map(|it| it.get().value), model.last_key_value().map(|it| *it.1)),
        _ => {}
    }
}

#[test]
fn guards_of_ordered_items() {
    let it = |name: &str| It { name: name.into(), value: 0 };
    let mut map: IdOrdMap<It> = ["b", "a"].into_iter().map(it).collect();
    let mut guard = map.get_mut("a").unwrap();
    guard.reborrow().value = 5;
    assert_eq!(format!("{guard:?}"), format!("{:?}", It { value: 5, ..it("a") }));
    assert_eq!(guard.into_ref().value, 5);
    let changed = catch_unwind(AssertUnwindSafe(|| map.get_mut("a").unwrap().name.push('z')));
    assert_eq!(*changed.unwrap_err().downcast::<&str>().unwrap(), "key changed during RefMut borrow");
    map.try_reserve(100).unwrap();
    map.shrink_to_fit();
    assert_eq!(map.first_entry().unwrap().into_ref().name, "az");
}
