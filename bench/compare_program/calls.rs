// The calls of one side, whose crate is `maps`. Each side's module includes this text.
use crate::draw::{Build, Draw};
use maps::{BiHashItem, TriHashItem};
use std::fmt::Debug;
use std::panic::{AssertUnwindSafe, catch_unwind};

/// An item of a key that it makes, one that it lends, one that is made of both, and a value.
#[derive(Clone, Debug, PartialEq, Eq, PartialOrd, Ord)]
pub struct Item(u32, String, u64, u64);

impl BiHashItem for Item {
    type K1<'a> = u32;
    type K2<'a> = &'a str;

    fn key1(&self) -> u32 {
        self.0
    }

    fn key2(&self) -> &str {
        &self.1
    }

    maps::bi_upcast!();
}

impl TriHashItem for Item {
    type K1<'a> = u32;
    type K2<'a> = &'a str;
    type K3<'a> = (u64, &'a str);

    fn key1(&self) -> u32 {
        self.0
    }

    fn key2(&self) -> &str {
        &self.1
    }

    fn key3(&self) -> (u64, &str) {
        (self.2, "x")
    }

    maps::tri_upcast!();
}

fn item(draw: &mut Draw, keys: u64) -> Item {
    Item(draw.below(keys) as u32, draw.below(keys).to_string(), draw.below(keys), draw.below(1 << 40))
}

fn sorted<'a>(items: impl IntoIterator<Item = &'a Item>) -> Vec<&'a Item> {
    let mut items: Vec<_> = items.into_iter().collect();
    items.sort();
    items
}

fn shown<T: Debug>(call: &str, result: T) -> String {
    format!("{call}: {result:?}")
}

/// What a call returns, or the message of its panic.
fn caught(call: &str, f: impl FnOnce() -> String) -> String {
    match catch_unwind(AssertUnwindSafe(f)) {
        Ok(result) => format!("{call}: {result}"),
        Err(payload) => {
            let text = payload.downcast_ref::<&str>().map(|it| it.to_string()).or_else(|| payload.downcast_ref::<String>().cloned());
            format!("{call}: panic {text:?}")
        }
    }
}

/// The calls that the maps have by the same names.
macro_rules! common {
    ($map:ident, $draw:ident, $keys:ident, $item:ident, $kind:ident, $same:ident) => {
        match $kind {
            0..4 => match $map.insert_unique($item) {
                Ok(()) => "insert_unique: ok".into(),
                Err(e) => {
                    let (new, duplicates) = (e.new_item().clone(), e.duplicates().len());
                    let (parts, items) = e.into_parts();
                    assert!(parts == new && items.len() == duplicates);
                    shown("insert_unique: refused", (new, sorted(items)))
                }
            },
            4 | 5 => shown("insert_overwrite", sorted(&$map.insert_overwrite($item))),
            6 => shown("remove1", $map.remove1($item.0)),
            7 => shown("remove2", $map.remove2(&$item.1)),
            8 => shown("get", ($map.get1(&$item.0), $map.get2($item.1.as_str()), $map.contains_key1(&$item.0), $map.contains_key2(&$item.1[..]))),
            9 => {
                let one = $map.get1_mut($item.0).map(|mut it| std::mem::replace(&mut it.3, $item.3));
                let other = $map.get2_mut(&$item.1).map(|mut it| {
                    it.reborrow().3 += 1;
                    it.into_ref().clone()
                });
                shown("write", (one, other))
            }
            10 if $draw.below(16) == 0 => {
                let kept = $draw.below(5);
                $map.retain(|mut it| {
                    it.3 += 1;
                    it.3 % 5 != kept
                });
                for mut it in &mut $map {
                    it.3 += 3;
                }
                let mut all: Vec<_> = $map.iter_mut().collect();
                all.iter_mut().for_each(|it| it.3 += 1);
                shown("retain, iter_mut", all.len())
            }
            11 => match $draw.below(6) {
                0 => {
                    $map.shrink_to_fit();
                    shown("shrink_to_fit", $map.capacity() >= $map.len())
                }
                1 => {
                    let least = $draw.below(50) as usize;
                    $map.shrink_to(least);
                    shown("shrink_to", $map.capacity() >= $map.len().max(least).min($map.capacity()))
                }
                2 => shown("try_reserve", $map.try_reserve($draw.below(50) as usize).is_ok()),
                3 if $draw.below(20) == 0 => {
                    $map.clear();
                    "clear".into()
                }
                4 if $draw.below(8) == 0 => {
                    let copy = $map.clone();
                    let same = copy == $map;
                    $map = copy.into_iter().collect();
                    $map.extend([$item]);
                    shown("clone, into_iter, collect, extend", (same, $map.len(), $map.iter().len()))
                }
                _ => {
                    let list = [$item.clone(), item(&mut $draw, $keys), $item, item(&mut $draw, $keys)];
                    match $same::from_iter_unique(list) {
                        Ok(map) => shown("from_iter_unique", sorted(&map)),
                        Err(e) => {
                            let (new, mut duplicates) = e.into_parts();
                            duplicates.sort();
                            shown("from_iter_unique: refused", (new, duplicates))
                        }
                    }
                }
            },
            _ => {
                // A guard whose keys change panics. The map is a copy, as what it then holds is not to be compared.
                let mut copy = $map.clone();
                let other = item(&mut $draw, $keys);
                caught("a changed key", || {
                    let mut guard = copy.get1_mut($item.0).expect("no item");
                    guard.1 = other.1;
                    guard.2 = other.2;
                    format!("{guard:?}")
                })
            }
        }
    };
}

/// After each call: how many items there are, and sometimes all of them.
macro_rules! after {
    ($map:ident, $call:ident, $line:ident) => {{
        assert_eq!($map.is_empty(), $map.len() == 0);
        match $call % 32 {
            0 => format!("{}, then {:?}", $line, sorted(&$map)),
            _ => format!("{}, then {}", $line, $map.len()),
        }
    }};
}

pub mod bi {
    use super::maps::bi_hash_map::{Entry, OccupiedEntryMut};
    use super::*;

    type Map = maps::BiHashMap<Item, Build>;

    fn entry(map: &mut Map, draw: &mut Draw, new: Item) -> String {
        let kind = draw.below(8);
        match map.entry(new.0, &new.1) {
            Entry::Vacant(entry) => match kind {
                0..3 => {
                    let mut guard = entry.insert(new);
                    guard.3 = 7;
                    shown("vacant insert", &*guard)
                }
                3..6 => shown("vacant insert_entry", entry.insert_entry(new).get()),
                // A new item that has other keys.
                _ => {
                    let other = Item(draw.below(40) as u32, new.1, new.2, 0);
                    caught("vacant insert of another key", || shown("inserted", entry.insert(other)))
                }
            },
            Entry::Occupied(mut entry) => {
                let seen = shown("occupied", (entry.is_unique(), entry.is_non_unique(), entry.get(), entry.get().by_key1(), entry.get().by_key2()));
                let then = match kind {
                    0 => shown("remove", sorted(&entry.remove())),
                    1 => shown("insert", (sorted(&entry.insert(new)), entry.get().as_unique())),
                    2 => {
                        entry.get_mut().for_each(|mut it| it.3 += 5);
                        shown("for_each", entry.into_ref())
                    }
                    3 => {
                        let other = Item(draw.below(40) as u32, new.1, new.2, 0);
                        caught("insert of another key", || shown("inserted", sorted(&entry.insert(other))))
                    }
                    _ => match entry.into_mut() {
                        OccupiedEntryMut::NonUnique { by_key1: Some(mut one), by_key2: Some(mut other) } => {
                            std::mem::swap(&mut one.3, &mut other.3);
                            shown("two guards", (&*one, &*other))
                        }
                        mut items => {
                            let both = items.as_unique().is_some();
                            let one = items.by_key1().is_some();
                            let other = items.by_key2().is_some();
                            format!("guards: {} {} {both} {one} {other} {items:?}", items.is_unique(), items.is_non_unique())
                        }
                    },
                };
                format!("{seen}, {then}")
            }
        }
    }

    pub fn calls(mut draw: Draw, keys: u64, calls: u64) -> Vec<String> {
        let mut map = Map::with_capacity_and_hasher(0, Build);
        let one_call = |call: u64| {
            let new = item(&mut draw, keys);
            let kind = draw.below(18);
            let line = match kind {
                0..13 => common!(map, draw, keys, new, kind, Map),
                13 => shown("get_unique", (map.get_unique(&new.0, new.1.as_str()), map.contains_key_unique(&new.0, new.1.as_str()))),
                14 => shown("get_mut_unique", map.get_mut_unique(new.0, &new.1).map(|mut it| std::mem::take(&mut it.3))),
                15 => shown("remove_unique", map.remove_unique(new.0, &new.1)),
                16 if new.3 % 2 == 0 => {
                    let entry = map.entry(new.0, &new.1).and_modify(|mut it| it.3 += 2);
                    shown("and_modify, or_insert", entry.or_insert(Item(new.0, new.1.clone(), new.2, new.3)))
                }
                16 => {
                    let one: Map = [new].into_iter().collect();
                    format!("{one:?} {:?} {:#?}", one.debug_with_keys(), one.debug_with_keys())
                }
                _ => entry(&mut map, &mut draw, new),
            };
            after!(map, call, line)
        };
        (0..calls).map(one_call).collect()
    }
}

pub mod tri {
    use super::*;

    type Map = maps::TriHashMap<Item, Build>;

    pub fn calls(mut draw: Draw, keys: u64, calls: u64) -> Vec<String> {
        let mut map = Map::with_capacity_and_hasher(0, Build);
        let one_call = |call: u64| {
            let new = item(&mut draw, keys);
            let kind = draw.below(18);
            let key3 = (new.2, "x");
            let line = match kind {
                0..13 => common!(map, draw, keys, new, kind, Map),
                13 => shown("get3", (map.get3(&key3), map.contains_key3(&key3), map.get_unique(&new.0, new.1.as_str(), &key3))),
                14 => shown("get3_mut", map.get3_mut(key3).map(|mut it| std::mem::take(&mut it.3))),
                15 => shown("remove3", map.remove3(key3)),
                16 => {
                    let one: Map = [new].into_iter().collect();
                    format!("{one:?} {:?} {:#?}", one.debug_with_keys(), one.debug_with_keys())
                }
                _ => {
                    let written = map.get_mut_unique(new.0, &new.1, key3).map(|mut it| std::mem::take(&mut it.3));
                    shown("remove_unique", (written, map.contains_key_unique(&new.0, &new.1[..], &key3), map.remove_unique(new.0, &new.1, key3)))
                }
            };
            after!(map, call, line)
        };
        (0..calls).map(one_call).collect()
    }
}
