//! A caller's code that misbehaves, at each of the four maps of `facetweave::iddqd`: it panics in a hash, an equality, an ordering, a
//! `clone`, a `drop`, a closure or an iterator; it forgets guards; its keys are unlawful; it changes a key under a guard.
//!
//! After a panic with lawful keys a map is whole. With other keys its answers may be wrong and its calls may panic, but each call ends
//! and each item is dropped once.
use caller::{DRAW, Item, Key, LEFT, LIVE, UNLAWFUL, below, tick};
use facetweave::iddqd::{BiHashMap, IdHashMap, IdOrdMap, TriHashMap, bi_hash_map, id_hash_map, id_ord_map};
use std::collections::BTreeSet;
use std::panic::{AssertUnwindSafe, catch_unwind};

mod caller;

type Seen = BTreeSet<(u64, u64, u64)>;

/// A map under test.
trait Subject: Default + Clone {
    /// How many keys an item has, and how many kinds of calls there are.
    const KEYS: usize;
    const KINDS: u64 = 16;
    /// The calls that go from item to item, and so may be cut off half way.
    const STEPWISE: &'static [u64] = &[5, 6, 7, 9];
    fn call(&mut self, kind: u64, x: Item);
    /// Changes keys of an item under a guard, which the caller forgets.
    fn forget_guard(&mut self, x: &Item);
    /// Its items, of which each is found by its keys.
    fn whole(&self) -> Seen;
    fn length(&self) -> usize;
    fn empty(&mut self);
}

macro_rules! subject {
    ($map:ident: [$($field:tt $get:ident $get_mut:ident $remove:ident $contains:ident),*] entries $entries:path) => {
        impl Subject for $map<Item> {
            const KEYS: usize = [$($field),*].len();

            fn call(&mut self, kind: u64, x: Item) {
                match kind {
                    0 | 1 => drop(self.insert_unique(x)),
                    2 | 3 => drop(self.insert_overwrite(x)),
                    4 => {
                        $(let _ = self.$get(&Key(x.$field)).is_some() == self.$contains(&Key(x.$field));)*
                    }
                    5 => {
                        let keep = below(7);
                        self.retain(|mut it| {
                            tick();
                            it.3 += 1;
                            it.0 % 7 != keep
                        })
                    }
                    6 => self.extend((0..4).map(|_| {
                        tick();
                        Item::drawn(40)
                    })),
                    7 if below(6) == 0 => self.clear(),
                    // Few items in a large table.
                    7 if below(6) == 0 => self.reserve(6_000),
                    8 => {
                        for mut it in &mut *self {
                            it.3 += 1;
                        }
                        // All guards at once.
                        self.iter_mut().collect::<Vec<_>>().iter_mut().rev().for_each(|it| it.3 += 1);
                    }
                    9 => {
                        $(drop(self.$remove(Key(x.$field)));)*
                    }
                    10 => {
                        $(
                            if let Some(mut it) = self.$get_mut(Key(x.$field)) {
                                it.3 += 1;
                                it.reborrow().3 += 1;
                                let _ = it.into_ref().3;
                            }
                        )*
                    }
                    11 => {
                        let copy = self.clone();
                        let _ = copy == *self;
                        let _ = copy.into_iter().count();
                    }
                    12 => self.shrink_to_fit(),
                    13 => drop(Self::from_iter_unique((0..5).map(|_| {
                        tick();
                        Item::drawn(40)
                    }))),
                    _ => $entries(self, x),
                }
            }

            fn forget_guard(&mut self, x: &Item) {
                if let Some(mut it) = self.iter_mut().nth(x.0 as usize) {
                    (it.0, it.1, it.2) = (below(40), below(40), below(40));
                    std::mem::forget(it);
                }
            }

            fn whole(&self) -> Seen {
                let seen: Seen = self.iter().map(|it| (it.0, it.1, it.2)).collect();
                assert_eq!((seen.len(), self.iter().len()), (self.len(), self.len()));
                for it in self {
                    $(assert!(std::ptr::eq(self.$get(&Key(it.$field)).expect("an item is found"), it));)*
                }
                seen
            }

            fn length(&self) -> usize {
                self.len()
            }

            fn empty(&mut self) {
                self.clear()
            }
        }
    };
}

subject!(IdHashMap: [0 get get_mut remove contains_key] entries id_entry);
subject!(IdOrdMap: [0 get get_mut remove contains_key] entries ord_entry);
subject!(BiHashMap: [0 get1 get1_mut remove1 contains_key1, 1 get2 get2_mut remove2 contains_key2] entries bi_entry);
subject!(TriHashMap: [0 get1 get1_mut remove1 contains_key1, 1 get2 get2_mut remove2 contains_key2, 2 get3 get3_mut remove3 contains_key3]
    entries tri_unique);

macro_rules! one_key_entry {
    ($name:ident $map:ident $module:ident) => {
        fn $name(map: &mut $map<Item>, x: Item) {
            use $module::Entry;
            let entry = map.entry(Key(x.0)).and_modify(|mut it| {
                tick();
                it.3 += 1
            });
            match (entry, below(5)) {
                (Entry::Occupied(mut entry), 0) => drop(entry.insert(x)),
                (Entry::Occupied(entry), 1 | 2) => drop(entry.remove()),
                (Entry::Vacant(entry), 0) => entry.insert(x).3 += 1,
                (Entry::Vacant(entry), 1) => drop(entry.insert_entry(x).remove()),
                (entry, 3) => drop(entry.or_insert_with_ref(|| x)),
                (entry, _) => {
                    entry.or_insert_with(|| {
                        tick();
                        x
                    });
                }
            }
        }
    };
}

one_key_entry!(id_entry IdHashMap id_hash_map);
one_key_entry!(ord_entry IdOrdMap id_ord_map);

fn bi_entry(map: &mut BiHashMap<Item>, x: Item) {
    use bi_hash_map::Entry;
    let entry = map.entry(Key(x.0), Key(x.1)).and_modify(|mut it| {
        tick();
        it.3 += 1
    });
    match (entry, below(5)) {
        (Entry::Occupied(mut entry), 0) => drop(entry.insert(x)),
        (Entry::Occupied(entry), 1 | 2) => drop(entry.remove()),
        // Both guards of an entry with two items.
        (Entry::Occupied(entry), _) => entry.into_mut().for_each(|mut it| it.3 += 1),
        (Entry::Vacant(entry), 0) => entry.insert(x).3 += 1,
        (Entry::Vacant(entry), 1) => drop(entry.insert_entry(x).remove()),
        (entry, _) => {
            entry.or_insert_with(|| {
                tick();
                x
            });
        }
    }
}

fn tri_unique(map: &mut TriHashMap<Item>, x: Item) {
    if let Some(mut it) = map.get_mut_unique(Key(x.0), Key(x.1), Key(x.2)) {
        it.3 += 1;
    }
    drop(map.remove_unique(Key(x.0), Key(x.1), Key(x.2)));
}

fn quiet() {
    std::panic::set_hook(Box::new(|it| {
        let text = it.to_string();
        if text.contains("dropped") {
            eprintln!("{text}")
        }
    }));
}

fn panics<M: Subject>(name: &str) {
    quiet();
    let (mut all, mut changed) = (0, 0);
    for n in [5, 30, 400] {
        DRAW.set(n * 77 + 1);
        let mut map = M::default();
        for _ in 0..6_000 {
            let (x, kind) = (Item::drawn(n), below(M::KINDS));
            let before = map.whole();
            let keys = (x.0, x.1, x.2);
            LEFT.set(below(14));
            let done = catch_unwind(AssertUnwindSafe(|| map.call(kind, x))).is_ok();
            LEFT.set(u64::MAX);
            let after = map.whole();
            assert_eq!(LIVE.with_borrow(|it| it.len()), map.length(), "call {kind}: an item is neither in the map nor dropped");
            if !done {
                all += 1;
                // The call has done nothing, or all of it before the panic.
                let shares_a_key = |it: &&(u64, u64, u64)| {
                    let shared = [it.0 == keys.0, it.1 == keys.1, it.2 == keys.2];
                    shared[..M::KEYS].contains(&true)
                };
                let rest: Seen = before.iter().filter(|it| !shares_a_key(it)).copied().collect();
                let others: Seen = before.iter().filter(|it| **it != keys).copied().collect();
                let with = |seen: &Seen| seen.iter().copied().chain([keys]).collect::<Seen>();
                let whole_call = match kind {
                    0 | 1 => vec![with(&before)],
                    2 | 3 => vec![with(&rest)],
                    14.. => vec![with(&before), with(&rest), rest, others],
                    _ => vec![],
                };
                changed += u64::from(after != before);
                let expected = after == before || whole_call.contains(&after) || M::STEPWISE.contains(&kind);
                assert!(expected, "{name}, call {kind}: {keys:?} {before:?} {after:?} dropped");
            }
            if map.length() > 120 {
                map = M::default();
            }
        }
        drop(map);
        assert!(LIVE.with_borrow(|it| it.is_empty()), "each item is dropped");
    }
    assert!(all > 3_000, "{all}");
    println!("{name}: {all} panics, after {changed} of them other items");
}

fn wild<M: Subject>(name: &str, forgets: bool, is_unlawful: bool) {
    quiet();
    let mut refused = 0;
    for seed in 1..60 {
        DRAW.set(seed * 1_000_003);
        let mut map = M::default();
        for _ in 0..150 {
            UNLAWFUL.set(is_unlawful);
            let (x, kind) = (Item::drawn(40), below(M::KINDS));
            if forgets && below(6) == 0 {
                let _ = catch_unwind(AssertUnwindSafe(|| map.forget_guard(&x)));
            }
            refused += u64::from(catch_unwind(AssertUnwindSafe(|| map.call(kind, x))).is_err());
        }
        UNLAWFUL.set(false);
        // `clear` makes the map whole.
        map.empty();
        map.call(0, Item::drawn(40));
        assert_eq!(map.whole().len(), 1, "the others are dropped");
        drop(map);
        assert!(LIVE.with_borrow(|it| it.is_empty()), "each item is dropped");
    }
    println!("{name}: {refused} of {} calls panicked", 59 * 150);
}

macro_rules! tests {
    ($($module:ident $map:ident;)*) => {
        $(
            mod $module {
                use super::*;

                #[test]
                fn a_panic_leaves_a_whole_map() {
                    panics::<$map<Item>>(stringify!($map));
                }

                #[test]
                fn forgotten_guards() {
                    wild::<$map<Item>>(stringify!($map), true, false);
                }

                #[test]
                fn unlawful_keys() {
                    wild::<$map<Item>>(stringify!($map), false, true);
                    wild::<$map<Item>>(stringify!($map), true, true);
                }
            }
        )*
    };
}

tests! {
    id_hash IdHashMap;
    id_ord IdOrdMap;
    bi_hash BiHashMap;
    tri_hash TriHashMap;
}
