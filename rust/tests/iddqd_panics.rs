//! The caller's `Hash` and `Eq` panic at a drawn call: afterwards `iddqd::BiHashMap` is whole, and has the items that it had, or
//! those that the call would have left.
use facetweave::iddqd::{BiHashItem, BiHashMap, bi_upcast};
use std::cell::Cell;
use std::collections::BTreeSet;
use std::hash::{Hash, Hasher};
use std::panic::{AssertUnwindSafe, catch_unwind};

thread_local!(static LEFT: Cell<u64> = const { Cell::new(u64::MAX) });
fn tick() {
    LEFT.with(|it| {
        if it.get() == 0 {
            it.set(u64::MAX);
            panic!("drawn")
        }
        it.set(it.get().saturating_sub(1));
    });
}
fn quiet() {
    LEFT.with(|it| it.set(u64::MAX))
}

#[derive(Clone, Copy, Debug, PartialOrd, Ord)]
struct K(u64);
impl PartialEq for K {
    fn eq(&self, o: &K) -> bool {
        if LEFT.with(|it| it.get()) != u64::MAX {
            tick()
        }
        self.0 == o.0
    }
}
impl Eq for K {}
impl Hash for K {
    fn hash<H: Hasher>(&self, h: &mut H) {
        if LEFT.with(|it| it.get()) != u64::MAX {
            tick()
        }
        (self.0 % 61).hash(h)
    }
}

#[derive(Clone, Debug)]
struct It(u64, u64, u64);
impl BiHashItem for It {
    type K1<'a> = K;
    type K2<'a> = K;
    fn key1(&self) -> K {
        K(self.0)
    }
    fn key2(&self) -> K {
        K(self.1)
    }
    bi_upcast!();
}

struct Rng(u64);
impl Rng {
    fn below(&mut self, n: u64) -> u64 {
        self.0 ^= self.0 << 13;
        self.0 ^= self.0 >> 7;
        self.0 ^= self.0 << 17;
        (self.0 >> 11) % n
    }
}

fn whole(map: &BiHashMap<It>) -> BTreeSet<(u64, u64)> {
    let all: BTreeSet<_> = map.iter().map(|it| (it.0, it.1)).collect();
    assert_eq!(all.len(), map.len());
    for it in map {
        assert!(std::ptr::eq(map.get1(&K(it.0)).unwrap(), it));
        assert!(std::ptr::eq(map.get2(&K(it.1)).unwrap(), it));
    }
    all
}

#[test]
fn panics() {
    std::panic::set_hook(Box::new(|it| {
        if !it.to_string().contains("drawn") {
            eprintln!("{it}")
        }
    }));
    let mut counts = std::collections::BTreeMap::<&str, (u64, u64)>::new();
    for n in [5, 30, 400] {
        let mut r = Rng(n + 77);
        let mut map = BiHashMap::<It>::new();
        for _ in 0..12_000 {
            let x = It(r.below(n), r.below(n), 0);
            let before = whole(&map);
            let copy = map.clone();
            let kind = r.below(8);
            let name = ["unique", "overwrite", "overwrite", "remove1", "remove2", "get_mut", "retain", "entry"][kind as usize];
            LEFT.with(|it| it.set(r.below(10)));
            let done = catch_unwind(AssertUnwindSafe(|| match kind {
                0 => drop(map.insert_unique(x.clone()).is_ok()),
                1 | 2 => drop(map.insert_overwrite(x.clone())),
                3 => drop(map.remove1(K(x.0))),
                4 => drop(map.remove2(K(x.1))),
                5 => {
                    if let Some(mut it) = map.get1_mut(K(x.0)) {
                        it.2 += 1;
                    }
                }
                6 => map.retain(|mut it| {
                    it.2 += 1;
                    it.0 % 7 != x.0 % 7
                }),
                _ => {
                    use facetweave::iddqd::bi_hash_map::Entry;
                    match map.entry(K(x.0), K(x.1)) {
                        Entry::Vacant(e) => {
                            e.insert(x.clone());
                        }
                        Entry::Occupied(e) => {
                            e.remove();
                        }
                    }
                }
            }))
            .is_ok();
            quiet();
            let after = whole(&map);
            let c = counts.entry(name).or_default();
            c.0 += u64::from(!done);
            // A retain may have been cut off in between.
            if !done && after != before {
                c.1 += 1;
                // An entry's insert had inserted, and lends the item.
                let mut with = before.clone();
                with.insert((x.0, x.1));
                assert!(name == "retain" || (name == "entry" && after == with), "{name}");
            }
            if done && kind == 7 && r.below(4) == 0 {
                map = copy;
            }
            if map.len() > 300 {
                map.clear();
            }
        }
    }
    let _ = std::panic::take_hook();
    println!("call: (panics, those after which the items differ): {counts:?}");
}
