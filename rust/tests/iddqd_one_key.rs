//! Drawn calls of `iddqd::IdOrdMap` beside a `BTreeMap`, and of `IdHashMap` beside a `HashMap`.
use facetweave::iddqd::{IdHashItem, IdHashMap, IdOrdItem, IdOrdMap, id_upcast};
use std::collections::{BTreeMap, HashMap};

#[derive(Clone, Debug, PartialEq)]
struct It {
    name: String,
    value: u64,
}

impl IdOrdItem for It {
    type Key<'a> = &'a str;
    fn key(&self) -> &str {
        &self.name
    }
    id_upcast!();
}

impl IdHashItem for It {
    type Key<'a> = (&'a str, usize);
    fn key(&self) -> (&str, usize) {
        (&self.name, self.name.len())
    }
    id_upcast!();
}

struct Rng(u64);
impl Rng {
    fn below(&mut self, n: u64) -> u64 {
        self.0 ^= self.0 << 13;
        self.0 ^= self.0 >> 7;
        self.0 ^= self.0 << 17;
        (self.0 >> 11) % n
    }
}

#[test]
fn ordered() {
    for n in [4, 60, 3000] {
        let mut r = Rng(n + 17);
        let (mut map, mut tree) = (IdOrdMap::<It>::new(), BTreeMap::<String, It>::new());
        for call in 0..30_000 {
            let it = It { name: format!("{:04}", r.below(n)), value: r.below(1000) };
            match r.below(9) {
                0..=2 => {
                    let was = tree.get(&it.name).cloned();
                    match map.insert_unique(it.clone()) {
                        Ok(()) => {
                            assert!(was.is_none());
                            tree.insert(it.name.clone(), it);
                        }
                        Err(e) => {
                            assert_eq!(e.duplicates()[0], was.as_ref().unwrap());
                            assert_eq!(e.into_parts().0, it);
                        }
                    }
                }
                3 => assert_eq!(map.insert_overwrite(it.clone()), tree.insert(it.name.clone(), it)),
                4 => assert_eq!(map.remove(&it.name), tree.remove(&it.name)),
                5 => {
                    assert_eq!(map.get(it.name.as_str()), tree.get(&it.name));
                    if let Some(mut x) = map.get_mut(&it.name) {
                        x.value += 1;
                    }
                    if let Some(x) = tree.get_mut(&it.name) {
                        x.value += 1;
                    }
                }
                6 => {
                    let (a, b) = (r.below(n), r.below(n));
                    let (a, b) = (format!("{:04}", a.min(b)), format!("{:04}", a.max(b)));
                    assert!(map.range::<&str, _>(&a[..]..&b[..]).eq(tree.range(a.clone()..b.clone()).map(|x| x.1)));
                    assert!(
                        map.range::<str, _>((std::ops::Bound::Included(a.as_str()), std::ops::Bound::Included(b.as_str())))
                            .rev()
                            .eq(tree.range(a.clone()..=b.clone()).rev().map(|x| x.1))
                    );
                    assert!(
                        map.range::<str, _>((std::ops::Bound::Excluded(a.as_str()), std::ops::Bound::Unbounded))
                            .eq(tree.range::<str, _>((std::ops::Bound::Excluded(a.as_str()), std::ops::Bound::Unbounded)).map(|x| x.1))
                    );
                }
                7 if call % 50 == 0 => {
                    let m = r.below(7);
                    map.retain(|mut x| {
                        x.value += 1;
                        x.value % 7 != m
                    });
                    tree.retain(|_, x| {
                        x.value += 1;
                        x.value % 7 != m
                    });
                }
                8 => {
                    assert_eq!(map.first(), tree.values().next());
                    assert_eq!(map.last(), tree.values().next_back());
                }
                _ => {}
            }
            assert_eq!(map.len(), tree.len());
            if call % 64 == 0 {
                assert!(map.iter().eq(tree.values()));
            }
        }
        assert_eq!(map, map.clone());
        assert!(map.into_iter().eq(tree.into_values()));
    }
}

#[test]
fn hashed() {
    for n in [4, 60, 3000] {
        let mut r = Rng(n + 3);
        let (mut map, mut table) = (IdHashMap::<It>::new(), HashMap::<String, It>::new());
        for _ in 0..30_000 {
            let it = It { name: r.below(n).to_string(), value: r.below(1000) };
            match r.below(5) {
                0 | 1 => assert_eq!(map.insert_overwrite(it.clone()), table.insert(it.name.clone(), it)),
                2 => assert_eq!(map.remove((&it.name, it.name.len())), table.remove(&it.name)),
                3 => assert_eq!(map.get(&(it.name.as_str(), it.name.len())), table.get(&it.name)),
                _ => {
                    if let Some(mut x) = map.get_mut((&it.name, it.name.len())) {
                        x.value += 1;
                    }
                    if let Some(x) = table.get_mut(&it.name) {
                        x.value += 1;
                    }
                }
            }
            assert_eq!(map.len(), table.len());
        }
        for it in &mut map {
            assert_eq!(*it, table[&it.name]);
        }
    }
}

#[test]
#[should_panic(expected = "key1 changed during RefMut borrow")]
fn a_changed_key_panics() {
    use facetweave::iddqd::{BiHashItem, BiHashMap, bi_upcast};
    struct P(u32, u32);
    impl BiHashItem for P {
        type K1<'a> = u32;
        type K2<'a> = u32;
        fn key1(&self) -> u32 {
            self.0
        }
        fn key2(&self) -> u32 {
            self.1
        }
        bi_upcast!();
    }
    let mut map = BiHashMap::new();
    map.insert_unique(P(1, 2)).ok().unwrap();
    map.get1_mut(1).unwrap().0 = 3;
}
