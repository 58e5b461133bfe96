//! What the maps, their errors and their guards show, and the messages of their panics.
use crate::item::Item;
use facetweave::iddqd::bi_hash_map::Entry;
use facetweave::iddqd::{BiHashMap, IdHashMap, IdOrdMap, TriHashMap, bi_hash_map, id_hash_map, tri_hash_map};
use std::collections::hash_map::RandomState;
use std::hash::{BuildHasherDefault, Hasher};
use std::panic::{AssertUnwindSafe, catch_unwind};

fn one(id: u32, name: &str) -> Item {
    Item(id, name.into(), 3, 4)
}

/// The message of a panic.
fn told(f: &mut dyn FnMut()) -> &'static str {
    *catch_unwind(AssertUnwindSafe(f)).unwrap_err().downcast().unwrap()
}

#[test]
fn what_is_shown() {
    let ann = r#"Item(1, "ann", 3, 4)"#;
    let mut bi: BiHashMap<Item> = bi_hash_map! { one(1, "ann") };
    let tri = tri_hash_map! { RandomState; one(1, "ann"), };
    let id = id_hash_map! { RandomState; one(1, "ann") };
    let ord: IdOrdMap<Item> = facetweave::iddqd::id_ord_map! { one(1, "ann") };
    assert_eq!(format!("{bi:?} {tri:?} {id:?} {ord:?}"), format!("{{{ann}}} {{{ann}}} {{{ann}}} {{{ann}}}"));
    assert_eq!(format!("{:?}", bi.debug_with_keys()), format!(r#"{{{{k1: 1, k2: "ann"}}: {ann}}}"#));
    assert_eq!(format!("{:?}", tri.debug_with_keys()), format!(r#"{{{{k1: 1, k2: "ann", k3: (3, "x")}}: {ann}}}"#));
    assert_eq!(format!("{:?} {:?}", id.debug_with_keys(), ord.debug_with_keys()), format!(r#"{{"ann": {ann}}} {{"ann": {ann}}}"#));
    assert_eq!(format!("{:?} {:?} {:?}", bi.iter(), ord.iter(), bi_hash_map::Iter::<Item>::default()), format!("[{ann}] [{ann}] []"));
    assert_eq!(format!("{:?}", bi.clone().into_iter()), "IntoIter { left: 1 }");
    assert_eq!(format!("{:?}", bi.iter_mut()), "IterMut { left: 1 }");
    assert_eq!(format!("{:?}", bi.get1_mut(1).unwrap()), ann);
    let error = bi.insert_unique(one(1, "bob")).unwrap_err();
    assert_eq!(error.to_string(), format!(r#"new item: Item(1, "bob", 3, 4) conflicts with existing: [{ann}]"#));
    assert!(format!("{:?}", bi.entry(1, "ann")).starts_with("Occupied(OccupiedEntry {"));
    assert!(format!("{:?}", bi.entry(2, "bob")).starts_with("Vacant(VacantEntry { hashes: ["));
    let Entry::Occupied(mut entry) = bi.entry(1, "zoe") else { panic!("the first key is there") };
    assert_eq!(format!("{:?}", entry.get()), format!("NonUnique {{ by_key1: Some({ann}), by_key2: None }}"));
    assert_eq!(format!("{:?}", entry.get_mut()), format!("NonUnique {{ by_key1: Some({ann}), by_key2: None }}"));
}

#[test]
fn a_changed_key_is_told() {
    let mut id: IdHashMap<Item> = [one(1, "ann")].into_iter().collect();
    let mut tri: TriHashMap<Item> = [one(1, "ann")].into_iter().collect();
    assert_eq!(told(&mut || id.get_mut("ann").unwrap().1.push('a')), "key changed during RefMut borrow");
    assert_eq!(told(&mut || tri.get1_mut(1).unwrap().0 = 2), "key1 changed during RefMut borrow");
    tri = [one(1, "ann")].into_iter().collect();
    assert_eq!(told(&mut || tri.get1_mut(1).unwrap().reborrow().1.clear()), "key2 changed during RefMut borrow");
    tri = [one(1, "ann")].into_iter().collect();
    assert_eq!(
        told(&mut || {
            let mut it = tri.get1_mut(1).unwrap();
            it.2 += 1;
            it.into_ref();
        }),
        "key3 changed during RefMut borrow"
    );
    // A key that is as it was at the end may have been another one in between.
    let mut bi: BiHashMap<Item> = [one(1, "ann")].into_iter().collect();
    let mut it = bi.get1_mut(1).unwrap();
    it.0 = 7;
    it.0 = 1;
    drop(it);
    assert_eq!(bi.get1(&1), Some(&one(1, "ann")));
}

// All keys have one hash.
#[derive(Default)]
struct OneHash;

impl Hasher for OneHash {
    fn finish(&self) -> u64 {
        7
    }
    fn write(&mut self, _: &[u8]) {}
}

type One = BuildHasherDefault<OneHash>;

#[test]
fn a_vacant_entry_refuses_a_key_of_the_map() {
    let (ann, bob, taken) = (one(1, "ann"), one(2, "bob"), "key already present in map");
    let mut id: IdHashMap<Item, One> = [ann.clone()].into_iter().collect();
    let mut ord: IdOrdMap<Item> = [ann.clone()].into_iter().collect();
    let mut bi: BiHashMap<Item, One> = [ann.clone()].into_iter().collect();
    assert_eq!(told(&mut || drop(id.entry("bob").or_insert(ann.clone()))), taken);
    assert_eq!(told(&mut || drop(ord.entry("bob").or_insert(ann.clone()))), taken);
    for other in [one(1, "bob"), one(2, "ann")] {
        assert_eq!(told(&mut || drop(bi.entry(2, "bob").or_insert(other.clone()))), taken);
    }
    assert!(id.iter().chain(&ord).chain(&bi).eq([&ann; 3]));
    // Another key with the same hash goes in: an entry keeps no more of its keys than their hashes.
    assert_eq!(*id.entry("zoe").or_insert(bob.clone()), bob);
    assert_eq!(*ord.entry("zoe").or_insert(bob.clone()), bob);
    assert_eq!(bi.entry(3, "zoe").or_insert(bob.clone()).as_unique().as_deref(), Some(&bob));
    assert_eq!((id.get("bob"), ord.get("bob"), bi.get1(&2)), (Some(&bob), Some(&bob), Some(&bob)));
}

#[test]
fn an_entry_refuses_other_keys() {
    let [ann, bob, cat] = [one(1, "ann"), one(2, "bob"), one(3, "cat")];
    let mut bi: BiHashMap<Item> = [ann.clone(), bob].into_iter().collect();
    let mut insert = |key1, key2, item: Item| {
        told(&mut || match bi.entry(key1, key2) {
            Entry::Occupied(mut entry) => drop(entry.insert(item.clone())),
            Entry::Vacant(entry) => drop(entry.insert(item.clone())),
        })
    };
    assert_eq!(insert(1, "ann", one(3, "ann")), "key1 mismatch");
    assert_eq!(insert(1, "ann", one(1, "cat")), "key2 mismatch");
    assert_eq!(insert(1, "bob", one(3, "bob")), "key1 mismatch");
    assert_eq!(insert(1, "bob", one(1, "ann")), "key2 mismatch");
    assert_eq!(insert(3, "cat", one(4, "cat")), "key1 hashes do not match");
    assert_eq!(insert(3, "cat", one(3, "dog")), "key2 hashes do not match");
    assert_eq!((bi.len(), bi.get1(&1)), (2, Some(&ann)));
    let mut id: IdHashMap<Item> = [ann.clone()].into_iter().collect();
    assert_eq!(told(&mut || drop(id.entry("cat").or_insert(ann.clone()))), "key hashes do not match");
    let id_hash_map::Entry::Occupied(mut entry) = id.entry("ann") else { panic!("it is there") };
    assert_eq!(told(&mut || drop(entry.insert(cat.clone()))), "key mismatch");
    assert_eq!(id.len(), 1);
}

#[test]
fn room_goes_back() {
    let mut bi: BiHashMap<Item> = BiHashMap::with_capacity(1000);
    bi.extend((0..900).map(|n| one(n, &n.to_string())));
    bi.retain(|it| it.0 % 9 == 0);
    bi.shrink_to(500);
    assert!((500..1000).contains(&bi.capacity()));
    bi.shrink_to_fit();
    assert!((100..200).contains(&bi.capacity()));
    assert!(bi.iter().map(|it| it.0).eq((0..100).map(|n| n * 9)));
    assert!((0..900).all(|n| bi.contains_key1(&n) == (n % 9 == 0) && bi.get2(n.to_string().as_str()) == bi.get1(&n)));
    // There is no room to give back.
    let capacity = bi.capacity();
    bi.shrink_to(5000);
    assert_eq!(bi.capacity(), capacity);
}
