//! Code that is generic over the item, in the traits' own words.
use facetweave::iddqd::bi_hash_map::{Entry, OccupiedEntryRef, RefMut};
use facetweave::iddqd::{BiHashItem, BiHashMap, bi_upcast};
use std::fmt::Debug;
use std::hash::BuildHasher;

struct Item<'s> {
    id: u32,
    name: &'s str,
    tags: Vec<String>,
}

// An item that borrows, and a key that is made of a part.
impl<'s> BiHashItem for Item<'s> {
    type K1<'a>
        = u32
    where
        Self: 'a;
    type K2<'a>
        = (&'a str, usize)
    where
        Self: 'a;
    fn key1(&self) -> Self::K1<'_> {
        self.id
    }
    fn key2(&self) -> Self::K2<'_> {
        (self.name, self.tags.len())
    }
    bi_upcast!();
}

fn both<'a, T: BiHashItem, S: Clone + BuildHasher>(map: &'a BiHashMap<T, S>, key1: &T::K1<'a>, key2: &T::K2<'a>) -> Option<&'a T> {
    map.get1(key1).or_else(|| map.get2(key2))
}

fn take<T: BiHashItem, S: Clone + BuildHasher>(map: &mut BiHashMap<T, S>, key1: T::K1<'_>) -> Option<T> {
    map.remove1(key1)
}

fn write<'m, T: BiHashItem>(map: &'m mut BiHashMap<T>, key2: T::K2<'_>) -> Option<RefMut<'m, T>> {
    map.get2_mut(key2)
}

fn add<T: BiHashItem + Debug>(map: &mut BiHashMap<T>, item: T) -> Result<(), String> {
    map.insert_unique(item).map_err(|e| format!("{:?} against {}", e.new_item(), e.duplicates().len()))
}

struct Wrap<T: BiHashItem> {
    map: BiHashMap<T>,
}

impl<T: BiHashItem + PartialEq> Wrap<T> {
    fn same(&self, other: &Self) -> bool {
        self.map == other.map
    }
    fn found<'a>(&'a mut self, key1: T::K1<'_>, key2: T::K2<'_>) -> Option<&'a T> {
        match self.map.entry(key1, key2) {
            Entry::Occupied(entry) => match entry.into_ref() {
                OccupiedEntryRef::Unique(item) => Some(item),
                OccupiedEntryRef::NonUnique { by_key1, .. } => by_key1,
            },
            Entry::Vacant(_) => None,
        }
    }
}

#[test]
fn generic() {
    let text = String::from("ann bob");
    let mut map = BiHashMap::new();
    for (id, name) in text.split(' ').enumerate() {
        map.insert_unique(Item { id: id as u32, name, tags: vec![] }).ok().unwrap();
    }
    assert_eq!(both(&map, &7, &("bob", 0)).unwrap().id, 1);
    write(&mut map, ("ann", 0)).unwrap().id = 0;
    {
        let short = String::from("bob");
        assert_eq!(map.get2(&(short.as_str(), 0)).unwrap().id, 1);
        assert!(map.remove2((&short, 3)).is_none());
    }
    assert_eq!(take(&mut map, 1).unwrap().name, "bob");
    assert_eq!(map.len(), 1);
}

#[derive(Debug, PartialEq)]
struct P(u32, String);
impl BiHashItem for P {
    type K1<'a> = u32;
    type K2<'a> = &'a str;
    fn key1(&self) -> u32 {
        self.0
    }
    fn key2(&self) -> &str {
        &self.1
    }
    bi_upcast!();
}

#[test]
fn wrapped() {
    let mut one = Wrap { map: BiHashMap::new() };
    add(&mut one.map, P(1, "a".into())).unwrap();
    assert_eq!(add(&mut one.map, P(1, "b".into())).unwrap_err(), "P(1, \"b\") against 1");
    assert!(one.same(&Wrap { map: [P(1, "a".into())].into_iter().collect() }));
    assert_eq!(one.found(1, "zzz"), Some(&P(1, "a".into())));
    assert_eq!(one.found(2, "zzz"), None);
}
