//! What compiles: how long an answer borrows its map, items behind a pointer, and queries of other types than the key's.
use facetweave::Equivalent;
use facetweave::bi_hash_map::Entry;
use facetweave::{BiHashItem, BiHashItemMut, BiHashMap};

#[derive(Clone, Debug, PartialEq, Eq)]
struct Item {
    id: u32,
    name: String,
    value: i32,
}

impl BiHashItem for Item {
    type K1 = u32;
    type K2 = String;

    fn key1(&self) -> &u32 {
        &self.id
    }
    fn key2(&self) -> &String {
        &self.name
    }
}

impl BiHashItemMut for Item {
    type Data = i32;
    fn data_mut(&mut self) -> &mut i32 {
        &mut self.value
    }
}

fn item(id: u32, name: &str, value: i32) -> Item {
    Item { id, name: name.to_string(), value }
}
/// The answer is bound, taken apart by a match, and the map is used behind it in the same block.
#[test]
fn a_bound_answer_lets_the_map_go() {
    let mut map = BiHashMap::new();
    map.insert_unique(item(1, "foo", 42)).unwrap();
    let answer = map.insert_unique(item(1, "bar", 99));
    let is_refused = match answer {
        Ok(()) => false,
        Err(e) => e.into_parts().0.value == 99,
    };
    assert!(is_refused && map.len() == 1);
}

/// The map is used in the arm of a refusal that is taken apart.
#[test]
fn a_refusal_taken_apart_lets_the_map_go() {
    let mut map = BiHashMap::new();
    map.insert_unique(item(1, "foo", 42)).unwrap();
    match map.insert_unique(item(1, "bar", 99)) {
        Ok(()) => panic!("refused"),
        Err(e) => {
            let (item, _) = e.into_parts();
            let old = map.insert_overwrite(item).unwrap();
            assert_eq!(old.len(), 1);
        }
    }
}

/// The map is used in the arm of a refusal, whose duplicates have been read.
#[test]
fn ids_of_duplicates_are_removed() {
    let mut map = BiHashMap::new();
    map.insert_unique(item(1, "foo", 42)).unwrap();
    map.insert_unique(item(2, "bar", 99)).unwrap();
    if let Err(e) = map.insert_unique(item(1, "bar", 0)) {
        let ids: Vec<u32> = e.duplicates().iter().map(|x| x.id).collect();
        for id in ids {
            map.remove1(id);
        }
    }
    assert!(map.is_empty());
}

#[test]
fn guard_entry_walk_then_map() {
    let mut map = BiHashMap::new();
    map.insert_overwrite(item(1, "foo", 42)).unwrap();
    let mut walk = map.iter_mut();
    while let Some(x) = walk.next_data() {
        *x = 0;
    }
    assert_eq!(map.len(), 1);
    let is_vacant = matches!(map.entry(&2, "x"), Entry::Vacant(_));
    assert!(is_vacant && map.len() == 1);
}

#[test]
fn lent_and_boxed_items() {
    let first = item(1, "foo", 42);
    let second = item(2, "bar", 99);
    let mut lent: BiHashMap<&Item> = BiHashMap::new();
    lent.insert_unique(&first).unwrap();
    lent.insert_unique(&second).unwrap();
    assert!(lent.insert_unique(&first).is_err());
    assert_eq!(lent.get2("bar").unwrap().value, 99);
    let mut boxed: BiHashMap<Box<Item>> = BiHashMap::new();
    boxed.insert_unique(Box::new(first)).unwrap();
    *boxed.data1_mut(1).unwrap() = 7;
    assert_eq!(boxed.get2("foo").unwrap().value, 7);
}

#[test]
fn duplicate_into_parts() {
    let mut map = BiHashMap::new();
    map.insert_unique(item(1, "foo", 42)).unwrap();
    let error = map.insert_unique(item(1, "bar", 99)).unwrap_err();
    let (new, duplicates) = error.into_parts();
    assert_eq!(new, item(1, "bar", 99));
    assert_eq!(duplicates.first(), Some(&&item(1, "foo", 42)));
}

// A key of two texts, borrowed from the item.
// The keys are two fields together, so they are made one: a field of the item.
#[derive(Debug, Hash, PartialEq, Eq)]
struct ArtifactKey {
    name: String,
    version: String,
}

#[derive(Hash)]
struct ArtifactName<'a> {
    name: &'a str,
    version: &'a str,
}

impl Equivalent<ArtifactKey> for ArtifactName<'_> {
    fn equivalent(&self, other: &ArtifactKey) -> bool {
        self.name == other.name && self.version == other.version
    }
}

#[derive(Debug, PartialEq, Eq)]
struct Artifact {
    key: ArtifactKey,
    hash: u64,
    data: Vec<u8>,
}

impl BiHashItem for Artifact {
    type K1 = ArtifactKey;
    type K2 = u64;
    fn key1(&self) -> &ArtifactKey {
        &self.key
    }
    fn key2(&self) -> &u64 {
        &self.hash
    }
}

#[derive(Hash)]
struct OwnedArtifactKey {
    name: String,
    version: String,
}

impl Equivalent<ArtifactKey> for OwnedArtifactKey {
    fn equivalent(&self, other: &ArtifactKey) -> bool {
        self.name == other.name && self.version == other.version
    }
}

fn artifacts() -> BiHashMap<Artifact> {
    let mut artifacts = BiHashMap::new();
    for (i, name) in ["artifact1", "artifact2"].into_iter().enumerate() {
        artifacts
            .insert_unique(Artifact {
                key: ArtifactKey { name: name.to_owned(), version: "1.0".to_owned() },
                hash: i as u64,
                data: format!("data{}", i + 1).into_bytes(),
            })
            .unwrap();
    }
    artifacts
}

#[test]
fn complex_keys() {
    let artifacts = artifacts();
    assert_eq!(artifacts.get1(&ArtifactName { name: "artifact1", version: "1.0" }).unwrap().data, b"data1");
}

#[test]
fn equivalent_queries() {
    let artifacts = artifacts();
    let owned_key = OwnedArtifactKey { name: "artifact1".to_owned(), version: "1.0".to_owned() };
    assert_eq!(artifacts.get1(&owned_key).unwrap().data, b"data1");
}

#[test]
fn mutable_lookups_take_owned_keys() {
    let mut map = BiHashMap::new();
    map.insert_unique(item(1, "foo", 1)).unwrap();
    // The key type is &str, so passing it by value is passing a borrow.
    assert_eq!(map.remove2("foo"), Some(item(1, "foo", 1)));
}

#[test]
fn macro_and_walk() {
    let mut users = BiHashMap::<Item>::new();
    users.insert_unique(item(1, "Alice", 30)).unwrap();
    users.insert_unique(item(2, "Bob", 35)).unwrap();
    assert_eq!(users.get2("Alice").unwrap().value, 30);
    for user in &users {
        println!("User {}: {}", user.name, user.value);
    }
}
