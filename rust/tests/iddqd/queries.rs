//! Keys of several parts, and queries of other types.
use super::*;

// A key of two texts, borrowed from the item.
#[derive(Debug, Hash, PartialEq, Eq)]
struct ArtifactKey<'a> {
    name: &'a str,
    version: &'a str,
}

#[derive(Debug, PartialEq, Eq)]
struct Artifact {
    name: String,
    version: String,
    hash: u64,
    data: Vec<u8>,
}

impl BiHashItem for Artifact {
    type K1<'a> = ArtifactKey<'a>;
    type K2<'a> = u64;
    fn key1(&self) -> Self::K1<'_> {
        ArtifactKey { name: &self.name, version: &self.version }
    }
    fn key2(&self) -> u64 {
        self.hash
    }
    bi_upcast!();
}

#[derive(Hash)]
struct OwnedArtifactKey {
    name: String,
    version: String,
}

impl Equivalent<ArtifactKey<'_>> for OwnedArtifactKey {
    fn equivalent(&self, other: &ArtifactKey<'_>) -> bool {
        self.name == other.name && self.version == other.version
    }
}

fn artifacts() -> BiHashMap<Artifact> {
    let mut artifacts = BiHashMap::new();
    for (i, name) in ["artifact1", "artifact2"].into_iter().enumerate() {
        artifacts
            .insert_unique(Artifact { name: name.to_owned(), version: "1.0".to_owned(), hash: i as u64, data: format!("data{}", i + 1).into_bytes() })
            .unwrap();
    }
    artifacts
}

#[test]
fn complex_keys() {
    let artifacts = artifacts();
    assert_eq!(artifacts.get1(&ArtifactKey { name: "artifact1", version: "1.0" }).unwrap().data, b"data1");
}

#[test]
fn equivalent_queries() {
    let artifacts = artifacts();
    let owned_key = OwnedArtifactKey { name: "artifact1".to_owned(), version: "1.0".to_owned() };
    assert_eq!(artifacts.get1(&owned_key).unwrap().data, b"data1");
}

#[test]
fn mutable_lookups_take_owned_keys() {
    let mut map = BiHashMap::new();
    map.insert_unique(item(1, "foo", 1)).unwrap();
    // The key type is &str, so passing it by value is passing a borrow.
    assert_eq!(map.remove2("foo"), Some(item(1, "foo", 1)));
}

#[test]
fn macro_and_walk() {
    let mut users = BiHashMap::<Item>::new();
    users.insert_unique(item(1, "Alice", 30)).unwrap();
    users.insert_unique(item(2, "Bob", 35)).unwrap();
    assert_eq!(users.get2("Alice").unwrap().value, 30);
    for user in &users {
        println!("User {}: {}", user.name, user.value);
    }
}
