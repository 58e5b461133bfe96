//! The maps by a builder that has a name: all that there is without the feature `std`. `rust/check` runs this file without it.
use facetweave::*;
use std::hash::BuildHasherDefault;

type Builder = BuildHasherDefault<FoldHasher>;

fn row(key1: u32, key2: &str) -> Row2<u32, String, char> {
    Row2::new(key1, key2.to_string(), 'a')
}

#[test]
fn maps_with_a_named_builder() {
    let mut map = BiHashMap::<_, Builder>::with_hasher(Builder::default());
    map.try_insert(row(1, "one")).unwrap();
    assert!(map.try_insert(row(2, "one")).unwrap_err().taken2);
    assert_eq!(map.get2("one").unwrap().key1, 1);

    let map: TriHashMap<Row3<u8, u16, u32, ()>, Builder> = [Row3::new(1, 2, 3, ()), Row3::new(4, 5, 6, ())].into_iter().collect();
    assert_eq!(map.get3(6).unwrap().key1, 4);

    let mut map = IdHashMap::<Row1<u8, char>, Builder>::default();
    map.insert_overwrite(Row1::new(7, 'a')).unwrap();
    assert_eq!(map.remove(7).unwrap().value, 'a');

    let map = IdOrdMap::from([Row1::new(2, 'b'), Row1::new(1, 'a')]);
    assert_eq!(map.first().unwrap().value, 'a');
}

#[test]
fn maps_in_the_form_of_iddqd() {
    struct User(u32);
    impl iddqd::IdHashItem for User {
        type Key<'a> = u32;
        fn key(&self) -> u32 {
            self.0
        }
        iddqd::id_upcast!();
    }
    let mut users = iddqd::IdHashMap::<User, Builder>::default();
    assert!(users.insert_unique(User(1)).is_ok());
    assert_eq!(users.get(&1).unwrap().0, 1);
}
