//! Which errors are `std::error::Error`, `Send`, `Sync`; which texts they have; and that each shows its item.
use std::error::Error;

include!("common/job.rs");

type Row = Row2<u64, String, u32>;
fn row(key1: u64, key2: &str) -> Row {
    Row2::new(key1, key2.into(), 0)
}

fn rows() -> BiHashMap<Row> {
    BiHashMap::from([row(1, "a"), row(2, "b")])
}

fn is_error<E: Error>() {}

fn is_send<E: Send + Sync + 'static>() {}

macro_rules! errors_of {
    ($($module:ident $row:ty;)*) => {
        $(
            is_error::<$module::InsertError<'static, $row>>();
            is_error::<$module::EntryRefusal<'static, $row>>();
            is_error::<$module::TryEntryRefusal<'static, $row, std::fmt::Error>>();
            errors_of!(@owning $module::Rejected<$row>, $module::ExtendUniqueError<$row>, $module::NotReplaced<$row>, $module::KeyMismatch<$row>,
                $module::EntryError<$row>, $module::FromIterError<$row>, $module::TryEntryError<$module::EntryError<$row>, std::fmt::Error>);
        )*
    };
    (@owning $($error:ty),*) => {
        $(is_error::<$error>();
        is_send::<$error>();)*
    };
}

#[test]
fn kinds() {
    errors_of! {
        id_hash_map Row1<u64, u32>;
        bi_hash_map Row;
        tri_hash_map Row3<u64, String, u32, u32>;
        id_ord_map Row1<u64, u32>;
    }
    errors_of!(@owning TryReserveError, AllocError, MemoryRefused<Row>, DuplicateItem<Row, Vec<Row>>);
    errors_of!(@owning sorted::ExtendUniqueError<Job, bi_hash_map::Rejected<Job>>);
    is_send::<BiHashMap<Row>>();
}

/// The text of what a caller's function returns by `?`.
macro_rules! returned {
    ($call:expr) => {{
        fn run() -> Result<(), Box<dyn Error + Send + Sync>> {
            $call?;
            Ok(())
        }
        run().unwrap_err().to_string()
    }};
}

/// The same of an error that borrows the map.
macro_rules! borrowed {
    ($map:ident => $call:expr) => {{
        fn run($map: &mut BiHashMap<Row>) -> Result<(), Box<dyn Error + '_>> {
            $call?;
            Ok(())
        }
        run(&mut rows()).unwrap_err().to_string()
    }};
}

#[test]
fn question_marks() {
    let taken = "an item with an equal first key is there already; an item with an equal second key is there already";
    assert_eq!(returned!(rows().try_insert(row(1, "b"))), taken);
    assert_eq!(returned!(rows().extend_unique([row(3, "c"), row(1, "b")])), format!("none was inserted, because of item 1: {taken}"));
    assert_eq!(returned!(BiHashMap::<Row>::from_iter_unique([row(1, "b"), row(1, "c")])), "an item with an equal key is there already");
    assert_eq!(returned!(rows().rekey1(1, row(1, "b"))), "a third item has a key of the new one");
    assert_eq!(returned!(rows().get1_mut(1).unwrap().replace(row(1, "z"))), "the second key is another one");
    assert_eq!(returned!(rows().reserve(usize::MAX)), "out of memory");
    assert_eq!(borrowed!(map => map.insert_unique(row(1, "b"))), "an item with an equal key is there already");
    assert_eq!(borrowed!(map => map.entry(&8, "z").or_insert(row(9, "z"))), "the first key is not the entry's");
    let not_made = borrowed!(map => map.entry(&8, "z").or_try_insert_with(|| "x".parse::<u8>().map(|_| row(8, "z"))));
    assert_eq!(not_made, "invalid digit found in string");
}

#[test]
fn an_error_shows_its_item() {
    let mut map = rows();
    let one_b = r#"Row2 { key1: 1, key2: "b", value: 0 }"#;
    let (a, b) = (r#"Row2 { key1: 1, key2: "a", value: 0 }"#, r#"Row2 { key1: 2, key2: "b", value: 0 }"#);
    assert_eq!(format!("{:?}", map.try_insert(row(1, "b")).unwrap_err()), format!("Rejected {{ item: {one_b}, taken1: true, taken2: true }}"));
    let refused = format!("{:?}", map.insert_unique(row(1, "b")).unwrap_err());
    assert_eq!(refused, format!("InsertError {{ reason: Duplicate, item: {one_b}, duplicates: [{a}, {b}] }}"));
    assert_eq!(format!("{:?}", map.rekey1(9, row(1, "b")).unwrap_err()), format!("Absent({one_b})"));
    assert_eq!(format!("{:?}", map.get1_mut(2).unwrap().replace(row(1, "b")).unwrap_err()), format!("Key1({one_b})"));
    let refused = format!("{:?}", map.entry(&8, "z").or_insert(row(1, "b")).unwrap_err());
    assert_eq!(refused, format!("EntryRefusal {{ error: Key1({one_b}), .. }}"));
    let refused = format!("{:?}", map.entry(&8, "z").or_try_insert_with(|| Ok::<_, ()>(row(1, "b"))).unwrap_err());
    assert_eq!(refused, format!("TryEntryRefusal {{ error: Insert(Key1({one_b})), .. }}"));
    let refused = format!("{:?}", map.extend_unique([row(3, "c"), row(1, "b")]).unwrap_err());
    let before = r#"[Row2 { key1: 3, key2: "c", value: 0 }]"#;
    assert_eq!(refused, format!("ExtendUniqueError {{ before: {before}, item: {one_b}, taken1: true, taken2: true }}"));
    let twice = BiHashMap::<Row>::from_iter_unique([row(1, "a"), row(1, "b")]).unwrap_err();
    assert_eq!(format!("{twice:?}"), format!("Duplicate(DuplicateItem {{ new_item: {one_b}, duplicates: [{a}] }})"));
    assert_eq!(format!("{:?}", MemoryRefused { value: row(1, "b") }), format!("MemoryRefused {{ value: {one_b} }}"));

    let mut one = IdHashMap::from([Row1::new(1, 'a')]);
    let refused = format!("{:?}", one.insert_unique(Row1::new(1, 'b')).unwrap_err());
    let (a, b) = ("Row1 { key: 1, value: 'a' }", "Row1 { key: 1, value: 'b' }");
    assert_eq!(refused, format!("InsertError {{ reason: Duplicate, item: {b}, duplicate: Some({a}) }}"));

    let mut jobs = BiHashOrdMap::new();
    let refused = format!("{:?}", jobs.extend_unique([job(1, "a", 7), job(1, "b", 7)]).unwrap_err());
    let (a, b) = (r#"Job { id: 1, name: "a", seat: 11, time: 7 }"#, r#"Job { id: 1, name: "b", seat: 11, time: 7 }"#);
    assert_eq!(refused, format!("ExtendUniqueError {{ before: [{a}], rejected: Rejected {{ item: {b}, taken1: true, taken2: false }} }}"));
}

#[test]
fn maps_and_guards_show_their_items() {
    let mut map = rows();
    assert_eq!(format!("{map:?}"), r#"{Row2 { key1: 1, key2: "a", value: 0 }, Row2 { key1: 2, key2: "b", value: 0 }}"#);
    assert_eq!(format!("{:?}", map.get1_mut(1)), r#"Some(Row2 { key1: 1, key2: "a", value: 0 })"#);
}

/// Of an item without `Debug` the texts are there, and `Debug` alone is not.
#[test]
fn texts_need_no_debug_of_the_item() {
    struct Silent(u64);
    impl IdHashItem for Silent {
        type Key = u64;
        fn key(&self) -> &u64 {
            &self.0
        }
    }
    let mut map = IdHashMap::from([Silent(1)]);
    assert_eq!(map.try_insert(Silent(1)).err().unwrap().to_string(), "an item with an equal key is there already");
}
