//! The traits of the seven maps, of their walks, guards, entries and errors: those that std's maps have.
#![cfg(feature = "std")]
use facetweave::*;
use std::error::Error;
use std::fmt::Debug;
use std::hash::RandomState;
use std::iter::FusedIterator;
use std::panic::{RefUnwindSafe, UnwindSafe};

#[derive(Clone, Debug, PartialEq, Eq)]
struct Login(u32, String, u64, u64);

macro_rules! keys {
    ($($item:ident $mutable:ident { $($kind:ident $key:ident $field:tt $of:ty),* })*) => {
        $(impl $item for Login {
            $(type $kind = $of;
            fn $key(&self) -> &$of {
                &self.$field
            })*
        }
        impl $mutable for Login {
            type Data = u64;
            fn data_mut(&mut self) -> &mut u64 {
                &mut self.2
            }
        })*
    };
}

keys! {
    IdHashItem IdHashItemMut { Key key 0 u32 }
    IdOrdItem IdOrdItemMut { Key key 0 u32 }
    BiHashItem BiHashItemMut { K1 key1 0 u32, K2 key2 1 String }
    TriHashItem TriHashItemMut { K1 key1 0 u32, K2 key2 1 String, K3 key3 3 u64 }
}

impl Sortable for Login {
    type SortKey = u64;
    fn sort_key(&self) -> u64 {
        self.2
    }
}

fn login(n: u32) -> Login {
    Login(n, format!("t{n}"), u64::from(n % 4), u64::from(n) << 32)
}

fn is_safe<T: Send + Sync + Unpin + UnwindSafe + RefUnwindSafe + Debug>() {}

fn is_a_map<T: Debug, M>()
where
    M: Default + Clone + PartialEq + Eq + FromIterator<T> + Extend<T> + IntoIterator<Item = T>,
    M: Send + Sync + Unpin + UnwindSafe + RefUnwindSafe + Debug,
    for<'a> &'a M: IntoIterator<Item = &'a T>,
{
}

fn is_a_walk<I: ExactSizeIterator + FusedIterator>() {}

fn is_a_walk_of_references<I: ExactSizeIterator + FusedIterator + Clone + Debug + Send + Sync + Unpin + UnwindSafe + RefUnwindSafe>() {}

fn goes_from_both_ends<I: DoubleEndedIterator>() {}

/// It borrows a map for writing, which no type does that is `UnwindSafe`.
fn is_a_guard<T: Debug + Send + Sync + Unpin + RefUnwindSafe>() {}

fn is_an_error<E: Error + Send + Sync + Unpin + UnwindSafe + RefUnwindSafe + 'static>() {}

fn is_an_error_that_borrows<E: Error + Send + Sync + Unpin>() {}

/// For each map its module, the type, its builder where it has one, the queries of an entry, and its errors.
macro_rules! maps {
    ($($module:ident $map:ident [$($builder:ty)?] [$($query:ty),*] $($two_ends:ident)?;)*) => {
        $({
            use $module::*;
            is_a_map::<Login, $map<Login>>();
            is_a_walk_of_references::<Iter<'static, Login>>();
            is_a_walk::<IntoIter<Login>>();
            is_safe::<IntoIter<Login>>();
            $($two_ends::<Iter<'static, Login>>();
            $two_ends::<IntoIter<Login>>();)?
            is_a_guard::<IterMut<'static, Login $(, $builder)?>>();
            is_a_guard::<RefMut<'static, Login $(, $builder)?>>();
            is_a_guard::<Entry<'static, Login, $($builder,)? $($query),*>>();
            is_a_guard::<VacantEntry<'static, Login, $($builder,)? $($query),*>>();
            is_safe::<Cursor>();
            is_an_error::<Rejected<Login>>();
            is_an_error::<ExtendUniqueError<Login>>();
            is_an_error::<FromIterError<Login>>();
            is_an_error::<NotReplaced<Login>>();
            is_an_error::<KeyMismatch<Login>>();
            is_an_error::<EntryError<Login>>();
            is_an_error::<TryEntryError<EntryError<Login>, AllocError>>();
            is_an_error_that_borrows::<InsertError<'static, Login $(, $builder)?>>();
            is_an_error_that_borrows::<EntryRefusal<'static, Login $(, $builder)?>>();
        })*
    };
}

macro_rules! maps_with_a_sort_key {
    ($($map:ident $inside:ident $module:ident;)*) => {
        $(is_a_map::<Login, $map<Login>>();
        is_a_walk::<sorted::IntoIter<$inside<Login>>>();
        is_safe::<sorted::IntoIter<$inside<Login>>>();
        goes_from_both_ends::<sorted::IntoIter<$inside<Login>>>();
        is_an_error::<sorted::ExtendUniqueError<Login, $module::Rejected<Login>>>();)*
        is_a_walk_of_references::<sorted::Iter<'static, Login>>();
        goes_from_both_ends::<sorted::Iter<'static, Login>>();
    };
}

#[test]
fn what_the_types_are() {
    maps! {
        id_hash_map IdHashMap [RandomState] [&'static u32];
        bi_hash_map BiHashMap [RandomState] [&'static u32, &'static str];
        tri_hash_map TriHashMap [RandomState] [&'static u32, &'static str, &'static u64];
        id_ord_map IdOrdMap [] [&'static u32] goes_from_both_ends;
    }
    maps_with_a_sort_key! {
        IdHashOrdMap IdHashMap id_hash_map;
        BiHashOrdMap BiHashMap bi_hash_map;
        TriHashOrdMap TriHashMap tri_hash_map;
    }
    is_an_error::<AllocError>();
    is_an_error::<TryReserveError>();
    is_an_error::<MemoryRefused<Login>>();
    is_safe::<Difference<'static, Login>>();
}

/// Each error of a call goes out by `?`. Where it borrows the map, what it is boxed into lives no longer than the map.
macro_rules! asked {
    ($($name:ident $map:ident $rekey:ident [$($borrowing:ident)?];)*) => {
        $(#[test]
        fn $name() -> Result<(), Box<dyn Error>> {
            let mut map = $map::with_capacity(4)?;
            map.try_insert(login(1))?;
            map.insert_overwrite(login(1))?;
            map.extend_unique([login(2), login(3)])?;
            map.try_extend([login(3), login(4)])?;
            map.try_reserve(4)?;
            map.reserve(4)?;
            map.$rekey(&4, login(5))?;
            map.shrink_to(5)?;
            map.shrink_to_fit()?;
            let copy = map.try_clone()?;
            assert_eq!(copy, $map::try_from_iter([1, 2, 3, 5].map(login))?);
            assert_eq!(copy, $map::from_iter_unique([5, 3, 2, 1].map(login))?);
            assert!($map::<Login>::from_iter_unique([1, 1].map(login)).is_err());
            $($borrowing(&mut map).unwrap();)?
            // The builder and the items are inferred from what comes later.
            let mut bare = $map::new();
            assert!(bare.is_empty());
            bare.try_insert(login(1))?;
            let collected: $map<Login> = [1].map(login).into_iter().collect();
            assert_eq!(bare, collected);
            assert_eq!(bare, $map::from([login(1)]));
            Ok(())
        })*
    };
}

asked! {
    id_hash IdHashMap rekey [one];
    bi_hash BiHashMap rekey1 [two];
    tri_hash TriHashMap rekey1 [three];
    id_ord IdOrdMap rekey [ordered];
    id_hash_ord IdHashOrdMap rekey [];
    bi_hash_ord BiHashOrdMap rekey1 [];
    tri_hash_ord TriHashOrdMap rekey1 [];
}

/// One call in each function, since an error that goes out keeps the map borrowed.
macro_rules! asked_while_borrowed {
    ($($name:ident $map:ident $guard:ident $diff:ident [$($key:tt),*];)*) => {
        $(fn $name(map: &mut $map<Login>) -> Result<(), Box<dyn Error + '_>> {
            fn inserted(map: &mut $map<Login>) -> Result<(), Box<dyn Error + '_>> {
                Ok(map.insert_unique(login(11))?)
            }
            asked_while_borrowed!(@ $map [$($key),*]);
            assert!(map.$diff(&map.clone())?.added.is_empty());
            map.$guard(&1).ok_or("absent")?.replace(login(1))?;
            inserted(map).unwrap();
            entered(map).unwrap();
            Ok(())
        })*
    };
    (@ $map:ident [$($key:tt),*]) => {
        fn entered(map: &mut $map<Login>) -> Result<(), Box<dyn Error + '_>> {
            let new = login(9);
            map.entry($(&new.$key),*).or_insert(new.clone())?;
            Ok(())
        }
    };
}

asked_while_borrowed! {
    one IdHashMap get_mut diff [0];
    two BiHashMap get1_mut diff1 [0, 1];
    three TriHashMap get1_mut diff1 [0, 1, 3];
    ordered IdOrdMap get_mut diff [0];
}

/// Lists in errors and differences are std's.
#[test]
fn lists() {
    let mut map = BiHashMap::from([login(1)]);
    let before: Vec<Login> = map.extend_unique([login(2), login(1)]).unwrap_err().before;
    let empty = BiHashMap::new();
    let added: Vec<&Login> = empty.diff1(&map).unwrap().added;
    assert_eq!((before, added), (vec![login(2)], vec![&login(1)]));
    let error: std::io::Error = map.try_reserve(1 << 61).unwrap_err().into();
    assert_eq!(error.kind(), std::io::ErrorKind::OutOfMemory);
}

#[test]
fn maps_of_equal_items_are_equal() {
    // Their builders have different seeds.
    let one: BiHashMap<Login> = (0..40).map(login).collect();
    let other: BiHashMap<Login> = (0..40).rev().map(login).collect();
    assert_eq!(one, other);
    assert_eq!(format!("{:?}", IdOrdMap::from([login(1)])), format!("{{{:?}}}", login(1)));
    assert_eq!(format!("{one:?}").matches("Login(").count(), 40);
    let moved = std::thread::spawn(move || other.len()).join().unwrap();
    assert_eq!(moved, 40);
}

#[test]
fn data_of_each_item() {
    let mut ordered: IdOrdMap<Row1<u32, u64>> = (0..500).map(|n| Row1::new(n, 0)).collect();
    let mut walk = (&mut ordered).into_iter();
    assert_eq!(walk.len(), 500);
    *walk.next_back().unwrap() = 9;
    for data in walk {
        *data += 1;
    }
    assert!(ordered.iter().map(|it| (it.key, it.value)).eq((0..500).map(|n| (n, if n == 499 { 9 } else { 1 }))));
    let mut hashed = IdHashMap::from([Row1::new("a", 1), Row1::new("b", 2)]);
    for data in &mut hashed {
        *data *= 10;
    }
    assert_eq!(hashed.get("b").unwrap().value, 20);
}

#[test]
#[allow(clippy::needless_borrows_for_generic_args)]
fn numbers_by_value() {
    let ordered: IdOrdMap<Row1<i32, i32>> = (0..1000).map(|n| Row1::new(n * 2, n)).collect();
    let hashed: IdHashMap<Row1<i32, i32>> = (0..1000).map(|n| Row1::new(n * 2, n)).collect();
    for n in -3..2003 {
        assert_eq!(ordered.get(n), ordered.get(&n));
        assert_eq!(ordered.get(n).is_some(), n % 2 == 0 && (0..2000).contains(&n));
        assert_eq!(hashed.get(n), hashed.get(&n));
        assert_eq!(hashed.get(n).is_some(), ordered.get(n).is_some());
    }
    assert!(ordered.range(10..14).map(|it| it.value).eq([5, 6]));
}
