//! Each request for memory refused in turn: the call says so and hands the item back, the map is as it was, and no memory leaks. All other
//! calls ask for none. `clone`, `extend` and `collect` end the program without memory, so that their forms with `try_` stand for them.
mod common;
use common::calls::{Kind, some_family, written::Written};
use common::*;
use facetweave::*;
use std::alloc::{GlobalAlloc, Layout, System};
use std::cell::Cell;
use std::collections::BTreeMap;

thread_local! {
    /// How many requests of calls of a map are granted until one is refused; below 0 all are.
    static GRANTED: Cell<i64> = const { Cell::new(-1) };
    /// Whether all requests after the refused one are refused as well.
    static FOR_GOOD: Cell<bool> = const { Cell::new(false) };
    static WAS_REFUSED: Cell<bool> = const { Cell::new(false) };
    /// How many bytes of memory this thread has.
    static BYTES: Cell<i64> = const { Cell::new(0) };
}

struct Refusing;

fn is_refused() -> bool {
    if running_call().is_empty() {
        return false;
    }
    asked_for_memory();
    let left = GRANTED.get();
    if left > 0 || (left == 0 && !FOR_GOOD.get()) {
        GRANTED.set(left - 1);
    }
    if left == 0 {
        WAS_REFUSED.set(true);
    }
    left == 0
}

// SAFETY: it is the system's allocator, which may also refuse.
unsafe impl GlobalAlloc for Refusing {
    unsafe fn alloc(&self, layout: Layout) -> *mut u8 {
        if is_refused() {
            return std::ptr::null_mut();
        }
        BYTES.set(BYTES.get() + layout.size() as i64);
        unsafe { System.alloc(layout) }
    }
    unsafe fn dealloc(&self, at: *mut u8, layout: Layout) {
        BYTES.set(BYTES.get() - layout.size() as i64);
        unsafe { System.dealloc(at, layout) }
    }
    unsafe fn realloc(&self, at: *mut u8, layout: Layout, size: usize) -> *mut u8 {
        if is_refused() {
            return std::ptr::null_mut();
        }
        BYTES.set(BYTES.get() + size as i64 - layout.size() as i64);
        unsafe { System.realloc(at, layout, size) }
    }
}

#[global_allocator]
static REFUSING: Refusing = Refusing;

/// Makes a call of which so many requests are granted, and says whether the next one was refused.
fn granted<R>(requests: i64, call: impl FnOnce() -> R) -> (R, bool) {
    GRANTED.set(requests);
    WAS_REFUSED.set(false);
    let result = call();
    GRANTED.set(-1);
    (result, WAS_REFUSED.get())
}

/// Of how many items a map is full: a block of a map in order has up to 63.
const COUNTS: [u64; 6] = [0, 1, 3, 14, 64, 200];

/// Items whose keys are these numbers, each as each key.
fn numbered(numbers: impl IntoIterator<Item = u64>) -> Vec<Item> {
    numbers.into_iter().map(|n| Item::new(([n; 3], n))).collect()
}

/// A map with so many items, of even numbers, and no room for more.
fn full<M: Table>(count: u64) -> (M, List) {
    let mut map = M::of(numbered((0..count).map(|n| 2 * n)));
    assert!(map.shrink_all() && map.room() == count as usize);
    let mut list = List::new(M::WIDTH, M::ORDER);
    list.items = shown(map.all());
    (map, list)
}

/// What a call did.
enum Did {
    /// It did its work, after which the map has these items.
    Work(List),
    /// There was no memory, and the map has these items.
    Nothing(List),
}

/// How often each call was refused memory, and whether it failed.
type Told = BTreeMap<&'static str, (u64, u64)>;

/// Refuses each request of a call in turn.
fn in_turn<M: Kind>(name: &'static str, count: u64, told: &mut Told, call: &dyn Fn(&mut M, List) -> Did) {
    for requests in 0.. {
        let (mut map, list) = full::<M>(count);
        let room = map.room();
        let (did, refused) = granted(requests, || call(&mut map, list));
        let counts = told.entry(name).or_default();
        counts.0 += u64::from(refused);
        let list = match did {
            Did::Work(list) => list,
            Did::Nothing(list) => {
                assert!(refused, "{}: {name} fails with memory", M::NAME);
                counts.1 += 1;
                // Calls that insert several items may have made room for some.
                assert!(map.room() == room || (name.contains("extend") && map.room() > room), "{}: {name} changes the capacity", M::NAME);
                list
            }
        };
        assert_eq!(list.in_order(shown(map.all())), list.shown(), "{}", M::NAME);
        for item in &list.items {
            assert!((0..M::WIDTH).all(|rank| map.find(rank, &Key::new(item.0[rank])).map(Item::shown) == Some(*item)));
        }
        if !refused {
            return;
        }
    }
}

fn work_with<M: Table>(mut list: List, items: &[Shown]) -> Did {
    items.iter().for_each(|it| drop(list.overwrite(*it)));
    Did::Work(list)
}

fn each_call<M: Kind>(count: u64, told: &mut Told) {
    // A new item, one of which the first key is taken, and a list of them.
    let new = ([2 * count / 3 * 2 + 1; 3], 5);
    let other = ([if count > 0 { 0 } else { 1 }, 1, 1], 6);
    in_turn::<M>("try_insert", count, told, &|map, list| match map.insert(Item::new(new)) {
        Ok(()) => work_with::<M>(list, &[new]),
        Err((item, taken)) => {
            assert!(item.shown() == new && taken == [false; 3]);
            Did::Nothing(list)
        }
    });
    for item in [new, other] {
        in_turn::<M>("insert_overwrite", count, told, &|map, list| match map.overwrite(Item::new(item)) {
            Ok(_) => work_with::<M>(list, &[item]),
            Err(it) => {
                assert_eq!(it.shown(), item);
                Did::Nothing(list)
            }
        });
    }
    let several: Vec<Shown> = (0..40).map(|n| ([2 * n + 1; 3], n)).collect();
    in_turn::<M>("try_extend", count, told, &|map, list| match map.try_add_all(several.iter().map(|it| Item::new(*it)).collect()) {
        Ok(()) => work_with::<M>(list, &several),
        // The items before the refused one are in the map.
        Err(item) => {
            let at = several.iter().position(|it| *it == item.shown()).expect("it is one of them");
            let Did::Work(list) = work_with::<M>(list, &several[..at]) else { unreachable!() };
            Did::Nothing(list)
        }
    });
    in_turn::<M>("extend_unique", count, told, &|map, list| match map.add_unique(several.iter().map(|it| Item::new(*it)).collect()) {
        Ok(()) => work_with::<M>(list, &several),
        Err((before, (item, taken))) => {
            assert!(taken == [false; 3] && shown(&before) == several[..before.len()] && item.shown() == several[before.len()]);
            Did::Nothing(list)
        }
    });
    let done = |is_done: bool, list: List| if is_done { Did::Work(list) } else { Did::Nothing(list) };
    in_turn::<M>("reserve", count, told, &|map, list| done(map.more(500) && map.room() >= list.items.len() + 500, list));
    in_turn::<M>("try_reserve", count, told, &|map, list| done(map.try_more(1) && map.room() > list.items.len(), list));
    // A map that shall shrink has room first. Its items may have moved even if it could not.
    for all in [false, true] {
        in_turn::<M>(if all { "shrink_to_fit" } else { "shrink_to" }, count, told, &|map, list| {
            let left = GRANTED.replace(-1);
            assert!(map.more(700));
            let room = map.room();
            GRANTED.set(left);
            let is_done = if all { map.shrink_all() } else { map.shrink(list.items.len() + 9) };
            assert!(map.room() <= room && (is_done || WAS_REFUSED.get()));
            Did::Work(list)
        });
    }
    in_turn::<M>("try_clone", count, told, &|map, list| {
        let copy = map.try_copy();
        if let Some(copy) = &copy {
            assert_eq!(list.in_order(shown(copy.all())), list.shown());
        }
        done(copy.is_some(), list)
    });
}

/// Calls that make a map.
fn makers<M: Kind>(told: &mut Told) {
    for requests in 0.. {
        let (map, refused) = granted(requests, || M::roomy(300));
        assert_eq!(map.is_none(), refused, "{}: with_capacity", M::NAME);
        let (made, refused_of) = granted(requests, || M::try_of(numbered(0..200)));
        assert!(made.map_or_else(|item| refused_of && item.shown().0[0] < 200, |it| it.count() == 200));
        let (made, refused_unique) = granted(requests, || M::unique_of(numbered(0..200)));
        assert!(made.map_or_else(|item| refused_unique && item.shown().0[0] < 200, |it| it.count() == 200));
        for (name, refused) in [("with_capacity", refused), ("try_from_iter", refused_of), ("from_iter_unique", refused_unique)] {
            let counts = told.entry(name).or_default();
            *counts = (counts.0 + u64::from(refused), counts.1 + u64::from(refused));
        }
        if !refused && !refused_of && !refused_unique {
            return;
        }
    }
}

fn refused_in_turn<M: Kind>(is_good: bool) {
    // What hashes the keys have says nothing of memory.
    if !is_good {
        return;
    }
    assert_eq!(live(), 0);
    let before = BYTES.get();
    let mut told = Told::new();
    for for_good in [false, true] {
        FOR_GOOD.set(for_good);
        for count in COUNTS {
            each_call::<M>(count, &mut told);
        }
        makers::<M>(&mut told);
    }
    for (name, (refused, failed)) in &told {
        // A map in order shrinks without memory, or stays as it is.
        assert!(*refused > 0 && (*failed > 0 || name.starts_with("shrink")), "{}: {name} was refused nothing", M::NAME);
    }
    assert_eq!(live(), 0, "{}: each item is dropped once", M::NAME);
    drop(told);
    called();
    assert_eq!(BYTES.get(), before, "{}: bytes that nobody frees", M::NAME);
}

/// Inserts an item, or returns it.
type Insert<M> = fn(&mut M, Item) -> Option<Item>;

/// Calls of the maps without a sort key.
fn written<M: Kind + Written>(vacant: &[(&'static str, Insert<M>)]) {
    let mut told = Told::new();
    for count in COUNTS {
        let new = ([2 * count / 3 * 2 + 1; 3], 5);
        in_turn::<M>("insert_unique", count, &mut told, &|map, list| match map.insert_unique(Item::new(new)) {
            Ok(()) => work_with::<M>(list, &[new]),
            Err((item, is_memory, found)) => {
                assert!(is_memory && found.is_empty() && item.shown() == new);
                Did::Nothing(list)
            }
        });
        in_turn::<M>("diff", count, &mut told, &|map, list| match map.differs(map, M::WIDTH - 1) {
            Some(told) => {
                assert_eq!(told.common.len(), list.items.len());
                Did::Work(list)
            }
            None => Did::Nothing(list),
        });
        for (name, insert) in vacant {
            in_turn::<M>(name, count, &mut told, &|map, list| match insert(map, Item::new(new)) {
                None => work_with::<M>(list, &[new]),
                Some(item) => {
                    assert_eq!(item.shown(), new);
                    Did::Nothing(list)
                }
            });
        }
    }
    assert_eq!(told.len(), 2 + vacant.len());
    assert!(told.values().all(|counts| counts.1 > 0), "{}: {told:?}", M::NAME);
    assert_eq!(live(), 0, "{}: each item is dropped once", M::NAME);
}

macro_rules! entry_of {
    ($map:ident, $keys:ident, [$($rank:literal),*]) => {
        call!($map.entry($(&$keys[$rank]),*))
    };
}

/// Calls of a vacant entry of the item's keys, which give the item back if there is no memory.
macro_rules! vacant {
    ($($map:ty, $module:ident, $ranks:tt, [$($insert:ident)*];)*) => {
        $(written::<$map>(&[
            $((stringify!($insert), |map, item| {
                let keys = item.shown().0.map(Key::new);
                match entry_of!(map, keys, $ranks) {
                    $module::Entry::Vacant(it) => call!(it.$insert(item)).err().map(|e| e.into_item()),
                    _ => panic!("no item has the keys"),
                }
            }),)*
            ("or_insert", |map, item| {
                let keys = item.shown().0.map(Key::new);
                let entry = entry_of!(map, keys, $ranks);
                call!(entry.or_insert(item)).err().map(|e| e.into_item())
            }),
            ("or_insert_with", |map, item| {
                let keys = item.shown().0.map(Key::new);
                let entry = entry_of!(map, keys, $ranks);
                call!(entry.or_insert_with(|| item)).err().map(|e| e.into_item())
            }),
        ]);)*
    };
}

#[test]
fn maps_without_a_sort_key() {
    vacant! {
        IdHashMap<Item, Good>, id_hash_map, [0], [insert insert_entry];
        BiHashMap<Item, Good>, bi_hash_map, [0, 1], [insert insert_mut insert_entry];
        TriHashMap<Item, Good>, tri_hash_map, [0, 1, 2], [insert insert_mut insert_entry];
        IdOrdMap<Item>, id_ord_map, [0], [insert insert_entry];
    }
}

/// The calls that may ask for memory: those that return an error or end the program without it, and those that return a list.
const MAY_ASK: &[&str] = &[
    "with_capacity",
    "with_capacity_and_hasher",
    "from_iter",
    "try_from_iter",
    "from_iter_unique",
    "try_insert",
    "insert_unique",
    "insert_overwrite",
    "extend",
    "try_extend",
    "extend_unique",
    "reserve",
    "try_reserve",
    "shrink_to",
    "shrink_to_fit",
    "clone",
    "try_clone",
    "diff",
    "diff1",
    "diff2",
    "diff3",
    "entry.or_insert",
    "entry.or_insert_with",
    "entry.or_try_insert_with",
    "vacant.insert",
    "vacant.insert_mut",
    "vacant.insert_entry",
    // With a sort key: it asks for smaller pieces in the place of what it has, and keeps that if they are refused.
    "clear",
    // Makes a text.
    "{:?}",
];

fn only_these_ask<M: Kind>(_: bool) {
    called();
    let (mut map, mut list, families) = (M::made(), List::new(M::WIDTH, M::ORDER), M::families());
    for n in [8, 300] {
        for _ in 0..calls(1_500) {
            some_family(&families)(&mut map, &mut list, n);
        }
    }
    let asked: Vec<_> = called().into_iter().filter(|it| it.1.asked > 0).map(|it| it.0).collect();
    assert!(asked.iter().all(|name| MAY_ASK.contains(name)), "{}: {asked:?}", M::NAME);
    assert!(asked.contains(&"try_insert") && asked.contains(&"reserve"));
}

mod in_turn {
    use super::*;
    each_map!(refused_in_turn);
}

mod only {
    use super::*;
    each_map!(only_these_ask);
}

#[test]
fn more_than_there_is() {
    assert!(BiHashMap::<Item>::with_capacity(1 << 62).is_err());
    assert!(IdOrdMap::<Item>::with_capacity(1 << 60).is_err());
    assert!(TriHashMap::<Item>::new().try_reserve(usize::MAX).is_err());
    assert!(BiHashOrdMap::<Item>::new().try_reserve(usize::MAX).is_err());
}
