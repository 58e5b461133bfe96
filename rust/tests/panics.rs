//! A caller's code that panics, keys that break their laws, and both: each call returns or panics, each item is dropped once, the map is
//! whole after a panic but for the calls of a list, and no later call runs for ever.
//! `cargo test --test panics -- --nocapture` shows after how many panics in which call a map answered otherwise than a plain list.
mod common;
use common::calls::{Kind, some_family};
use common::item::{DROPS_PANIC, FUEL, UNLAWFUL, panicked_in};
use common::*;
use std::cell::Cell;
use std::collections::BTreeMap;
use std::panic::{AssertUnwindSafe, catch_unwind};
use std::sync::atomic::{AtomicU64, Ordering::Relaxed};
use std::time::Duration;

/// The calls after whose panic a map may answer otherwise, of which maps, and why. In a map with a sort key each item is found by each of its
/// keys all the same. A call that is made whole leaves this list: `each_step_in_turn` fails if none of its panics breaks a map any more.
const MAY_BREAK: &[(Order, &[&str], &str)] = &[
    (Order::Key, &["clear"], "where a drop panics: the blocks of entries are emptied one by one, and the entries counted after all"),
    (Order::Sort, &["insert_overwrite", "extend", "try_extend"], "the new item is in the map before its place in the order is sought"),
    (Order::Sort, &["rekey", "rekey1", "rekey2", "rekey3", "replace"], "the new item is in the map before its place in the order is sought"),
    (Order::Sort, &["update", "update1", "update2", "update3"], "the new data is in the map before its place in the order is sought"),
];
/// How often a caller's code panicked in a call, and how often the map then answered otherwise than a plain list of its items.
type Told = BTreeMap<&'static str, (u64, u64)>;

static CALLS_DONE: AtomicU64 = AtomicU64::new(0);

thread_local! {
    static QUIET: Cell<bool> = const { Cell::new(false) };
}

/// Runs code that may panic, and says with what it did.
fn caught<R>(f: impl FnOnce() -> R) -> Result<R, String> {
    QUIET.set(true);
    let result = catch_unwind(AssertUnwindSafe(f));
    QUIET.set(false);
    result.map_err(|it| it.downcast_ref::<String>().cloned().or(it.downcast_ref::<&str>().map(|it| it.to_string())).unwrap_or_default())
}

/// Ends the program if no call came back for a minute.
fn watch() {
    static ONCE: std::sync::Once = std::sync::Once::new();
    ONCE.call_once(|| {
        std::panic::set_hook(Box::new(|it| {
            if !QUIET.get() {
                eprintln!("{it}");
            }
        }));
        std::thread::spawn(|| {
            let mut seen = u64::MAX;
            while seen != CALLS_DONE.load(Relaxed) {
                seen = CALLS_DONE.load(Relaxed);
                std::thread::sleep(Duration::from_secs(60));
            }
            eprintln!("a call did not come back");
            std::process::abort();
        });
    });
}

/// Whether the map answers as a plain list of its items: each is found by each of its keys, no other is, and they stand in order. Each
/// leaves and comes back, which shows places of the map that name an item that is not there.
fn is_whole<M: Table>(map: &mut M, n: u64) -> bool {
    let check = || {
        let mut list = List::new(M::WIDTH, M::ORDER);
        list.items = shown(map.all());
        let items = list.items.clone();
        list.sort();
        list.items == items
            && map.count() == items.len()
            && (0..M::WIDTH).all(|rank| {
                (0..n).all(|key| {
                    let mut have = items.iter().filter(|it| it.0[rank] == key);
                    map.find(rank, &Key::new(key)).map(Item::shown).as_ref() == have.next() && have.next().is_none()
                })
            })
            && items.iter().take(40).all(|it| {
                let item = map.take(0, &Key::new(it.0[0])).expect("it is there");
                let is_gone = (0..M::WIDTH).all(|rank| !map.has(rank, &Key::new(it.0[rank])));
                is_gone && map.insert(item).is_ok()
            })
    };
    caught(check).unwrap_or(false)
}

/// Whether each item is found by each of its keys, and no other item, whatever the order of the map is.
fn finds_by_keys<M: Table>(map: &M, n: u64) -> bool {
    let is_found = |it: &Item| (0..M::WIDTH).all(|rank| map.find(rank, &it.keys[rank]).is_some_and(|found| std::ptr::eq(found, it)));
    let count = |rank| (0..n).filter(|key| map.find(rank, &Key::new(*key)).is_some_and(|it| it.shown().0[rank] == *key && is_found(it))).count();
    caught(|| (0..M::WIDTH).all(|rank| count(rank) == map.count())).unwrap_or(false)
}

/// What a caller's code does.
#[derive(Clone, Copy, Default, Debug)]
struct Hurts {
    panics: bool,
    /// Drops panic too. Rust then leaks what a function was about to return, so that only a second drop is looked for.
    drops: bool,
    unlawful: bool,
}

fn is_listed(order: Order, name: &str) -> bool {
    MAY_BREAK.iter().any(|(of, names, _)| *of == order && names.contains(&name))
}

fn may_break<M: Table>(name: &str, hurts: Hurts) -> bool {
    hurts.unlawful || is_listed(M::ORDER, name)
}

fn hurt<M: Kind>(calls: u64, n: u64, hurts: Hurts, told: &mut Told) {
    let (mut map, mut list) = (M::made(), List::new(M::WIDTH, M::ORDER));
    let (families, mut was_whole) = (M::families(), true);
    for _ in 0..calls {
        let family = some_family(&families);
        UNLAWFUL.set(hurts.unlawful);
        FUEL.set(if hurts.panics && below(2) == 0 { below(60) as i64 } else { -1 });
        panicked_in();
        let failure = caught(|| family(&mut map, &mut list, n)).err();
        FUEL.set(-1);
        UNLAWFUL.set(false);
        CALLS_DONE.fetch_add(1, Relaxed);
        let name = panicked_in();
        if name.is_none() && was_whole && !hurts.unlawful {
            assert_eq!(failure, None, "{}: {} answers otherwise than a list", M::NAME, last_call());
        }
        if failure.is_none() && !hurts.unlawful {
            continue;
        }
        let whole = is_whole(&mut map, n);
        if let (Some(name), true) = (name, was_whole) {
            let count = told.entry(name).or_default();
            count.0 += 1;
            count.1 += u64::from(!whole);
            assert!(whole || may_break::<M>(name, hurts), "{}: after a panic in {name} it answers otherwise than a list", M::NAME);
            let finds = whole || hurts.unlawful || M::ORDER != Order::Sort || finds_by_keys(&map, n);
            assert!(finds, "{}: after a panic in {name} an item is not found by its keys", M::NAME);
        }
        // One map in eight that is not whole goes on.
        was_whole = whole;
        if !whole && below(8) != 0 {
            (map, was_whole) = (M::made(), true);
        }
        list.items = caught(|| shown(map.all())).unwrap_or_default();
    }
    drop(map);
    assert!(hurts.drops || live() == 0, "{}: each item is dropped once", M::NAME);
}

fn all(hurts: Hurts) {
    watch();
    DROPS_PANIC.set(hurts.drops);
    let mut told = Told::new();
    for n in [6, 30, 120] {
        all_maps!(hurt(calls(700), n, hurts, &mut told));
    }
    println!("{hurts:?}");
    println!("{:28}{:>10}{:>14}", "call", "panicked", "then not whole");
    for (name, (panicked, broken)) in &told {
        println!("{name:28}{panicked:>10}{broken:>14}");
    }
    assert_eq!(told.is_empty(), !hurts.panics);
}

#[test]
fn callers_that_panic() {
    all(Hurts { panics: true, ..Hurts::default() });
}

#[test]
fn drops_that_panic() {
    all(Hurts { panics: true, drops: true, ..Hurts::default() });
}

#[test]
fn keys_without_laws() {
    all(Hurts { unlawful: true, ..Hurts::default() });
}

#[test]
fn both() {
    all(Hurts { panics: true, unlawful: true, ..Hurts::default() });
}

/// A call with the same arguments each time, by its name: items of even keys below twice this number are in the map.
type Step<M> = (&'static str, fn(&mut M, u64));

fn one(keys: [u64; 3], data: u64) -> Item {
    Item::new((keys, data))
}

/// New items, and then one whose keys are taken.
fn refused_late() -> Vec<Item> {
    (0..12).map(|n| one([2 * n + 1; 3], 3 * n)).chain([one([1; 3], 0)]).collect()
}

fn steps_of<M: Table>() -> Vec<Step<M>> {
    let mut all: Vec<Step<M>> = vec![
        ("try_insert", |map, count| drop(map.insert(one([count | 1; 3], 9)))),
        ("insert_overwrite", |map, _| drop(map.overwrite(one([41; 3], 9)))),
        ("insert_overwrite", |map, count| drop(map.overwrite(one([0, 2, count / 2 * 2], count)))),
        ("extend", |map, _| map.add_all((0..9).map(|n| one([n, n + 1, n], 5 * n)).collect())),
        ("try_extend", |map, _| drop(map.try_add_all((0..9).map(|n| one([n; 3], 40 - n)).collect()))),
        ("extend_unique", |map, _| drop(map.add_unique(refused_late()))),
        ("retain", |map, _| map.keep(|it| it.data % 3 != 0)),
        ("reserve", |map, _| assert!(map.more(500))),
        ("shrink_to", |map, count| assert!(map.shrink(count as usize + 9))),
        ("shrink_to_fit", |map, _| assert!(map.shrink_all())),
        ("clone", |map, _| drop(map.copy())),
        ("clear", |map, _| map.empty()),
    ];
    macro_rules! by_rank {
        ($($rank:literal $remove:literal $rekey:literal $update:literal),*) => {
            $(if $rank < M::WIDTH {
                all.push(($remove, |map, count| drop(map.take($rank, &Key::new(count / 2 * 2)))));
                all.push(($rekey, |map, count| drop(map.move_to($rank, &Key::new(count / 2 * 2), one([41; 3], 0)))));
                all.push(($rekey, |map, count| drop(map.move_to($rank, &Key::new(count / 2 * 2), one([count / 2 * 2; 3], 90)))));
                all.push(($update, |map, count| assert!(map.write($rank, &Key::new(count / 2 * 2), |it| it.data + 50) || count < 2)));
            })*
        };
    }
    if M::WIDTH == 1 {
        by_rank!(0 "remove" "rekey" "update");
    } else {
        by_rank!(0 "remove1" "rekey1" "update1", 1 "remove2" "rekey2" "update2", 2 "remove3" "rekey3" "update3");
    }
    all
}

/// Calls that do one thing after another, so that a panic leaves what was done by then.
const OF_SEVERAL: &[&str] = &["extend", "try_extend", "extend_unique", "retain", "clear"];

fn sorted<M: Table>(map: &M) -> Vec<Shown> {
    let mut items = shown(map.all());
    items.sort_unstable();
    items
}

/// Each step of the caller's code panics in turn, in each call and with maps of several sizes. Notes after whose panics a map is not whole.
fn each_step<M: Table>(broken: &mut Vec<(Order, &'static str)>) {
    for (count, room) in [(0, 0), (3, 0), (9, 90)] {
        for (name, call) in steps_of::<M>() {
            let made = || {
                let mut map = M::of((0..count).map(|n| one([2 * n; 3], 7 * n % 30)).collect());
                assert!(map.more(room));
                map
            };
            let mut done_at_once = made();
            call(&mut done_at_once, count);
            let (before, after) = (sorted(&made()), sorted(&done_at_once));
            for fuel in 0.. {
                let mut map = made();
                FUEL.set(fuel);
                panicked_in();
                let done = caught(|| call(&mut map, count));
                FUEL.set(-1);
                CALLS_DONE.fetch_add(1, Relaxed);
                let panicked = panicked_in();
                assert!(panicked.is_some_and(|it| it == name || it.is_empty()) || done.is_ok(), "{}: {name}: {done:?}", M::NAME);
                if panicked == Some(name) && !is_whole(&mut map, 50) {
                    assert!(is_listed(M::ORDER, name), "{}: after a panic in step {fuel} of {name} it answers otherwise than a list", M::NAME);
                    broken.push((M::ORDER, name));
                }
                if M::ORDER == Order::None && !OF_SEVERAL.contains(&name) {
                    let left = sorted(&map);
                    assert!(left == before || left == after, "{}: a panic in {name} leaves {left:?} of {before:?}", M::NAME);
                }
                if panicked.is_none() {
                    break;
                }
            }
        }
    }
    assert!(DROPS_PANIC.get() || live() == 0, "{}: each item is dropped once", M::NAME);
}

#[test]
fn each_step_in_turn() {
    watch();
    let mut broken = Vec::new();
    for drops in [false, true] {
        DROPS_PANIC.set(drops);
        all_maps!(each_step(&mut broken));
    }
    for (order, names, why) in MAY_BREAK {
        // `replace` is no call of all maps: the random calls have it.
        for name in names.iter().filter(|it| **it != "replace") {
            assert!(broken.contains(&(*order, *name)), "no panic in {name} breaks a map any more, though {why}: take it out of MAY_BREAK");
        }
    }
}

/// Turns of an insert and a call of a family that panics after the same number of steps, always in the same map: a panic leaves nothing in a
/// table that fills it up, so that each call finds an empty cell and ends.
fn panics_in_turn<M: Kind>() {
    for ((_, family), fuel) in M::families().into_iter().flat_map(|it| (0..10).map(move |fuel| (it, fuel))) {
        let (mut map, mut list) = (M::made(), List::new(M::WIDTH, M::ORDER));
        for _ in 0..calls(60) {
            let _ = caught(|| map.insert(Item::random(6)));
            list.items = caught(|| shown(map.all())).unwrap_or_default();
            FUEL.set(fuel);
            let _ = caught(|| family(&mut map, &mut list, 6));
            FUEL.set(-1);
            CALLS_DONE.fetch_add(1, Relaxed);
        }
    }
}

#[test]
fn no_call_runs_for_ever() {
    watch();
    for drops in [false, true] {
        DROPS_PANIC.set(drops);
        all_maps!(panics_in_turn());
    }
}
