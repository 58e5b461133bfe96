//! Random calls of each map beside a plain list, which answers alike, at few items and at many. `CALLS=100000 cargo test --release --test
//! random` makes a longer run.
mod common;
use common::calls::{Kind, some_family};
use common::*;
use std::collections::BTreeSet;

fn compare<M: Table>(map: &M, list: &List) {
    assert_eq!(list.in_order(shown(map.all())), list.shown(), "{}", M::NAME);
    for item in list.items.iter().take(200) {
        assert!((0..M::WIDTH).all(|rank| map.find(rank, &Key::new(item.0[rank])).map(Item::shown) == Some(*item)));
    }
}

/// Fills the map with so many items, whose keys are half of those below twice that number.
fn fill<M: Table>(map: &mut M, list: &mut List, count: u64) {
    map.empty();
    // Each factor shares no divisor with the number of keys, so that all keys differ.
    let of = |n: u64, factor: u64| n * 2 * factor % (2 * count - 1);
    list.items = (0..count).map(|n| ([of(n, 1), of(n, 101), of(n, 103)], below(2 * count))).collect();
    map.add_all(list.items.iter().map(|it| Item::new(*it)).collect());
    list.sort();
}

fn random_calls<M: Kind>(calls: u64, n: u64, least: u64) {
    let (mut map, mut list) = (M::made(), List::new(M::WIDTH, M::ORDER));
    let families = M::families();
    for call in 0..calls {
        if (list.items.len() as u64) < least {
            fill(&mut map, &mut list, 2 * least);
            compare(&map, &list);
        }
        some_family(&families)(&mut map, &mut list, n);
        assert_eq!(map.count(), list.items.len(), "{}", M::NAME);
        if call % (16 + least) == 0 {
            compare(&map, &list);
        }
    }
    compare(&map, &list);
    drop(map);
    assert_eq!(live(), 0, "{}: each item is dropped once", M::NAME);
}

/// With a hasher of few hashes a map of many items would take too long.
fn beside_a_list<M: Kind>(is_good: bool) {
    called();
    for (usual, n, least) in [(3_000, 4, 0), (3_000, 15, 0), (3_000, 80, 0), (1_000, 2_400, 600), (300, 44_000, 11_000)] {
        if is_good || n < 10_000 {
            random_calls::<M>(calls(usual), n, least);
        }
    }
    let made: BTreeSet<_> = called().into_keys().collect();
    let known: BTreeSet<_> = M::CALLS.iter().copied().flatten().copied().collect();
    assert_eq!(made, known, "{}: calls that were made, and those that there are", M::NAME);
}

each_map!(beside_a_list);
