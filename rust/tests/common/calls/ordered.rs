//! Random calls of `IdOrdMap` that go by the order of its keys.
use super::super::item::{Item, Key, Shown, shown};
use super::super::list::List;
use super::super::{Table, below, call};
use facetweave::IdOrdMap;
use std::ops::Bound::{Excluded, Included, Unbounded};

type Map = IdOrdMap<Item>;

pub fn ends(map: &mut Map, list: &mut List, n: u64) {
    let data = below(n + 8);
    let last = list.items.len().wrapping_sub(1);
    match below(8) {
        0 => assert_eq!(call!(map.first()).map(Item::shown), list.items.first().copied()),
        1 => assert_eq!(call!(map.last()).map(Item::shown), list.items.last().copied()),
        2 => assert_eq!(call!(map.pop_first()).map(|it| it.shown()), (!list.items.is_empty()).then(|| list.take(0))),
        3 => assert_eq!(call!(map.pop_last()).map(|it| it.shown()), list.items.pop()),
        4 => {
            if let Some(mut it) = call!(map.first_mut()) {
                *it.data_mut() = data;
            }
            if let Some(it) = list.items.first_mut() {
                it.1 = data;
            }
        }
        5 => {
            if let Some(mut it) = call!(map.last_mut()) {
                *it.data_mut() = data;
            }
            if let Some(it) = list.items.last_mut() {
                it.1 = data;
            }
        }
        6 => {
            let entry = call!(map.first_entry());
            assert_eq!(entry.as_ref().map(|it| it.get().shown()), list.items.first().copied());
            if let Some(mut it) = entry {
                *it.data_mut() = data;
            }
            if let Some(it) = list.items.first_mut() {
                it.1 = data;
            }
        }
        _ => {
            let entry = call!(map.last_entry());
            assert_eq!(entry.map(|it| it.remove().shown()), (!list.items.is_empty()).then(|| list.take(last)));
        }
    }
}

/// Takes all from both ends by turns: what came from the front, and then what came from the back.
fn both_ends<'a>(mut walk: impl DoubleEndedIterator<Item = &'a Item> + ExactSizeIterator, wanted: &[Shown]) {
    let (mut front, mut back) = (Vec::new(), Vec::new());
    assert_eq!(walk.len(), wanted.len());
    loop {
        let item =
            if below(2) == 0 { walk.next().inspect(|it| front.push(it.shown())) } else { walk.next_back().inspect(|it| back.push(it.shown())) };
        if item.is_none() {
            break;
        }
        assert_eq!(walk.len(), wanted.len() - front.len() - back.len());
    }
    assert!(walk.next().is_none() && walk.next_back().is_none());
    front.extend(back.into_iter().rev());
    assert_eq!(front, wanted);
}

pub fn ranges(map: &mut Map, list: &mut List, n: u64) {
    let (a, b) = (below(n), below(n));
    let (low, high) = (Key::new(a.min(b)), Key::new(a.max(b)));
    let (from, to) = (a.min(b), a.max(b));
    let of = |f: &dyn Fn(u64) -> bool| list.items.iter().filter(|it| f(it.0[0])).copied().collect::<Vec<_>>();
    match below(12) {
        0 => both_ends(call!(map.range(&low..&high)), &of(&|k| from <= k && k < to)),
        1 => both_ends(call!(map.range(&low..=&high)), &of(&|k| from <= k && k <= to)),
        2 => both_ends(call!(map.range(&low..)), &of(&|k| from <= k)),
        3 => both_ends(call!(map.range(..&high)), &of(&|k| k < to)),
        4 => both_ends(call!(map.range(..=&high)), &of(&|k| k <= to)),
        5 => both_ends(call!("range", map.range::<&Key, _>(..)), &of(&|_| true)),
        6 => both_ends(call!(map.range((Excluded(&low), Included(&high)))), &of(&|k| from < k && k <= to)),
        7 => both_ends(call!(map.range((Excluded(&low), Unbounded))), &of(&|k| from < k)),
        8 => both_ends(call!(map.range((Excluded(&low), Excluded(&high)))), &of(&|k| from < k && k < to)),
        9 => both_ends(call!(map.matching(&low)), &of(&|k| k == from)),
        10 => both_ends(call!(map.iter()), &list.items),
        _ => {
            let wanted = list.items.iter().filter(|it| from <= it.0[0] && it.0[0] <= to).count();
            let (mut walk, mut seen) = (call!(map.range_mut(&low..=&high)), 0);
            assert_eq!(walk.len(), wanted);
            while let Some(data) = if below(2) == 0 { call!("next_data", walk.next_data()) } else { walk.next_data_back() } {
                *data ^= 3;
                seen += 1;
            }
            assert_eq!(seen, wanted);
            list.items.iter_mut().filter(|it| from <= it.0[0] && it.0[0] <= to).for_each(|it| it.1 ^= 3);
        }
    }
}

/// By value, from both ends.
pub fn out(map: &mut Map, list: &mut List, _: u64) {
    let mut walk = call!("into_iter", std::mem::take(map).into_iter());
    let (mut front, mut back) = (Vec::new(), Vec::new());
    let keep = below(4) as usize;
    while walk.len() > keep {
        let (end, item) = if below(2) == 0 { (&mut front, walk.next()) } else { (&mut back, walk.next_back()) };
        end.push(item.expect("as many items as it says"));
    }
    assert!(shown(&front) == list.items[..front.len()] && shown(back.iter().rev()) == list.items[list.items.len() - back.len()..]);
    list.items = shown(front.iter().chain(back.iter().rev()));
    // The items that are left are dropped with the walk.
    drop(walk);
    map.add_all(front.into_iter().chain(back).collect());
}
