//! Random calls of the maps with a sort key that go by its order.
use super::super::item::{Item, Shown, SortKey, shown, sort_key};
use super::super::list::List;
use super::super::{Table, below, call};
use facetweave::{Sorted, sorted::SlotMap};
use std::ops::Bound::{Excluded, Included, Unbounded};

macro_rules! of_map {
    ($($(#[$doc:meta])* $family:ident($map:ident, $list:ident, $n:ident) $body:block)*) => {
        $($(#[$doc])* pub fn $family<M: SlotMap<Item = Item>>($map: &mut Sorted<M>, $list: &mut List, $n: u64)
        where
            M::FirstKey: Ord,
            M::Builder: Clone + Default,
            Sorted<M>: Table,
        $body)*
    };
}

/// Some sort key, with one that is lower and one that is higher than all as well.
fn some_sort_key(n: u64) -> u64 {
    below(n / 4 + 4)
}

fn check<'a>(mut walk: impl DoubleEndedIterator<Item = &'a Item> + ExactSizeIterator, wanted: Vec<Shown>) {
    let (mut front, mut back) = (Vec::new(), Vec::new());
    assert_eq!(walk.len(), wanted.len());
    while walk.len() > 0 {
        let (end, item) = if below(2) == 0 { (&mut front, walk.next()) } else { (&mut back, walk.next_back()) };
        end.push(item.expect("as many items as it says").shown());
    }
    assert!(walk.next().is_none() && walk.next_back().is_none());
    front.extend(back.into_iter().rev());
    assert_eq!(front, wanted);
}

of_map! {
    ends(map, list, n) {
        let bound = some_sort_key(n);
        let first = list.items.first().copied();
        match below(7) {
            0 => assert_eq!(call!(map.first()).map(Item::shown), first),
            1 => assert_eq!(call!(map.last()).map(Item::shown), list.items.last().copied()),
            2 => assert_eq!(call!(map.pop_first()).map(|it| it.shown()), first.map(|_| list.take(0))),
            3 => assert_eq!(call!(map.pop_last()).map(|it| it.shown()), list.items.pop()),
            4 => {
                let due = first.filter(|it| sort_key(it.1) <= bound);
                assert_eq!(call!(map.pop_to(&SortKey(bound))).map(|it| it.shown()), due.map(|_| list.take(0)));
            }
            5 => {
                let due = first.filter(|it| sort_key(it.1) < bound);
                assert_eq!(call!(map.pop_before(&SortKey(bound))).map(|it| it.shown()), due.map(|_| list.take(0)));
            }
            _ => {
                let bound = bound.min(below(4));
                call!(map.drop_before(&SortKey(bound)));
                list.items.retain(|it| sort_key(it.1) >= bound);
            }
        }
    }

    ranges(map, list, n) {
        let (a, b) = (some_sort_key(n), some_sort_key(n));
        let (from, to) = (a.min(b), a.max(b));
        let (low, high) = (SortKey(from), SortKey(to));
        let of = |f: &dyn Fn(u64) -> bool| list.items.iter().filter(|it| f(sort_key(it.1))).copied().collect::<Vec<_>>();
        match below(11) {
            0 => check(call!(map.group(&low)), of(&|k| k == from)),
            1 => check(call!(map.range(low..high)), of(&|k| from <= k && k < to)),
            2 => check(call!(map.range(low..=high)), of(&|k| from <= k && k <= to)),
            3 => check(call!(map.range(low..)), of(&|k| from <= k)),
            4 => check(call!(map.range(..high)), of(&|k| k < to)),
            5 => check(call!(map.range(..=high)), of(&|k| k <= to)),
            6 => check(call!(map.range(..)), of(&|_| true)),
            7 => check(call!(map.range((Excluded(low), Included(high)))), of(&|k| from < k && k <= to)),
            8 => check(call!(map.range((Excluded(low), Unbounded))), of(&|k| from < k)),
            9 => check(call!(map.iter()), list.items.clone()),
            _ => check(call!("for &", (&*map).into_iter()), list.items.clone()),
        }
    }

    /// Half of the items have the keys of one that is there.
    replace(map, list, n) {
        let mut told = Item::random(n).shown();
        if !list.items.is_empty() && below(2) == 0 {
            told.0 = list.items[below(list.items.len() as u64) as usize].0;
        }
        let place = list.unique(told.0);
        match call!(map.replace(Item::new(told))) {
            Ok(old) => {
                assert_eq!(Some(old.shown()), place.map(|at| list.take(at)));
                list.add(told);
            }
            Err(item) => assert!(place.is_none() && item.shown() == told),
        }
    }

    inside(map, list, _n) {
        assert_eq!(call!(map.inside()).len(), list.items.len());
        let _: &M::Builder = call!(map.hasher());
    }

    /// By value, from both ends; the items that are left are dropped with the walk.
    out(map, list, _n) {
        let mut walk = call!("into_iter", std::mem::replace(map, Table::made()).into_iter());
        let (mut front, mut back) = (Vec::new(), Vec::new());
        let keep = below(4) as usize;
        while walk.len() > keep {
            let (end, item) = if below(2) == 0 { (&mut front, walk.next()) } else { (&mut back, walk.next_back()) };
            end.push(item.expect("as many items as it says"));
        }
        assert!(shown(&front) == list.items[..front.len()] && shown(back.iter().rev()) == list.items[list.items.len() - back.len()..]);
        list.items = shown(front.iter().chain(back.iter().rev()));
        drop(walk);
        map.add_all(front.into_iter().chain(back).collect());
    }
}
