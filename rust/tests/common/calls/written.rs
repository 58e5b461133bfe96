//! Random calls of the maps without a sort key: guards, data, cursors, and what differs.
use super::super::item::{Item, Key, shown, step};
use super::super::list::List;
use super::super::{Table, below, call};
use facetweave::*;
use std::hash::BuildHasher;

pub trait Written: Table {
    fn insert_unique(&mut self, item: Item) -> Result<(), (Item, bool, Vec<super::super::Shown>)>;
    fn data(&mut self, rank: usize, key: &Key) -> Option<&mut u64>;
    /// Puts an item with equal keys in the place of one by a guard, and writes its data.
    fn by_guard(&mut self, rank: usize, key: &Key, item: Item, data: u64) -> Option<Result<Item, Item>>;
    fn write_all(&mut self, f: impl FnMut(&Item) -> u64);
    fn keep_written(&mut self, f: impl FnMut(&Item) -> Option<u64>);
    /// Removes items one by one by a cursor: all, or those for which `f` says yes.
    fn extract(&mut self, f: Option<&dyn Fn(&Item) -> bool>, most: usize) -> Vec<Item>;
    /// Writes the data of each item by one of four walks.
    fn walk_and_write(&mut self, way: u64, f: &dyn Fn(u64) -> u64) -> usize;
    fn differs<'a>(&'a self, new: &'a Self, rank: usize) -> Option<Difference<'a, Item>>;
}

macro_rules! written {
    ($([$($s:ident)?] $map:ident<$item:ident $(, $hasher:ident)?>, $cursor:ty, $duplicates:expr, $next:expr,
       [$($rank:literal $data:ident $guard:ident $diff:ident),*];)*) => {
        $(impl<$($s: BuildHasher + Clone + Default)?> Written for $map<$item $(, $hasher)?> {
            fn insert_unique(&mut self, item: Item) -> Result<(), (Item, bool, Vec<super::super::Shown>)> {
                call!(self.insert_unique(item)).map_err(|e| {
                    let is_memory = matches!(e.reason(), InsertReason::Memory);
                    let (item, found) = e.into_parts();
                    (item, is_memory, found.into_iter().map(Item::shown).collect())
                })
            }
            fn data(&mut self, rank: usize, key: &Key) -> Option<&mut u64> {
                match rank { $($rank => call!(self.$data(key)),)* _ => unreachable!() }
            }
            fn by_guard(&mut self, rank: usize, key: &Key, item: Item, data: u64) -> Option<Result<Item, Item>> {
                let mut guard = match rank { $($rank => call!(self.$guard(key)),)* _ => unreachable!() }?;
                let result = call!("guard.replace", guard.replace(item)).map_err(|e| e.into_item());
                *call!("guard.data_mut", guard.data_mut()) = data;
                assert_eq!(call!("guard.reborrow", guard.reborrow()).data, data);
                if below(2) == 0 {
                    *call!("guard.into_data", guard.into_data()) = data;
                } else {
                    assert_eq!(call!("guard.into_ref", guard.into_ref()).data, data);
                }
                Some(result)
            }
            fn write_all(&mut self, f: impl FnMut(&Item) -> u64) {
                call!(self.update_all(f))
            }
            fn keep_written(&mut self, f: impl FnMut(&Item) -> Option<u64>) {
                call!(self.retain_mut(f))
            }
            fn extract(&mut self, f: Option<&dyn Fn(&Item) -> bool>, most: usize) -> Vec<Item> {
                let (mut cursor, mut out) = (<$cursor>::new(), Vec::with_capacity(most));
                while out.len() < most {
                    match f {
                        Some(f) => match call!("extract_from", self.extract_from(&mut cursor, f)) {
                            Some(item) => out.push(item),
                            None => break,
                        },
                        None => match call!("pop_from", self.pop_from(&mut cursor)) {
                            Some(item) => out.push(item),
                            None => break,
                        },
                    }
                }
                out
            }
            fn walk_and_write(&mut self, way: u64, f: &dyn Fn(u64) -> u64) -> usize {
                let (most, mut seen) = (self.len() + 1, 0);
                match way {
                    0 => {
                        let mut cursor = <$cursor>::new();
                        while let Some(mut guard) = call!("next_from", self.next_from(&mut cursor)) {
                            let data = guard.data;
                            *guard.data_mut() = f(data);
                            seen += 1;
                            assert!(seen < most, "more items than there are");
                        }
                    }
                    1 => {
                        let mut walk = call!(self.iter_mut());
                        while let Some(data) = call!("next_data", walk.next_data()) {
                            *data = f(*data);
                            seen += 1;
                            assert!(seen < most, "more items than there are");
                        }
                    }
                    2 => {
                        for data in call!("for &mut", (&mut *self).into_iter()).take(most) {
                            *data = f(*data);
                            seen += 1;
                        }
                    }
                    _ => {
                        let next: fn(&mut Self, &dyn Fn(u64) -> u64) -> usize = $next;
                        seen = next(self, f);
                    }
                }
                seen
            }
            fn differs<'a>(&'a self, new: &'a Self, rank: usize) -> Option<Difference<'a, Item>> {
                match rank { $($rank => call!(self.$diff(new)),)* _ => unreachable!() }.ok()
            }
        })*
    };
}

macro_rules! guards_of {
    () => {
        |map, f| {
            let (mut walk, mut seen) = (call!(map.iter_mut()), 0);
            while walk.count_remaining() > 0 {
                let mut guard = call!("next_mut", walk.next_mut()).expect("an item is left");
                let data = guard.data;
                *guard.data_mut() = f(data);
                seen += 1;
            }
            seen
        }
    };
}

written! {
    [S] IdHashMap<Item, S>, id_hash_map::Cursor, e.duplicate, guards_of!(), [0 data_mut get_mut diff];
    [S] BiHashMap<Item, S>, bi_hash_map::Cursor, e.duplicates, guards_of!(), [0 data1_mut get1_mut diff1, 1 data2_mut get2_mut diff2];
    [S] TriHashMap<Item, S>, tri_hash_map::Cursor, e.duplicates, guards_of!(),
        [0 data1_mut get1_mut diff1, 1 data2_mut get2_mut diff2, 2 data3_mut get3_mut diff3];
    [] IdOrdMap<Item>, id_ord_map::Cursor, e.duplicate, |map, f| {
        let (mut walk, mut seen) = (call!(map.iter_mut()), 0);
        while walk.peek().is_some() {
            let data = call!("next_data_back", walk.next_data_back()).expect("an item is left");
            *data = f(*data);
            seen += 1;
        }
        seen
    }, [0 data_mut get_mut diff];
}

pub fn insert_unique<M: Written>(map: &mut M, list: &mut List, n: u64) {
    let item = Item::random(n);
    let (told, wanted) = (item.shown(), list.conflicts(&item.shown()));
    match map.insert_unique(item) {
        Ok(()) => {
            assert!(wanted.is_empty());
            list.add(told);
        }
        Err((item, is_memory, found)) => assert!(item.shown() == told && !is_memory && found == wanted && !wanted.is_empty()),
    }
}

pub fn data<M: Written>(map: &mut M, list: &mut List, n: u64) {
    let (rank, key, new) = (below(M::WIDTH as u64) as usize, below(n), below(n + 8));
    let place = list.at(rank, key);
    let data = map.data(rank, &Key::new(key));
    assert_eq!(data.as_ref().map(|it| **it), place.map(|at| list.items[at].1));
    if let (Some(data), Some(at)) = (data, place) {
        *data = new;
        list.write(at, new);
    }
}

/// Half of the items that a guard shall put in have the keys of the one that it guards.
pub fn guard<M: Written>(map: &mut M, list: &mut List, n: u64) {
    let (rank, key, data) = (below(M::WIDTH as u64) as usize, below(n), below(n + 8));
    let place = list.at(rank, key);
    let (mut told, old) = (Item::random(n).shown(), place.map(|at| list.items[at]));
    if let Some(old) = old.filter(|_| below(2) == 0) {
        told.0 = old.0;
    }
    match map.by_guard(rank, &Key::new(key), Item::new(told), data) {
        None => assert_eq!(old, None),
        Some(result) => {
            let old = old.expect("an item has the key");
            let is_equal = told.0[..M::WIDTH] == old.0[..M::WIDTH];
            let at = place.expect("an item has the key");
            match result {
                Ok(gone) => {
                    assert!(is_equal && gone.shown() == old);
                    list.items[at] = (told.0, data);
                }
                Err(item) => {
                    assert!(!is_equal && item.shown() == told);
                    list.items[at].1 = data;
                }
            }
        }
    }
}

pub fn update_all<M: Written>(map: &mut M, list: &mut List, _: u64) {
    map.write_all(|it| {
        step();
        it.data ^ 3
    });
    list.items.iter_mut().for_each(|it| it.1 ^= 3);
}

pub fn retain_mut<M: Written>(map: &mut M, list: &mut List, _: u64) {
    let rest = below(9);
    map.keep_written(|it| {
        step();
        (it.data % 9 != rest).then_some(it.data ^ 5)
    });
    list.items.retain(|it| it.1 % 9 != rest);
    list.items.iter_mut().for_each(|it| it.1 ^= 5);
}

pub fn extract<M: Written>(map: &mut M, list: &mut List, n: u64) {
    let rest = below(7);
    let gone = map.extract(
        Some(&|it| {
            step();
            it.data % 7 == rest
        }),
        list.items.len() + 1,
    );
    let wanted = list.extract(|it| it.1 % 7 == rest);
    assert_eq!(list.in_order(shown(&gone)), list.in_order(wanted));
    // Some of the items that are left, or all.
    let most = if below(8) == 0 { list.items.len() + 1 } else { below(n.min(6)) as usize };
    let popped = map.extract(None, most);
    assert_eq!(popped.len(), most.min(list.items.len()));
    for item in popped {
        let at = list.items.iter().position(|it| *it == item.shown()).expect("it was there");
        list.take(at);
    }
}

pub fn walk_and_write<M: Written>(map: &mut M, list: &mut List, _: u64) {
    let bits = below(8);
    let seen = map.walk_and_write(below(4), &|data| {
        step();
        data ^ bits
    });
    assert_eq!(seen, list.items.len());
    list.items.iter_mut().for_each(|it| it.1 ^= bits);
}

/// A map beside a clone that was changed by some calls.
pub fn diff<M: Written>(map: &mut M, list: &mut List, n: u64) {
    let rank = below(M::WIDTH as u64) as usize;
    let (mut new, mut later) = (map.copy(), list.clone());
    for _ in 0..below(6) {
        super::shared::overwrite(&mut new, &mut later, n);
        super::shared::remove(&mut new, &mut later, n);
        super::shared::update(&mut new, &mut later, n);
    }
    let told = map.differs(&new, rank).expect("there is memory");
    let only = |one: &List, other: &List| {
        let out = one.items.iter().filter(|it| other.at(rank, it.0[rank]).is_none()).copied().collect();
        one.in_order(out)
    };
    assert_eq!(list.in_order(shown(told.added.iter().copied())), only(&later, list));
    assert_eq!(list.in_order(shown(told.removed.iter().copied())), only(list, &later));
    let common = list.items.iter().filter(|it| later.at(rank, it.0[rank]).is_some()).copied().collect();
    assert_eq!(list.in_order(shown(told.common.iter().map(|it| it.before))), list.in_order(common));
    for pair in &told.common {
        assert_eq!(Some(pair.after.shown()), later.get(rank, pair.before.shown().0[rank]));
        assert!(pair.is_modified() != pair.is_unchanged() && pair.is_modified() == (pair.before.shown() != pair.after.shown()));
    }
}
