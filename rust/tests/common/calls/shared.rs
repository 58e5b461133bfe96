//! Random calls that all maps have.
use super::super::item::{Item, Key, Shown, shown, step};
use super::super::list::List;
use super::super::{Table, below};

fn drawn_items(n: u64, most: u64) -> (Vec<Item>, Vec<Shown>) {
    let items: Vec<Item> = (0..below(most)).map(|_| Item::random(n)).collect();
    let told = shown(&items);
    (items, told)
}

pub fn insert<M: Table>(map: &mut M, list: &mut List, n: u64) {
    let item = Item::random(n);
    let (told, taken) = (item.shown(), list.taken(&item.shown()));
    match map.insert(item) {
        Ok(()) => {
            assert_eq!(taken, [false; 3]);
            list.add(told);
        }
        Err((item, say)) => assert!(item.shown() == told && say == taken && taken.contains(&true)),
    }
}

pub fn overwrite<M: Table>(map: &mut M, list: &mut List, n: u64) {
    let item = Item::random(n);
    let told = item.shown();
    let gone = map.overwrite(item).expect("there is memory");
    assert_eq!(shown(&gone), list.overwrite(told));
}

pub fn look_up<M: Table>(map: &mut M, list: &mut List, n: u64) {
    let (rank, key) = (below(M::WIDTH as u64) as usize, below(n));
    let wanted = list.get(rank, key);
    assert_eq!(map.find(rank, &Key::new(key)).map(Item::shown), wanted);
    assert_eq!(map.has(rank, &Key::new(key)), wanted.is_some());
}

pub fn remove<M: Table>(map: &mut M, list: &mut List, n: u64) {
    let (rank, key) = (below(M::WIDTH as u64) as usize, below(n));
    let gone = map.take(rank, &Key::new(key));
    assert_eq!(gone.map(|it| it.shown()), list.at(rank, key).map(|at| list.take(at)));
}

pub fn rekey<M: Table>(map: &mut M, list: &mut List, n: u64) {
    let (rank, key, item) = (below(M::WIDTH as u64) as usize, below(n), Item::random(n));
    let told = item.shown();
    let place = list.at(rank, key);
    let old = place.map(|at| list.items[at]);
    let is_free = list.conflicts(&told).iter().all(|it| Some(*it) == old);
    match map.move_to(rank, &Key::new(key), item) {
        Ok(moved) => {
            assert!(is_free && Some(moved.shown()) == old);
            list.take(place.expect("an item has the key"));
            list.add(told);
        }
        Err((is_there, item)) => assert!(item.shown() == told && is_there == old.is_some() && !(is_there && is_free)),
    }
}

pub fn update<M: Table>(map: &mut M, list: &mut List, n: u64) {
    let (rank, key, data) = (below(M::WIDTH as u64) as usize, below(n), below(n + 8));
    let place = list.at(rank, key);
    let found = map.write(rank, &Key::new(key), |it| {
        step();
        assert_eq!(Some(it.shown()), place.map(|at| list.items[at]));
        data
    });
    assert_eq!(found, place.is_some());
    if let Some(at) = place {
        list.write(at, data);
    }
}

pub fn retain<M: Table>(map: &mut M, list: &mut List, _: u64) {
    let rest = below(9);
    let mut seen = Vec::with_capacity(list.items.len());
    map.keep(|it| {
        step();
        seen.push(it.shown());
        it.data % 9 != rest
    });
    assert_eq!(list.in_order(seen), list.shown());
    list.items.retain(|it| it.1 % 9 != rest);
}

/// Later items take the place of earlier ones that conflict with them.
pub fn extend<M: Table>(map: &mut M, list: &mut List, n: u64) {
    let (items, told) = drawn_items(n, 12);
    if below(2) == 0 {
        map.add_all(items);
    } else {
        assert!(map.try_add_all(items).is_ok());
    }
    for item in told {
        list.overwrite(item);
    }
}

pub fn extend_unique<M: Table>(map: &mut M, list: &mut List, n: u64) {
    let (items, told) = drawn_items(n, 7);
    let mut longer = list.clone();
    let refused = told.iter().position(|it| {
        let is_taken = longer.taken(it) != [false; 3];
        if !is_taken {
            longer.add(*it);
        }
        is_taken
    });
    match map.add_unique(items) {
        Ok(()) => {
            assert_eq!(refused, None);
            *list = longer;
        }
        Err((before, (item, taken))) => {
            let at = refused.expect("an item conflicts");
            assert!(shown(&before) == told[..at] && item.shown() == told[at] && taken == longer.taken(&told[at]));
        }
    }
}

/// A new map of random items takes the place of the old one.
pub fn collect<M: Table>(map: &mut M, list: &mut List, n: u64) {
    let (items, told) = drawn_items(n, 40);
    let mut made = List::new(list.width, list.order);
    let way = below(3);
    if way == 2 {
        let first = told.iter().find(|it| {
            let is_taken = made.taken(it) != [false; 3];
            if !is_taken {
                made.add(**it);
            }
            is_taken
        });
        match M::unique_of(items) {
            Ok(new) => {
                assert_eq!(first, None);
                *map = new;
            }
            Err(item) => {
                assert_eq!(first, Some(&item.shown()));
                return;
            }
        }
    } else {
        *map = if way == 0 { M::of(items) } else { M::try_of(items).expect("there is memory") };
        for item in told {
            made.overwrite(item);
        }
    }
    *list = made;
}

pub fn room<M: Table>(map: &mut M, list: &mut List, _: u64) {
    let (len, more) = (list.items.len(), below(40) as usize);
    match below(5) {
        0 => assert!(map.more(more) && map.room() >= len + more),
        1 => assert!(map.try_more(more) && map.room() >= len + more),
        2 => assert!(map.shrink_all() && map.room() == len),
        3 => {
            let before = map.room();
            assert!(map.shrink(len + more) && map.room() >= (len + more).min(before) && map.room() <= before);
        }
        _ => {
            let new = M::roomy(more).expect("there is memory");
            assert!(new.room() >= more && new.is_bare());
        }
    }
}

pub fn clear<M: Table>(map: &mut M, list: &mut List, _: u64) {
    if below(8) == 0 {
        map.empty();
        list.items.clear();
        assert!(map.is_bare());
    }
}

/// A clone is equal to its map until one of them changes, and stays when the other goes.
pub fn clone<M: Table>(map: &mut M, list: &mut List, _: u64) {
    let mut copy = if below(2) == 0 { map.copy() } else { map.try_copy().expect("there is memory") };
    assert!(map.same(&copy) && copy.same(map));
    let text = copy.text();
    assert_eq!(text.matches("Item {").count(), list.items.len());
    if let Some(first) = list.items.first() {
        let key = Key::new(first.0[0]);
        copy.write(0, &key, |it| it.data ^ 1);
        assert!(!map.same(&copy));
        drop(copy.take(0, &key));
        assert!(!map.same(&copy) && !copy.same(map));
        copy.insert(Item::new(*first)).expect("its keys are free");
    }
    *map = copy;
}

/// By reference, and by value into a new map.
pub fn walk<M: Table>(map: &mut M, list: &mut List, _: u64) {
    assert_eq!(list.in_order(shown(map.all())), list.shown());
    let all = std::mem::replace(map, M::made()).out();
    let told = list.in_order(shown(&all));
    map.add_all(all);
    assert_eq!(told, list.shown());
}
