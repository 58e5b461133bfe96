//! The loops over the maps on the other sides, which are those kept by hand or those of the Rust crate: one for each
//! loop of `bench/loops`, with the same name.
use crate::calls::{Map, sum_of, told};
use crate::workload::{Row, Workload, copies};

/// Returns the sum of what is done with a map of each part of the rows, and with a part of the others if there are any.
pub fn each_map<const N: usize>(
    load: &Workload<N>,
    mut made: impl FnMut(&[Row<N>], &[Row<N>]) -> u64,
) -> u64 {
    let maps = load.rows.len() / load.number;
    let part = (load.asked.len() / maps).max(1);
    let mut asked = load.asked.chunks(part);
    let parts = load.rows.chunks(load.number);
    sum_of(parts.map(|rows| made(rows, asked.next().unwrap_or(&[]))))
}

/// Returns how often a loop is repeated.
fn times<const N: usize>(load: &Workload<N>, whole: bool) -> usize {
    if whole { load.number } else { 0 }
}

pub fn asked<const N: usize>(load: &Workload<N>, whole: bool) -> &[Row<N>] {
    if whole { &load.asked } else { &[] }
}

/// Inserts the rows, and counts those that conflict with another.
fn fill<const N: usize, M: Map<N>>(map: &mut M, rows: &[Row<N>]) -> u64 {
    rows.iter().map(|row| u64::from(!map.insert(*row))).sum()
}

fn filled<const N: usize, M: Map<N>>(load: &Workload<N>, rows: &[Row<N>]) -> M {
    let mut map = M::with_capacity(load.room);
    fill(&mut map, rows);
    map
}

/// Changes new maps by parts of the rows. Sums what `made` returns, and how many items each map then has.
fn each_new<const N: usize, M: Map<N>>(
    load: &Workload<N>,
    whole: bool,
    made: impl Fn(&mut M, &[Row<N>]) -> u64,
) -> u64 {
    each_map(load, |rows, _| {
        let mut map = M::with_capacity(load.room);
        let sum = if whole { made(&mut map, rows) } else { 0 };
        sum + map.len() as u64
    })
}

/// Sums what `made` returns for a map of each part of the rows, and a part of those that are asked for.
fn each_filled<const N: usize, M: Map<N>>(
    load: &Workload<N>,
    whole: bool,
    made: impl Fn(&mut M, &[Row<N>]) -> u64,
) -> u64 {
    each_map(load, |rows, asked| {
        let mut map = filled::<N, M>(load, rows);
        if whole { made(&mut map, asked) } else { 0 }
    })
}

fn take_out<const N: usize, M: Map<N>>(map: &mut M, rows: &[Row<N>]) -> u64 {
    sum_of(
        rows.iter()
            .map(|row| map.remove(row.keys[0]).map_or(0, |gone| told(&gone))),
    )
}

fn overwritten<const N: usize, M: Map<N>>(map: &mut M, rows: &[Row<N>]) -> u64 {
    sum_of(rows.iter().map(|row| map.overwrite(*row) as u64))
}

pub fn insert<const N: usize, M: Map<N>>(load: &Workload<N>, whole: bool) -> u64 {
    each_new(load, whole, fill::<N, M>)
}

pub fn grow<const N: usize, M: Map<N>>(load: &Workload<N>, _: bool) -> u64 {
    let mut map = M::with_capacity(0);
    let refused = fill(&mut map, &load.rows);
    refused + u64::from(Vec::<u8>::new().try_reserve_exact(load.number).is_err())
}

/// Inserts the rows, and counts the errors that say that the first key is not taken.
fn try_fill<const N: usize, M: Map<N>>(map: &mut M, rows: &[Row<N>]) -> u64 {
    let refused = rows.iter().filter_map(|row| map.try_insert(*row).err());
    sum_of(refused.map(|(_, taken)| u64::from(!taken[0])))
}

pub fn try_insert<const N: usize, M: Map<N>>(load: &Workload<N>, whole: bool) -> u64 {
    each_new(load, whole, try_fill::<N, M>)
}

pub fn try_insert_refused<const N: usize, M: Map<N>>(load: &Workload<N>, whole: bool) -> u64 {
    try_fill(&mut filled::<N, M>(load, &load.rows), asked(load, whole))
}

pub fn insert_refused<const N: usize, M: Map<N>>(load: &Workload<N>, whole: bool) -> u64 {
    fill(&mut filled::<N, M>(load, &load.rows), asked(load, whole))
}

pub fn entry_vacant<const N: usize, M: Map<N>>(load: &Workload<N>, whole: bool) -> u64 {
    each_new(load, whole, |map: &mut M, rows| {
        let entered = rows.iter().map(|row| map.or_insert(*row));
        entered.filter(Option::is_none).count() as u64
    })
}

pub fn entry_occupied<const N: usize, M: Map<N>>(load: &Workload<N>, whole: bool) -> u64 {
    let mut map = filled::<N, M>(load, &load.rows);
    let rows = asked(load, whole).iter();
    sum_of(rows.map(|row| map.or_insert(*row).unwrap_or(0)))
}

pub fn overwrite<const N: usize, M: Map<N>>(load: &Workload<N>, whole: bool) -> u64 {
    each_filled(load, whole, overwritten::<N, M>)
}

pub fn overwrite_same<const N: usize, M: Map<N>>(load: &Workload<N>, whole: bool) -> u64 {
    overwritten(&mut filled::<N, M>(load, &load.rows), asked(load, whole))
}

pub fn get<const N: usize, M: Map<N>>(load: &Workload<N>, whole: bool) -> u64 {
    let map = filled::<N, M>(load, &load.rows);
    let rows = asked(load, whole).iter();
    sum_of(rows.map(|row| map.get(row.keys[0]).map_or(0, told)))
}

pub fn get_unique<const N: usize, M: Map<N>>(load: &Workload<N>, whole: bool) -> u64 {
    let map = filled::<N, M>(load, &load.rows);
    let rows = asked(load, whole).iter();
    sum_of(rows.map(|row| map.get_unique(row.keys).map_or(0, told)))
}

pub fn get_in_turn<const N: usize, M: Map<N>>(load: &Workload<N>, whole: bool) -> u64 {
    let map = filled::<N, M>(load, &load.rows);
    let (mut sum, mut last) = (0u64, 0);
    for row in asked(load, whole) {
        if let Some(found) = map.get(row.keys[0] ^ last) {
            sum = sum.wrapping_add(told(found));
            last = found.value;
        }
    }
    sum
}

pub fn get_mut<const N: usize, M: Map<N>>(load: &Workload<N>, whole: bool) -> u64 {
    let mut map = filled::<N, M>(load, &load.rows);
    let rows = asked(load, whole).iter();
    sum_of(rows.map(|row| {
        map.get_mut(row.keys[0]).map_or(0, |mut found| {
            found.value += 1;
            found.value
        })
    }))
}

pub fn remove<const N: usize, M: Map<N>>(load: &Workload<N>, whole: bool) -> u64 {
    each_filled(load, whole, take_out::<N, M>)
}

pub fn remove_unique<const N: usize, M: Map<N>>(load: &Workload<N>, whole: bool) -> u64 {
    each_filled(load, whole, |map: &mut M, rows| {
        let gone = rows.iter().filter_map(|row| map.remove_unique(row.keys));
        sum_of(gone.map(|gone| told(&gone)))
    })
}

pub fn rekey<const N: usize, M: Map<N>>(load: &Workload<N>, whole: bool) -> u64 {
    let mut map = filled::<N, M>(load, &load.rows);
    let pairs = asked(load, whole).chunks_exact(2);
    sum_of(pairs.map(|two| {
        let gone = map.rekey(two[0].keys[0], two[1]);
        gone.map_or(1, |gone| told(&gone))
    }))
}

pub fn remove_insert<const N: usize, M: Map<N>>(load: &Workload<N>, whole: bool) -> u64 {
    let mut map = filled::<N, M>(load, &load.rows);
    let mut sum = 0u64;
    for two in asked(load, whole).chunks_exact(2) {
        sum = sum.wrapping_add(map.remove(two[0].keys[0]).map_or(0, |gone| told(&gone)));
        sum = sum.wrapping_add(u64::from(!map.insert(two[1])));
    }
    sum
}

pub fn iter<const N: usize, M: Map<N>>(load: &Workload<N>, whole: bool) -> u64 {
    let map = filled::<N, M>(load, &load.rows);
    let walks = (0..times(load, whole)).map(|_| sum_of(map.iter().map(|row| row.keys[0])));
    sum_of(walks)
}

pub fn for_lent<const N: usize, M: Map<N>>(load: &Workload<N>, whole: bool) -> u64 {
    let map = filled::<N, M>(load, &load.rows);
    sum_of((0..times(load, whole)).map(|_| map.for_lent()))
}

pub fn iter_mut<const N: usize, M: Map<N>>(load: &Workload<N>, whole: bool) -> u64 {
    let mut map = filled::<N, M>(load, &load.rows);
    let mut sum = 0u64;
    for _ in 0..times(load, whole) {
        let mut walk = map.iter_mut();
        while walk.len() > 0 {
            if let Some(mut row) = walk.next() {
                row.value += 1;
                sum = sum.wrapping_add(row.value);
            }
        }
    }
    sum
}

pub fn update_all<const N: usize, M: Map<N>>(load: &Workload<N>, whole: bool) -> u64 {
    let mut map = filled::<N, M>(load, &load.rows);
    for _ in 0..times(load, whole) {
        map.update_all(|row| row.value.wrapping_add(1));
    }
    sum_of(map.iter().map(|row| row.value))
}

/// Returns the sum of what is done with this many copies of a map.
fn each_copy<const N: usize, M: Map<N>>(
    times: usize,
    map: &M,
    mut made: impl FnMut(M) -> u64,
) -> u64 {
    sum_of((0..times).map(|_| made(map.clone())))
}

/// Changes copies of a map of each part of the rows, and sums how many items each copy then has.
fn each_changed<const N: usize, M: Map<N>>(
    load: &Workload<N>,
    whole: bool,
    change: impl Fn(&mut M),
) -> u64 {
    each_map(load, |rows, _| {
        each_copy(
            copies(load.number),
            &filled::<N, M>(load, rows),
            |mut copy| {
                if whole {
                    change(&mut copy);
                }
                copy.len() as u64
            },
        )
    })
}

pub fn for_owned<const N: usize, M: Map<N>>(load: &Workload<N>, whole: bool) -> u64 {
    let map = filled::<N, M>(load, &load.rows);
    each_copy(load.number, &map, |copy| {
        if whole {
            sum_of(copy.into_rows().map(|row| row.keys[0]))
        } else {
            0
        }
    })
}

pub fn equal<const N: usize, M: Map<N>>(load: &Workload<N>, whole: bool) -> u64 {
    each_map(load, |rows, asked| {
        let (map, other) = (filled::<N, M>(load, rows), filled::<N, M>(load, asked));
        let times = copies(load.number);
        sum_of((0..times).map(|_| u64::from(whole && map == other)))
    })
}

pub fn retain<const N: usize, M: Map<N>>(load: &Workload<N>, whole: bool) -> u64 {
    each_changed(load, whole, |map: &mut M| {
        map.retain(|row| row.keys[0] % 2 == 0);
    })
}

pub fn retain_most<const N: usize, M: Map<N>>(load: &Workload<N>, whole: bool) -> u64 {
    each_changed(load, whole, |map: &mut M| {
        map.retain(|row| row.keys[0] % 64 != 0);
    })
}

pub fn retain_mut<const N: usize, M: Map<N>>(load: &Workload<N>, whole: bool) -> u64 {
    each_changed(load, whole, |map: &mut M| {
        map.retain_mut(|row| {
            row.value = row.value.wrapping_add(1);
            row.keys[0] % 2 == 0
        });
    })
}

/// Takes items out of copies of a map of each part of the rows. Sums their first keys, and how many items each copy
/// then has.
fn each_emptied<const N: usize, M: Map<N>>(
    load: &Workload<N>,
    whole: bool,
    is_taken: impl Fn(&Row<N>) -> bool,
) -> u64 {
    each_map(load, |rows, _| {
        each_copy(
            copies(load.number),
            &filled::<N, M>(load, rows),
            |mut copy| {
                let sum = if whole { copy.extract(&is_taken) } else { 0 };
                sum.wrapping_add(copy.len() as u64)
            },
        )
    })
}

pub use self::pop_all as pop_each;

pub fn pop_all<const N: usize, M: Map<N>>(load: &Workload<N>, whole: bool) -> u64 {
    each_emptied::<N, M>(load, whole, |_| true)
}

pub fn extract_half<const N: usize, M: Map<N>>(load: &Workload<N>, whole: bool) -> u64 {
    each_emptied::<N, M>(load, whole, |row| row.keys[0] % 2 != 0)
}

pub fn clone<const N: usize, M: Map<N>>(load: &Workload<N>, whole: bool) -> u64 {
    let map = filled::<N, M>(load, &load.rows);
    sum_of((0..times(load, whole)).map(|_| map.clone().len() as u64))
}

pub fn clear<const N: usize, M: Map<N>>(load: &Workload<N>, whole: bool) -> u64 {
    each_changed(load, whole, M::clear)
}

pub fn shrink<const N: usize, M: Map<N>>(load: &Workload<N>, whole: bool) -> u64 {
    each_map(load, |rows, asked| {
        let mut map = filled::<N, M>(load, rows);
        let sum = take_out(&mut map, asked);
        let lengths = each_copy(copies(load.number), &map, |mut copy| {
            if whole {
                copy.shrink();
            }
            copy.len() as u64
        });
        sum.wrapping_add(lengths)
    })
}

pub fn reserve<const N: usize, M: Map<N>>(load: &Workload<N>, whole: bool) -> u64 {
    each_changed(load, whole, |map: &mut M| map.reserve(load.number))
}

pub fn extend<const N: usize, M: Map<N>>(load: &Workload<N>, whole: bool) -> u64 {
    each_new(load, whole, |map: &mut M, rows| {
        map.extend(rows.iter().copied());
        0
    })
}

pub fn from_iter<const N: usize, M: Map<N>>(load: &Workload<N>, whole: bool) -> u64 {
    each_map(load, |rows, _| {
        if whole {
            M::from_rows(rows.iter().copied()).len() as u64
        } else {
            0
        }
    })
}

pub fn from_iter_unique<const N: usize, M: Map<N>>(load: &Workload<N>, whole: bool) -> u64 {
    each_map(load, |rows, _| {
        let made = whole.then(|| M::from_unique_rows(rows.iter().copied()));
        made.flatten().map_or(0, |map| map.len() as u64)
    })
}

pub fn extend_unique<const N: usize, M: Map<N>>(load: &Workload<N>, whole: bool) -> u64 {
    each_new(load, whole, |map: &mut M, rows| map.enter_all(rows) as u64)
}
