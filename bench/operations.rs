//! The operations. Each has a name, its rows, the loop that the static library of `bench/loops` exports, and the same
//! loop over each map on the other sides.
use crate::by_hand::ByHand;
use crate::calls::Map;
use crate::loops;
use crate::measure::ran;
use crate::one_by_hand::OneByHand;
use crate::workload::*;

#[cfg(feature = "beside")]
use crate::crate_maps;

/// What a loop of the library takes, laid out as `Load` of bench/loops. The rows are not written to.
#[repr(C)]
pub struct Load<const N: usize> {
    rows: *const Row<N>,
    len: usize,
    asked: *const Row<N>,
    count: usize,
    number: usize,
    room: usize,
    whole: bool,
    /// What tells the time. For the library it is a handle without bytes, and the loops that cargo builds call it.
    clock: extern "C" fn() -> u64,
}

/// A loop of the library, which returns a sum of what it met. If it is not to do the whole, it does only what prepares
/// it.
pub type Exported<const N: usize> = unsafe extern "C" fn(load: &Load<N>) -> u64;

/// The same loop over a map on the other side.
pub type Loop<const N: usize> = fn(&Workload<N>, bool) -> u64;

impl<const N: usize> Workload<N> {
    /// Runs a loop of the library.
    pub fn run(&self, exported: Exported<N>, whole: bool) -> u64 {
        let load = Load {
            rows: self.rows.as_ptr(),
            len: self.rows.len(),
            asked: self.asked.as_ptr(),
            count: self.asked.len(),
            number: self.number,
            room: self.room,
            whole,
            clock: ran,
        };
        unsafe { exported(&load) }
    }
}

/// What an operation is timed for.
#[derive(Clone, Copy, PartialEq)]
pub enum Kind {
    /// One call an item.
    Each,
    /// One call that visits all items. Its time is given for one item all the same.
    All,
    /// As the others, with each turn of each side in a process of its own. So no memory that an earlier loop freed is
    /// used again, and glibc's malloc is as a program finds it: it returns large blocks to the system.
    Anew,
    /// What the loop times itself, which returns nanoseconds in the place of a sum. If it is only to be prepared, it does the
    /// same, and returns a sum.
    Own,
    /// Not timed: its bytes are counted.
    Held,
}

/// An operation on a map with N keys.
pub struct Operation<const N: usize> {
    pub name: &'static str,
    pub kind: Kind,
    pub load: fn(usize) -> Workload<N>,
    pub exported: Exported<N>,
    /// The name of each other side, and its loop, or none if its map has no such call and a caller cannot write it.
    pub others: Vec<(&'static str, Option<Loop<N>>)>,
}

unsafe extern "C" {
    safe fn bench_hash(key: u64) -> u64;
}

pub fn hash(key: u64) -> u64 {
    bench_hash(key)
}

/// Declares the exported loop whose name has these two parts, over rows with this many keys.
macro_rules! exported {
    ($($part:literal)*, $name:ident, $keys:literal) => {{
        unsafe extern "C" {
            #[link_name = concat!($($part,)* "_", stringify!($name))]
            fn exported(load: &$crate::operations::Load<$keys>) -> u64;
        }
        exported
    }};
}
pub(crate) use exported;

/// The loop of the maps here, and the other sides of it, which are this one and, if cargo built the maps here, their proved build.
#[cfg(not(feature = "cargo"))]
macro_rules! sides {
    ($other:expr; $map:literal, $name:ident, $keys:literal) => {
        (
            $crate::operations::exported!($map, $name, $keys),
            vec![$other],
        )
    };
}
#[cfg(feature = "cargo")]
macro_rules! sides {
    ($other:expr; $map:literal, $name:ident, $keys:literal) => {{
        let proved = |load: &Workload<$keys>, whole| {
            load.run($crate::operations::exported!($map, $name, $keys), whole)
        };
        let proved = Some(proved as $crate::operations::Loop<$keys>);
        let here = $crate::operations::exported!("cargo_" $map, $name, $keys);
        (here, vec![($crate::operations::PROVED, proved), $other])
    }};
}
pub(crate) use sides;

/// What the side of the proved build is called.
pub const PROVED: &str = "proved";

/// Makes an operation on maps with this many keys, or nothing at one key if it is an operation on several keys.
macro_rules! operation {
    (1, $map:literal, $kind:ident $name:literal: $load:expr, $loop:ident several) => {
        None
    };
    ($keys:literal, $map:literal, $kind:ident $name:literal: $load:expr, $loop:ident $($several:ident)?) => {
        Some({
            let has = !M::LACKS.contains(&$name);
            let other = has.then_some(loops::$loop::<$keys, M> as Loop<$keys>);
            let (exported, others) = sides!((M::NAME, other); $map, $loop, $keys);
            Operation {
                name: $name,
                kind: Kind::$kind,
                load: $load,
                exported,
                others,
            }
        })
    };
}

macro_rules! operations {
    ($($kind:ident $name:literal: $load:expr, $loop:ident $($several:ident)?;)*) => {
        fn one_key<M: Map<1>>() -> Vec<Operation<1>> {
            let all = [$(operation!(1, "id", $kind $name: $load, $loop $($several)?)),*];
            all.into_iter().flatten().collect()
        }

        fn two_keys<M: Map<2>>() -> Vec<Operation<2>> {
            let all = [$(operation!(2, "bi", $kind $name: $load, $loop $($several)?)),*];
            all.into_iter().flatten().collect()
        }

        fn three_keys<M: Map<3>>() -> Vec<Operation<3>> {
            let all = [$(operation!(3, "tri", $kind $name: $load, $loop $($several)?)),*];
            all.into_iter().flatten().collect()
        }
    };
}

// Each row names its load, and its loop, which has the same name on both sides. `several` is nothing at one key.
operations! {
    Held "bytes": grown, grow;
    Each "insert without room": fresh, insert;
    Anew "insert without room, new process": fresh, insert;
    Each "insert with room": |items| fresh(items).reserved(items), insert;
    Each "insert, refused": taken, insert_refused;
    Each "try_insert": |items| fresh(items).reserved(items), try_insert;
    Each "try_insert, refused": taken, try_insert_refused;
    Each "look-up, hit": asked_again, get;
    Each "look-up, hit, reserved": |items| asked_again(items).reserved(items), get;
    Each "look-up, miss": missed, get;
    Each "look-up, miss, reserved": |items| missed(items).reserved(items), get;
    Each "look-up, waits for the last": asked_again, get_in_turn;
    Each "get_unique": asked_again, get_unique several;
    Each "look-up and write": asked_again, get_mut;
    Each "removal": reordered, remove;
    Each "remove_unique": reordered, remove_unique several;
    Each "removal and insert": exchanged, remove_insert;
    Each "removal and insert, reserved": |items| exchanged(items).reserved(items), remove_insert;
    Each "rekey1": exchanged, rekey;
    Each "overwrite, one a key": crossed, overwrite;
    Each "overwrite, same keys": asked_again, overwrite_same;
    Each "or_insert, vacant": |items| fresh(items).reserved(items), entry_vacant;
    Each "or_insert, occupied": asked_again, entry_occupied;
    All "iter": repeated, iter;
    All "for, lent map": repeated, for_lent;
    All "for, by value": repeated, for_owned;
    All "iter_mut with len": repeated, iter_mut;
    All "update_all": repeated, update_all;
    All "retain half": copied, retain;
    All "retain half, reserved": |items| copied(items).reserved(items), retain;
    All "retain, 1 in 64 goes": copied, retain_most;
    All "retain_mut, half": copied, retain_mut;
    All "pop, all": copied, pop_each;
    All "pop_from, all": copied, pop_all;
    All "extract_from, half": copied, extract_half;
    All "clone": repeated, clone;
    All "clear": copied, clear;
    All "equality": compared, equal;
    All "shrink_to_fit, half went": halved, shrink;
    All "reserve, as many again": copied, reserve;
    Anew "reserve, as many again, new process": copied, reserve;
    All "extend": fresh, extend;
    All "from_iter": fresh, from_iter;
    All "from_iter_unique": fresh, from_iter_unique;
    All "extend_unique": fresh, extend_unique;
    All "extend_unique, last refused": spoiled, extend_unique;
}

/// Returns the operations, with the loops over one more map, which is the last of the other sides.
fn with<const N: usize>(
    mut operations: Vec<Operation<N>>,
    more: Vec<Operation<N>>,
) -> Vec<Operation<N>> {
    for (operation, more) in operations.iter_mut().zip(more) {
        operation.others.extend(more.others.last());
    }
    operations
}

/// Returns the operations at one key. In std the map holds the items themselves, and of `slots` it holds the numbers.
pub fn one() -> Vec<Operation<1>> {
    let all = with(one_key::<OneByHand>(), one_key::<ByHand<1>>());
    #[cfg(feature = "beside_one")]
    let all = with(all, one_key::<crate_maps::One>());
    all
}

pub fn two() -> Vec<Operation<2>> {
    let all = two_keys::<ByHand<2>>();
    #[cfg(feature = "beside")]
    let all = with(all, two_keys::<crate_maps::Two>());
    all
}

pub fn three() -> Vec<Operation<3>> {
    let all = three_keys::<ByHand<3>>();
    #[cfg(feature = "beside")]
    let all = with(all, three_keys::<crate_maps::Three>());
    all
}
