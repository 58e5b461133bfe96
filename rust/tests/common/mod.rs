//! What the tests share: random numbers, the calls of a map counted by name, hashers, items, and a plain list to compare a map with.
// Each test uses a part of it. A guard is dropped where the map is used again.
#![allow(dead_code, unused_imports, unused_macros, clippy::drop_non_drop, clippy::redundant_closure_call)]
pub mod calls;
pub mod item;
pub mod list;
pub mod table;

pub use item::{Item, Key, Shown, live, shown, step};
pub use list::{List, Order};
pub use table::Table;

use std::cell::{Cell, RefCell};
use std::collections::BTreeMap;
use std::hash::{BuildHasher, BuildHasherDefault, Hasher};

thread_local! {
    static SEED: Cell<u64> = const { Cell::new(0x9E37_79B9_7F4A_7C15) };
    static CALLED: RefCell<BTreeMap<&'static str, Count>> = const { RefCell::new(BTreeMap::new()) };
    static LAST: Cell<&'static str> = const { Cell::new("") };
    static RUNS: Cell<bool> = const { Cell::new(false) };
    static REQUESTS: Cell<u64> = const { Cell::new(0) };
}

/// A random number, the same ones in each run of a test.
pub fn random() -> u64 {
    SEED.with(|it| {
        let mut x = it.get();
        x ^= x << 13;
        x ^= x >> 7;
        x ^= x << 17;
        it.set(x);
        x >> 11
    })
}

pub fn below(n: u64) -> u64 {
    random() % n
}

/// How many random calls a test makes of each map. `CALLS=100000 cargo test --release` makes a longer run.
pub fn calls(usual: u64) -> u64 {
    std::env::var("CALLS").map_or(usual, |it| it.parse().expect("CALLS is a number"))
}

/// How often a call was made, and how often it asked for memory (where the test's allocator tells).
#[derive(Clone, Copy, Default, Debug)]
pub struct Count {
    pub made: u64,
    pub asked: u64,
}

/// A call of a map that runs.
pub struct Running(&'static str);

pub fn begin(name: &'static str) -> Running {
    CALLED.with_borrow_mut(|it| it.entry(name).or_default().made += 1);
    LAST.set(name);
    REQUESTS.set(0);
    RUNS.set(true);
    Running(name)
}

impl Drop for Running {
    fn drop(&mut self) {
        RUNS.set(false);
        CALLED.with_borrow_mut(|it| it.entry(self.0).or_default().asked += REQUESTS.get());
    }
}

/// The test's allocator was asked for memory.
pub fn asked_for_memory() {
    if RUNS.get() {
        REQUESTS.set(REQUESTS.get() + 1);
    }
}

/// The name of the call that was made last.
pub fn last_call() -> &'static str {
    LAST.get()
}

/// The name of the call that runs, or "".
pub fn running_call() -> &'static str {
    if RUNS.get() { LAST.get() } else { "" }
}

/// The calls that this thread made since it was asked last.
pub fn called() -> BTreeMap<&'static str, Count> {
    CALLED.take()
}

/// Makes a call of a map, and counts it by its name, or by the text before it where a guard or an entry has a call of that name.
macro_rules! call {
    ($it:ident.$name:ident($($argument:expr),*)) => {{
        let running = $crate::common::begin(stringify!($name));
        let result = $it.$name($($argument),*);
        drop(running);
        result
    }};
    ($name:expr, $call:expr) => {{
        let running = $crate::common::begin($name);
        let result = $call;
        drop(running);
        result
    }};
}
pub(crate) use call;

/// A hasher whose hashes are five, so that most keys share theirs with others: one differs from another in its highest, its middle or
/// its lowest bits.
#[derive(Default)]
pub struct FewHasher(u64);

impl Hasher for FewHasher {
    fn finish(&self) -> u64 {
        [0, u64::MAX, 1 << 63, 1 << 31, 1][(self.0 % 5) as usize]
    }
    fn write(&mut self, bytes: &[u8]) {
        for byte in bytes {
            self.0 = self.0.wrapping_mul(31).wrapping_add(u64::from(*byte));
        }
    }
}

/// A good hasher, and the one of few hashes.
pub type Good = BuildHasherDefault<facetweave::FoldHasher>;
pub type Few = BuildHasherDefault<FewHasher>;
