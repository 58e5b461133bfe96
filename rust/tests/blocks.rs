//! The blocks of an ordered map, which no result shows, by what its calls ask for: how many items a block has follows their size, and a map that moved
//! into one block, since no other was granted, has blocks again once it was cleared, emptied or shrunk to few items, and its clone has.
use facetweave::*;
use std::alloc::{GlobalAlloc, Layout, System};
use std::cell::Cell;

thread_local! {
    /// Whether each request is refused.
    static REFUSES: Cell<bool> = const { Cell::new(false) };
    /// How many requests were for a block or more.
    static ASKED: Cell<usize> = const { Cell::new(0) };
    /// The bytes of the largest request.
    static LARGEST: Cell<usize> = const { Cell::new(0) };
}

struct Counting;

fn asked_for(bytes: usize) -> bool {
    ASKED.set(ASKED.get() + usize::from(BLOCK <= bytes));
    LARGEST.set(LARGEST.get().max(bytes));
    !REFUSES.get()
}

// SAFETY: it is the system's allocator, which may also refuse.
unsafe impl GlobalAlloc for Counting {
    unsafe fn alloc(&self, layout: Layout) -> *mut u8 {
        if asked_for(layout.size()) { unsafe { System.alloc(layout) } } else { std::ptr::null_mut() }
    }
    unsafe fn dealloc(&self, at: *mut u8, layout: Layout) {
        unsafe { System.dealloc(at, layout) }
    }
    unsafe fn realloc(&self, at: *mut u8, layout: Layout, size: usize) -> *mut u8 {
        if asked_for(size) { unsafe { System.realloc(at, layout, size) } } else { std::ptr::null_mut() }
    }
}

#[global_allocator]
static COUNTING: Counting = Counting;

struct Item(u64, u64);

impl IdOrdItem for Item {
    type Key = u64;
    fn key(&self) -> &u64 {
        &self.0
    }
}

impl Clone for Item {
    fn clone(&self) -> Self {
        Item(self.0, self.1)
    }
}

/// The bytes of a block of 128 such items.
const BLOCK: usize = 128 * size_of::<Item>();
/// How many items a map has.
const MANY: u64 = 2_000;

/// Inserts the items of these keys, and returns how many blocks, or larger pieces of memory, that asked for.
fn blocks_for(map: &mut IdOrdMap<Item>, keys: impl Iterator<Item = u64>) -> usize {
    let before = ASKED.get();
    for key in keys {
        assert!(map.try_insert(Item(key, key)).is_ok());
    }
    ASKED.get() - before
}

/// A map for which a `reserve` was granted, and then no block: all its items are in one.
fn in_one_block() -> IdOrdMap<Item> {
    let mut map = IdOrdMap::new();
    assert!(map.reserve(MANY as usize).is_ok());
    REFUSES.set(true);
    let inserted = (0..MANY).all(|key| map.try_insert(Item(key, key)).is_ok());
    REFUSES.set(false);
    assert!(inserted && map.len() == MANY as usize);
    map
}

#[test]
fn has_blocks_again() {
    // Blocks of 128 items are needed for so many, and one stays spare.
    let least = MANY as usize / 128;
    let mut cleared = in_one_block();
    cleared.clear();
    assert!(least <= blocks_for(&mut cleared, 0..MANY), "a map that was cleared");
    let mut emptied = in_one_block();
    while emptied.pop_first().is_some() {}
    assert!(least <= blocks_for(&mut emptied, 0..MANY), "a map that was emptied");
    let mut few = in_one_block();
    few.retain(|item| item.0 < 100);
    assert!(few.shrink_to_fit().is_ok());
    assert!(least <= blocks_for(&mut few, 100..MANY) + 1, "a map that was shrunk to few items");
    let whole = in_one_block();
    let before = ASKED.get();
    let copy = whole.clone();
    assert!(least <= ASKED.get() - before, "a clone");
    assert!(copy.iter().map(|item| item.0).eq(0..MANY));
}

/// A map with room, all of whose items are in one block, asks for no block: so the test above can fail.
#[test]
fn one_block_is_all() {
    let mut map = in_one_block();
    assert!(map.remove(7).is_some());
    assert_eq!(blocks_for(&mut map, 7..8), 0);
}

/// An item of so many numbers, of which the first is its key.
struct Large<const N: usize>([u64; N]);

impl<const N: usize> IdOrdItem for Large<N> {
    type Key = u64;
    fn key(&self) -> &u64 {
        &self.0[0]
    }
}

/// How many items of so many numbers a block has at most: the largest request of a map that fills is for a block.
fn in_a_block<const N: usize>() -> usize {
    let mut map = IdOrdMap::new();
    LARGEST.set(0);
    for key in 0..400 {
        assert!(map.try_insert(Large([key; N])).is_ok());
    }
    LARGEST.get() / size_of::<Large<N>>()
}

#[test]
fn follow_the_size_of_an_item() {
    assert_eq!([in_a_block::<1>(), in_a_block::<4>()], [128, 128]);
    assert_eq!([in_a_block::<5>(), in_a_block::<8>()], [64, 64]);
    assert_eq!([in_a_block::<9>(), in_a_block::<16>()], [32, 32]);
}
