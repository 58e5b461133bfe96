//! Items that count their drops, and whose code panics or breaks the laws of keys where a test asks for it.
use super::below;
use facetweave::*;
use std::cell::{Cell, RefCell};
use std::cmp::Ordering;
use std::hash::{Hash, Hasher};

thread_local! {
    /// After how many steps of a caller's code one panics; below 0 none does.
    pub static FUEL: Cell<i64> = const { Cell::new(-1) };
    /// Whether keys break their laws.
    pub static UNLAWFUL: Cell<bool> = const { Cell::new(false) };
    /// Whether the drop of an item is a step.
    pub static DROPS_PANIC: Cell<bool> = const { Cell::new(false) };
    static PANICKED: Cell<Option<&'static str>> = const { Cell::new(None) };
    static NEXT: Cell<usize> = const { Cell::new(0) };
    /// Which tokens live, and how many. Its memory is there from the start, so that a call of a map asks for its own memory alone.
    static LIVE: RefCell<(Vec<bool>, usize)> = RefCell::new((vec![false; 1 << 24], 0));
}

/// One step of a caller's code: each hash, comparison, key, clone, closure and drop is one.
pub fn step() {
    let left = FUEL.get();
    if left >= 0 {
        FUEL.set(left - 1);
        if left == 0 {
            PANICKED.set(Some(super::running_call()));
            panic!("a caller's panic");
        }
    }
}

/// In what call a caller's code panicked since this was asked last; "" is between calls.
pub fn panicked_in() -> Option<&'static str> {
    PANICKED.take()
}

fn lies() -> bool {
    UNLAWFUL.get() && below(3) == 0
}

/// A part of an item that notices a second drop.
#[derive(Debug)]
struct Token(usize);

impl Token {
    fn new() -> Token {
        let number = NEXT.replace(NEXT.get() + 1);
        LIVE.with_borrow_mut(|(lives, count)| {
            lives[number] = true;
            *count += 1;
        });
        Token(number)
    }
}

impl Drop for Token {
    fn drop(&mut self) {
        let lived = LIVE.with_borrow_mut(|(lives, count)| {
            *count = count.wrapping_sub(1);
            std::mem::replace(&mut lives[self.0], false)
        });
        if !lived {
            eprintln!("an item was dropped twice");
            std::process::abort();
        }
    }
}

/// How many items of this thread live.
pub fn live() -> usize {
    LIVE.with_borrow(|it| it.1)
}

/// A key that can change while its item is in a map.
#[derive(Debug)]
pub struct Key(pub Cell<u64>);

impl Key {
    pub fn new(n: u64) -> Key {
        Key(Cell::new(n))
    }

    fn number(&self) -> u64 {
        if UNLAWFUL.get() && below(200) == 0 {
            self.0.set(below(200));
        }
        self.0.get()
    }
}

impl Clone for Key {
    fn clone(&self) -> Key {
        step();
        Key(self.0.clone())
    }
}

impl PartialEq for Key {
    fn eq(&self, other: &Key) -> bool {
        step();
        (self.number() == other.number()) != lies()
    }
}

impl Eq for Key {}

impl Hash for Key {
    fn hash<H: Hasher>(&self, state: &mut H) {
        step();
        state.write_u64(if lies() { below(4) } else { self.number() });
    }
}

impl PartialOrd for Key {
    fn partial_cmp(&self, other: &Key) -> Option<Ordering> {
        Some(self.cmp(other))
    }
}

impl Ord for Key {
    fn cmp(&self, other: &Key) -> Ordering {
        step();
        if lies() { [Ordering::Less, Ordering::Equal, Ordering::Greater][below(3) as usize] } else { self.number().cmp(&other.number()) }
    }
}

/// A sort key, whose order breaks its laws as well.
#[derive(Debug, Clone, Copy, PartialEq, Eq)]
pub struct SortKey(pub u64);

impl PartialOrd for SortKey {
    fn partial_cmp(&self, other: &SortKey) -> Option<Ordering> {
        Some(self.cmp(other))
    }
}

impl Ord for SortKey {
    fn cmp(&self, other: &SortKey) -> Ordering {
        step();
        if lies() { Ordering::Less } else { self.0.cmp(&other.0) }
    }
}

/// An item with three keys, of which a map uses the first one, two or three. Its sort key comes from its data.
#[derive(Debug)]
pub struct Item {
    pub keys: [Key; 3],
    pub data: u64,
    token: Token,
}

/// What an item says: its keys and its data.
pub type Shown = ([u64; 3], u64);

/// The sort key of an item with this data: some items have equal ones.
pub fn sort_key(data: u64) -> u64 {
    data / 4
}

impl Item {
    pub fn new((keys, data): Shown) -> Item {
        Item { keys: keys.map(Key::new), data, token: Token::new() }
    }

    /// An item with keys and data below a number.
    pub fn random(n: u64) -> Item {
        Item::new((std::array::from_fn(|_| below(n)), below(n + 8)))
    }

    pub fn shown(&self) -> Shown {
        (std::array::from_fn(|rank| self.keys[rank].0.get()), self.data)
    }
}

/// What the items say.
pub fn shown<'a>(items: impl IntoIterator<Item = &'a Item>) -> Vec<Shown> {
    items.into_iter().map(Item::shown).collect()
}

impl Clone for Item {
    fn clone(&self) -> Item {
        step();
        Item { keys: self.keys.clone(), data: self.data, token: Token::new() }
    }
}

impl PartialEq for Item {
    fn eq(&self, other: &Item) -> bool {
        step();
        self.shown() == other.shown()
    }
}

impl Eq for Item {}

impl Drop for Item {
    fn drop(&mut self) {
        // A second panic while one unwinds would end the program.
        if DROPS_PANIC.get() && !std::thread::panicking() {
            step();
        }
    }
}

fn lent(item: &Item, rank: usize) -> &Key {
    step();
    &item.keys[if lies() { below(3) as usize } else { rank }]
}

macro_rules! items {
    ($($item:ident $mutable:ident { $($kind:ident $key:ident $rank:literal),* })*) => {
        $(impl $item for Item {
            $(type $kind = Key;
            fn $key(&self) -> &Key {
                lent(self, $rank)
            })*
        }
        impl $mutable for Item {
            type Data = u64;
            fn data_mut(&mut self) -> &mut u64 {
                step();
                &mut self.data
            }
        })*
    };
}

items! {
    IdHashItem IdHashItemMut { Key key 0 }
    BiHashItem BiHashItemMut { K1 key1 0, K2 key2 1 }
    TriHashItem TriHashItemMut { K1 key1 0, K2 key2 1, K3 key3 2 }
    IdOrdItem IdOrdItemMut { Key key 0 }
}

impl Sortable for Item {
    type SortKey = SortKey;
    fn sort_key(&self) -> SortKey {
        step();
        SortKey(sort_key(self.data))
    }
}
