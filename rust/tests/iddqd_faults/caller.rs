//! The code of a caller that panics at a drawn call, and whose keys may answer by chance.
use facetweave::iddqd::{BiHashItem, IdHashItem, IdOrdItem, TriHashItem, bi_upcast, id_upcast, tri_upcast};
use std::cell::{Cell, RefCell};
use std::cmp::Ordering;
use std::collections::BTreeSet;
use std::hash::{Hash, Hasher};

thread_local! {
    // How many calls of the caller's code go well before one panics.
    pub static LEFT: Cell<u64> = const { Cell::new(u64::MAX) };
    // The keys answer by chance.
    pub static UNLAWFUL: Cell<bool> = const { Cell::new(false) };
    pub static DRAW: Cell<u64> = const { Cell::new(1) };
    // The items that were made and not dropped.
    pub static LIVE: RefCell<BTreeSet<u64>> = const { RefCell::new(BTreeSet::new()) };
    static MADE: Cell<u64> = const { Cell::new(0) };
}

pub fn below(n: u64) -> u64 {
    let mut it = DRAW.get();
    it ^= it << 13;
    it ^= it >> 7;
    it ^= it << 17;
    DRAW.set(it);
    (it >> 11) % n
}

pub fn tick() {
    match LEFT.get() {
        u64::MAX => {}
        0 => {
            LEFT.set(u64::MAX);
            panic!("drawn")
        }
        left => LEFT.set(left - 1),
    }
}

fn unlawful() -> bool {
    UNLAWFUL.get() && below(3) == 0
}

#[derive(Clone, Copy, Debug)]
pub struct Key(pub u64);

impl PartialEq for Key {
    fn eq(&self, other: &Key) -> bool {
        tick();
        if unlawful() { below(2) == 0 } else { self.0 == other.0 }
    }
}

impl Eq for Key {}

impl Hash for Key {
    fn hash<H: Hasher>(&self, state: &mut H) {
        tick();
        (if unlawful() { below(9) } else { self.0 % 61 }).hash(state)
    }
}

impl PartialOrd for Key {
    fn partial_cmp(&self, other: &Key) -> Option<Ordering> {
        Some(self.cmp(other))
    }
}

impl Ord for Key {
    fn cmp(&self, other: &Key) -> Ordering {
        tick();
        if unlawful() { [Ordering::Less, Ordering::Equal, Ordering::Greater][below(3) as usize] } else { self.0.cmp(&other.0) }
    }
}

// The number by which an item is told from its clones.
#[derive(Debug)]
pub struct Token(u64);

impl Token {
    fn new() -> Token {
        MADE.set(MADE.get() + 1);
        LIVE.with_borrow_mut(|live| live.insert(MADE.get()));
        Token(MADE.get())
    }
}

impl Drop for Token {
    fn drop(&mut self) {
        assert!(LIVE.with_borrow_mut(|live| live.remove(&self.0)), "an item was dropped twice");
        if !std::thread::panicking() {
            tick()
        }
    }
}

#[derive(Debug)]
pub struct Item(pub u64, pub u64, pub u64, pub u64, #[allow(dead_code)] Token);

impl Item {
    pub fn drawn(n: u64) -> Item {
        Item(below(n), below(n), below(n), 0, Token::new())
    }
}

impl Clone for Item {
    fn clone(&self) -> Item {
        tick();
        Item(self.0, self.1, self.2, self.3, Token::new())
    }
}

impl PartialEq for Item {
    fn eq(&self, other: &Item) -> bool {
        tick();
        (self.0, self.1, self.2, self.3) == (other.0, other.1, other.2, other.3)
    }
}

macro_rules! item {
    ($item:ident $upcast:ident: $($k:ident $key:ident $field:tt),*) => {
        impl $item for Item {
            $(type $k<'a> = Key;)*
            $(
                fn $key(&self) -> Key {
                    Key(self.$field)
                }
            )*
            $upcast!();
        }
    };
}

item!(IdHashItem id_upcast: Key key 0);
item!(IdOrdItem id_upcast: Key key 0);
item!(BiHashItem bi_upcast: K1 key1 0, K2 key2 1);
item!(TriHashItem tri_upcast: K1 key1 0, K2 key2 1, K3 key3 2);
