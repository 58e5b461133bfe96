//! The items of these tests, a hasher with few hashes, and drawn numbers.
use facetweave::iddqd::{BiHashItem, IdHashItem, IdOrdItem, TriHashItem, bi_upcast, id_upcast, tri_upcast};
use std::hash::{BuildHasherDefault, Hasher};

#[derive(Clone, Debug, PartialEq, Eq, PartialOrd, Ord)]
pub struct Item(pub u32, pub String, pub u64, pub u64);

macro_rules! item {
    ($item:ident $upcast:ident: $($k:ident $key:ident $type:ty, |$it:ident| $made:expr;)*) => {
        impl $item for Item {
            $(type $k<'a> = $type;)*
            $(
                fn $key(&self) -> Self::$k<'_> {
                    let $it = self;
                    $made
                }
            )*
            $upcast!();
        }
    };
}

item!(IdHashItem id_upcast: Key key &'a str, |it| &it.1;);
item!(IdOrdItem id_upcast: Key key &'a str, |it| &it.1;);
item!(BiHashItem bi_upcast: K1 key1 u32, |it| it.0; K2 key2 &'a str, |it| &it.1;);
item!(TriHashItem tri_upcast: K1 key1 u32, |it| it.0; K2 key2 &'a str, |it| &it.1; K3 key3 (u64, &'a str), |it| (it.2, "x"););

// A hasher with 37 hashes, so that keys collide.
#[derive(Default)]
pub struct FewHashes(u64);

impl Hasher for FewHashes {
    fn finish(&self) -> u64 {
        (self.0 % 37).wrapping_mul(0x9E37_79B9_7F4A_7C15)
    }
    fn write(&mut self, bytes: &[u8]) {
        bytes.iter().for_each(|byte| self.0 = self.0.wrapping_mul(31).wrapping_add(u64::from(*byte)));
    }
}

pub type Build = BuildHasherDefault<FewHashes>;

pub struct Draw(pub u64);

impl Draw {
    pub fn below(&mut self, n: u64) -> u64 {
        self.0 ^= self.0 << 13;
        self.0 ^= self.0 >> 7;
        self.0 ^= self.0 << 17;
        (self.0 >> 11) % n
    }
    pub fn item(&mut self, n: u64) -> Item {
        Item(self.below(n) as u32, self.below(n).to_string(), self.below(n), self.below(1 << 40))
    }
}
