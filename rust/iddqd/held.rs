//! The caller's items as the proved maps hold them.
//!
//! A proved map borrows each key from its item, and here an item makes its keys. So a map holds the caller's item in newtypes, one for
//! each key: `Held(First(Second(item)))`. Each newtype is a key: its `==` and its hash ask the item for the made key. The newtypes
//! add no byte to an item.
use super::*;

/// A caller's item in its newtypes.
pub trait Wraps {
    /// The caller's item.
    type Item;
    /// Wraps an item.
    fn wrap(item: Self::Item) -> Self;
    /// Returns the item.
    fn item(&self) -> &Self::Item;
    /// Returns the item, borrowed for writing.
    fn item_mut(&mut self) -> &mut Self::Item;
    /// Returns the item by value.
    fn into_item(self) -> Self::Item;
}

/// A caller's item whose keys have hashes, for the guards.
pub trait Hashed: Wraps {
    /// A hash for each key.
    type Hashes: Copy;
    /// Hashes the keys of an item.
    fn hashes<S: BuildHasher>(item: &Self::Item, builder: &S) -> Self::Hashes;
    /// Panics if one of the keys had another hash before.
    fn check(before: Self::Hashes, after: Self::Hashes);
}

macro_rules! wraps {
    ($item:ident, $wrap:expr, ($($path:tt)*)) => {
        impl<T: $item> Wraps for Held<T> {
            type Item = T;

            #[inline]
            fn wrap(item: T) -> Self {
                $wrap(item)
            }

            #[inline]
            fn item(&self) -> &T {
                &self $($path)*
            }

            #[inline]
            fn item_mut(&mut self) -> &mut T {
                &mut self $($path)*
            }

            #[inline]
            fn into_item(self) -> T {
                self $($path)*
            }
        }
    };
}

macro_rules! hashed {
    ($item:ident where [$($bound:tt)*] $count:literal: $($n:literal $key:ident),*) => {
        impl<T: $item> Hashed for Held<T>
        where
            $($bound)*
        {
            type Hashes = [u64; $count];

            #[inline]
            fn hashes<S: BuildHasher>(item: &T, builder: &S) -> [u64; $count] {
                [$(builder.hash_one(item.$key())),*]
            }

            fn check(before: [u64; $count], after: [u64; $count]) {
                $(
                    if before[$n] != after[$n] {
                        panic!(concat!(stringify!($key), " changed during RefMut borrow"));
                    }
                )*
            }
        }
    };
}

// Of each key: its newtype and what that has in it, the way to the newtype from `Held`, and the way on to the item.
macro_rules! held {
    (
        $module:ident $item:ident, $wrap:expr, $path:tt, $count:literal keys:
        $($n:literal $k:ident $key:ident is $rank:ident($inner:ty) at ($($at:tt)*), item at ($($on:tt)*);)*
    ) => {
        pub mod $module {
            use super::*;

            $(
                #[derive(Clone)]
                pub struct $rank<T>($inner);

                impl<T: $item> PartialEq for $rank<T> {
                    #[inline]
                    fn eq(&self, other: &Self) -> bool {
                        self $($on)*.$key() == other $($on)*.$key()
                    }
                }

                impl<T: $item> Eq for $rank<T> {}

                impl<T: $item> Hash for $rank<T> {
                    #[inline]
                    fn hash<H: Hasher>(&self, state: &mut H) {
                        self $($on)*.$key().hash(state)
                    }
                }
            )*

            #[derive(Clone)]
            pub struct Held<T>(First<T>);

            impl<T: $item> crate::$item for Held<T> {
                $(
                    type $k = $rank<T>;

                    #[inline]
                    fn $key(&self) -> &$rank<T> {
                        &self $($at)*
                    }
                )*
            }

            wraps!($item, $wrap, $path);
            hashed!($item where [] $count: $($n $key),*);
        }
    };
}

held! {
    id IdHashItem, |item| Held(First(item)), (.0.0), 1 keys:
    0 Key key is First(T) at (.0), item at (.0);
}

held! {
    bi BiHashItem, |item| Held(First(Second(item))), (.0.0.0), 2 keys:
    0 K1 key1 is First(Second<T>) at (.0), item at (.0.0);
    1 K2 key2 is Second(T) at (.0.0), item at (.0);
}

held! {
    tri TriHashItem, |item| Held(First(Second(Third(item)))), (.0.0.0.0), 3 keys:
    0 K1 key1 is First(Second<T>) at (.0), item at (.0.0.0);
    1 K2 key2 is Second(Third<T>) at (.0.0), item at (.0.0);
    2 K3 key3 is Third(T) at (.0.0.0), item at (.0);
}

pub mod ord {
    use super::*;

    #[derive(Clone)]
    pub struct First<T>(T);

    impl<T: IdOrdItem> PartialEq for First<T> {
        #[inline]
        fn eq(&self, other: &Self) -> bool {
            self.0.key() == other.0.key()
        }
    }

    impl<T: IdOrdItem> Eq for First<T> {}

    impl<T: IdOrdItem> PartialOrd for First<T> {
        #[inline]
        fn partial_cmp(&self, other: &Self) -> Option<Ordering> {
            Some(self.cmp(other))
        }
    }

    impl<T: IdOrdItem> Ord for First<T> {
        #[inline]
        fn cmp(&self, other: &Self) -> Ordering {
            self.0.key().cmp(&other.0.key())
        }
    }

    #[derive(Clone)]
    pub struct Held<T>(First<T>);

    impl<T: IdOrdItem> crate::IdOrdItem for Held<T> {
        type Key = First<T>;

        #[inline]
        fn key(&self) -> &First<T> {
            &self.0
        }
    }

    wraps!(IdOrdItem, |item| Held(First(item)), (.0.0));
    hashed!(IdOrdItem where [for<'k> T::Key<'k>: Hash] 1: 0 key);
}
