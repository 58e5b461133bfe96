//! What a lookup asks for.
use super::*;

/// A query for a key, of another type than the key. A type is a query for each key that it can be borrowed from: a `str` for a `String`.
///
/// It is the trait of the crate `equivalent`, written anew, since this crate has no dependency.
pub trait Equivalent<K: ?Sized> {
    /// Returns whether this query is for that key.
    fn equivalent(&self, key: &K) -> bool;
}

impl<Q: Eq + ?Sized, K: Borrow<Q> + ?Sized> Equivalent<K> for Q {
    #[inline]
    fn equivalent(&self, key: &K) -> bool {
        *self == *key.borrow()
    }
}

/// A query for a key of an ordered map.
pub trait Comparable<K: ?Sized>: Equivalent<K> {
    /// Returns how this query compares with that key.
    fn compare(&self, key: &K) -> Ordering;
}

impl<Q: Ord + ?Sized, K: Borrow<Q> + ?Sized> Comparable<K> for Q {
    #[inline]
    fn compare(&self, key: &K) -> Ordering {
        self.cmp(key.borrow())
    }
}

/// Stands for one of the items whose key has the hash of the query: for the one after `passed` others.
///
/// A caller's query compares with keys that are borrowed for as long as the map is. The search of a proved map lends its query each
/// key for a shorter time, so it cannot ask the caller's query. It finds an item by the hash alone, and the query is asked outside of the
/// search. If it says no, which takes two keys with one hash of 64 bits, the next search passes one item more.
pub(super) struct Nth<'q, Q: ?Sized> {
    pub(super) query: &'q Q,
    pub(super) passed: &'q Cell<usize>,
}

impl<Q: ?Sized> Clone for Nth<'_, Q> {
    #[inline]
    fn clone(&self) -> Self {
        *self
    }
}

impl<Q: ?Sized> Copy for Nth<'_, Q> {}

impl<Q: Hash + ?Sized> Hash for Nth<'_, Q> {
    #[inline]
    fn hash<H: Hasher>(&self, state: &mut H) {
        self.query.hash(state);
    }
}

impl<Q: Hash + ?Sized, K: Eq + Hash> Query<K> for Nth<'_, Q> {
    #[inline]
    fn stands_for(&self, _: &K) -> bool {
        let passed = self.passed.get();
        self.passed.set(passed.wrapping_sub(1));
        passed == 0
    }
}
