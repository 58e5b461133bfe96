//! The search of an [`IdOrdMap`], and the bounds of a range.
//!
//! A caller's query compares with keys that are borrowed for as long as the map is, while the search of the proved map lends its query
//! each key for a shorter time. So the search is here, over the proved map's blocks.
use super::held::Wraps;
use super::*;
use crate::iddqd_order::Place;

/// Returns how many entries hold, of which those that hold come first. Like the proved search it goes on in a quarter of the entries at each
/// step: no comparison of a step waits for another one, and none is a branch.
fn count_first<'a, E>(entries: &'a [E], mut holds: impl FnMut(&'a E) -> bool) -> usize {
    let (mut low, mut left) = (0, entries.len());
    while 4 <= left {
        let part = (left - 3) / 4 + 1;
        let passed: usize = [1, 2, 3].iter().map(|n| usize::from(holds(&entries[low + n * part - 1]))).sum();
        low += passed * part;
        left -= 3 * part;
    }
    low + entries[low..low + left].iter().map(|it| usize::from(holds(it))).sum::<usize>()
}

impl<T: IdOrdItem> IdOrdMap<T> {
    /// Returns the place of the item that has the key, or else the place where such an item would go.
    pub(super) fn place_of<'a, Q: Comparable<T::Key<'a>> + ?Sized>(&'a self, query: &Q) -> Result<Place, Place> {
        self.search(|key| query.compare(&key))
    }

    /// Returns the places of the first item of a range, and of the first one behind it.
    pub(super) fn ends<'a, Q: Comparable<T::Key<'a>> + ?Sized>(&'a self, low: Bound<&Q>, high: Bound<&Q>) -> (Place, Place) {
        // Equal keys count as those behind the bound or before it, so that the search finds no equal one.
        let place = |bound: &Q, equal: Ordering| match self.search(|key| bound.compare(&key).then(equal)) {
            Ok(place) | Err(place) => place,
        };
        let start = match low {
            Bound::Unbounded => Place::first(),
            Bound::Included(low) => place(low, Ordering::Less),
            Bound::Excluded(low) => place(low, Ordering::Greater),
        };
        let end = match high {
            Bound::Unbounded => self.map.end_place(),
            Bound::Included(high) => place(high, Ordering::Greater),
            Bound::Excluded(high) => place(high, Ordering::Less),
        };
        (start, end)
    }

    /// Searches by how the query compares with a key: first the block, the last one whose first item is not above the query, then in it.
    fn search<'a>(&'a self, mut compare: impl FnMut(T::Key<'a>) -> Ordering) -> Result<Place, Place> {
        let blocks = self.map.blocks().as_blocks();
        let behind = count_first(blocks, |block| compare(block.entries()[0].item().key()) != Ordering::Less);
        let Some(block) = behind.checked_sub(1) else { return Err(Place::first()) };
        let entries = blocks[block].entries();
        let offset = count_first(entries, |entry| compare(entry.item().key()) == Ordering::Greater);
        let place = Place { block, offset };
        let is_equal = entries.get(offset).is_some_and(|entry| compare(entry.item().key()) == Ordering::Equal);
        if is_equal { Ok(place) } else { Err(place) }
    }
}

/// A range of keys by value, as [`IdOrdMap::range_mut`] takes it: each of Rust's ranges, and a pair of bounds.
pub trait KeyRange<K> {
    /// Returns the bounds.
    fn into_bounds(self) -> (Bound<K>, Bound<K>);
}

macro_rules! key_ranges {
    ($($range:ty: |$it:ident| $low:expr, $high:expr;)*) => {
        $(
            impl<K> KeyRange<K> for $range {
                fn into_bounds(self) -> (Bound<K>, Bound<K>) {
                    let $it = self;
                    ($low, $high)
                }
            }
        )*
    };
}

key_ranges! {
    Range<K>: |it| Bound::Included(it.start), Bound::Excluded(it.end);
    RangeFrom<K>: |it| Bound::Included(it.start), Bound::Unbounded;
    RangeTo<K>: |it| Bound::Unbounded, Bound::Excluded(it.end);
    RangeToInclusive<K>: |it| Bound::Unbounded, Bound::Included(it.end);
    RangeFull: |_it| Bound::Unbounded, Bound::Unbounded;
    (Bound<K>, Bound<K>): |it| it.0, it.1;
}

impl<K> KeyRange<K> for RangeInclusive<K> {
    fn into_bounds(self) -> (Bound<K>, Bound<K>) {
        let (low, high) = self.into_inner();
        (Bound::Included(low), Bound::Included(high))
    }
}
