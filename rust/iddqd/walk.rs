//! The iterators of the maps: each goes over an iterator of a proved map, and takes the items out of their newtypes.
use super::guard::RefMut;
use super::held::{Hashed, Wraps};
use super::*;

/// The items of a map, by reference.
#[derive(Clone, Default)]
pub struct Iter<I>(pub(super) I);

impl<'a, H: Wraps + 'a, I: Iterator<Item = &'a H>> Iterator for Iter<I> {
    type Item = &'a H::Item;

    #[inline]
    fn next(&mut self) -> Option<&'a H::Item> {
        self.0.next().map(H::item)
    }

    fn size_hint(&self) -> (usize, Option<usize>) {
        self.0.size_hint()
    }
}

impl<'a, H: Wraps + 'a, I: DoubleEndedIterator<Item = &'a H>> DoubleEndedIterator for Iter<I> {
    fn next_back(&mut self) -> Option<Self::Item> {
        self.0.next_back().map(H::item)
    }
}

impl<'a, H: Wraps + 'a, I: ExactSizeIterator<Item = &'a H>> ExactSizeIterator for Iter<I> {}
impl<'a, H: Wraps + 'a, I: FusedIterator<Item = &'a H>> FusedIterator for Iter<I> {}

impl<'a, H: Wraps<Item: fmt::Debug> + 'a, I: Clone + Iterator<Item = &'a H>> fmt::Debug for Iter<I> {
    fn fmt(&self, f: &mut fmt::Formatter<'_>) -> fmt::Result {
        f.debug_list().entries(self.clone()).finish()
    }
}

/// The items of a map, by value. Dropped, it drops those that are left.
pub struct IntoIter<I>(pub(super) I);

impl<H: Wraps, I: Iterator<Item = H>> Iterator for IntoIter<I> {
    type Item = H::Item;

    #[inline]
    fn next(&mut self) -> Option<H::Item> {
        self.0.next().map(H::into_item)
    }

    fn size_hint(&self) -> (usize, Option<usize>) {
        self.0.size_hint()
    }
}

impl<H: Wraps, I: DoubleEndedIterator<Item = H>> DoubleEndedIterator for IntoIter<I> {
    fn next_back(&mut self) -> Option<H::Item> {
        self.0.next_back().map(H::into_item)
    }
}

impl<H: Wraps, I: ExactSizeIterator<Item = H>> ExactSizeIterator for IntoIter<I> {}
impl<H: Wraps, I: FusedIterator<Item = H>> FusedIterator for IntoIter<I> {}

impl<I: Iterator> fmt::Debug for IntoIter<I> {
    fn fmt(&self, f: &mut fmt::Formatter<'_>) -> fmt::Result {
        f.debug_struct("IntoIter").field("left", &self.0.size_hint().0).finish()
    }
}

/// Guards of the items of a map. All of them may be alive at once.
pub struct IterMut<I, S> {
    pub(super) items: I,
    pub(super) builder: S,
}

impl<'a, H: Hashed + 'a, I: Iterator<Item = &'a mut H>, S: Clone + BuildHasher> Iterator for IterMut<I, S> {
    type Item = RefMut<'a, H, S>;

    #[inline]
    fn next(&mut self) -> Option<RefMut<'a, H, S>> {
        Some(RefMut::new(self.builder.clone(), self.items.next()?))
    }

    fn size_hint(&self) -> (usize, Option<usize>) {
        self.items.size_hint()
    }
}

impl<'a, H: Hashed + 'a, I: DoubleEndedIterator<Item = &'a mut H>, S: Clone + BuildHasher> DoubleEndedIterator for IterMut<I, S> {
    fn next_back(&mut self) -> Option<Self::Item> {
        Some(RefMut::new(self.builder.clone(), self.items.next_back()?))
    }
}

impl<'a, H: Hashed + 'a, I: ExactSizeIterator<Item = &'a mut H>, S: Clone + BuildHasher> ExactSizeIterator for IterMut<I, S> {}
impl<'a, H: Hashed + 'a, I: FusedIterator<Item = &'a mut H>, S: Clone + BuildHasher> FusedIterator for IterMut<I, S> {}

impl<I: Iterator, S> fmt::Debug for IterMut<I, S> {
    fn fmt(&self, f: &mut fmt::Formatter<'_>) -> fmt::Result {
        f.debug_struct("IterMut").field("left", &self.items.size_hint().0).finish()
    }
}
