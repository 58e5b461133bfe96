// Plain Rust, in no proved text: it lends the entries between two places for writing at once, and all for a search, and moves no entry.
impl<E> Blocks<E> {
    pub(crate) fn as_blocks(&self) -> &[Block<E>] {
        self.row.as_blocks()
    }

    pub(crate) fn range_mut(&mut self, from: Place, to: Place) -> EntriesMut<'_, E> {
        let left = self.range(from, to).len();
        let end = self.row.len().min(to.block + 1);
        let behind = if to.block < end { self.row.len_at(to.block) - to.offset } else { 0 };
        let mut entries = self.row.blocks_mut().get_mut(from.block..end).unwrap_or_default().iter_mut().flatten();
        if 0 < from.offset {
            entries.nth(from.offset - 1);
        }
        if 0 < behind {
            entries.nth_back(behind - 1);
        }
        EntriesMut { entries, left }
    }
}

pub struct EntriesMut<'a, E> {
    entries: core::iter::Flatten<core::slice::IterMut<'a, Block<E>>>,
    left: usize,
}

impl<'a, E> Iterator for EntriesMut<'a, E> {
    type Item = &'a mut E;

    fn next(&mut self) -> Option<&'a mut E> {
        self.left = self.left.checked_sub(1)?;
        self.entries.next()
    }

    fn size_hint(&self) -> (usize, Option<usize>) {
        (self.left, Some(self.left))
    }
}

impl<E> DoubleEndedIterator for EntriesMut<'_, E> {
    fn next_back(&mut self) -> Option<Self::Item> {
        self.left = self.left.checked_sub(1)?;
        self.entries.next_back()
    }
}

impl<E> ExactSizeIterator for EntriesMut<'_, E> {}
impl<E> core::iter::FusedIterator for EntriesMut<'_, E> {}

// It gives the iterator a name outside of this file.
impl<'a, E> IntoIterator for &'a mut Blocks<E> {
    type Item = &'a mut E;
    type IntoIter = EntriesMut<'a, E>;

    fn into_iter(self) -> EntriesMut<'a, E> {
        let (from, to) = (self.start(), self.end());
        self.range_mut(from, to)
    }
}
