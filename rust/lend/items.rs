// Plain Rust, in no proved text: it lends two items or all for writing at once, and changes no slot.
impl<T> ItemSet<T> {
    /// The first slot has the lower number.
    pub(crate) fn two_mut(&mut self, low: ItemIndex, high: ItemIndex) -> (&mut T, &mut T) {
        let (before, from) = self.slots.split_at_mut(high.number());
        (before[low.number()].item_mut(), from[0].item_mut())
    }
}

impl<'a, T> IntoIterator for &'a mut ItemSet<T> {
    type Item = &'a mut T;
    type IntoIter = ItemsMut<'a, T>;

    fn into_iter(self) -> ItemsMut<'a, T> {
        ItemsMut { left: self.live, slots: self.slots.iter_mut() }
    }
}

pub struct ItemsMut<'a, T> {
    slots: core::slice::IterMut<'a, Slot<T>>,
    left: usize,
}

impl<'a, T> Iterator for ItemsMut<'a, T> {
    type Item = &'a mut T;

    fn next(&mut self) -> Option<&'a mut T> {
        let item = self.slots.find_map(|slot| match slot {
            Slot::Live(item) => Some(item),
            Slot::Free(_) => None,
        })?;
        self.left -= 1;
        Some(item)
    }

    fn size_hint(&self) -> (usize, Option<usize>) {
        (self.left, Some(self.left))
    }
}

impl<T> ExactSizeIterator for ItemsMut<'_, T> {}
impl<T> core::iter::FusedIterator for ItemsMut<'_, T> {}
