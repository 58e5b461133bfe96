// Plain Rust, in no proved text: it lends the items for writing.
impl<T: ITEM, S: BuildHasher> MAP<T, S> {
    pub(crate) fn items_mut(&mut self) -> &mut ItemSet<T> {
        &mut self.items
    }
}
