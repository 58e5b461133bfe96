// Plain Rust, in no proved text: it lends the blocks.
impl<T: IdOrdItem> IdOrdMap<T> {
    pub(crate) fn blocks(&self) -> &Blocks<T> {
        &self.items
    }

    pub(crate) fn blocks_mut(&mut self) -> &mut Blocks<T> {
        &mut self.items
    }
}
