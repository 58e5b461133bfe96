// Plain Rust, in no proved text: it lends the blocks.
impl<E> BlockRow<E> {
    pub(crate) fn as_blocks(&self) -> &[Block<E>] {
        &self.blocks
    }

    pub(crate) fn blocks_mut(&mut self) -> &mut [Block<E>] {
        &mut self.blocks
    }
}
