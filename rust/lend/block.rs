// Plain Rust, in no proved text: it lends the entries for writing at once.
impl<'a, E> IntoIterator for &'a mut Block<E> {
    type Item = &'a mut E;
    type IntoIter = core::slice::IterMut<'a, E>;

    fn into_iter(self) -> Self::IntoIter {
        self.entries.iter_mut()
    }
}
