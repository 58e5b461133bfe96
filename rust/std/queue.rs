//! A queue that is made of a list, and only taken from.
use super::vec::Vec;

/// Rust's own queue counts round the end of its memory at each step. Nothing enters this one, so that the list's iterator is enough.
#[derive(Debug)]
pub struct VecDeque<T>(::alloc::vec::IntoIter<T>);

impl<T> VecDeque<T> {
    #[inline]
    pub fn new() -> Self {
        VecDeque(Vec::new().into_iter())
    }

    #[inline]
    pub fn from_vec(items: Vec<T>) -> Self {
        VecDeque(items.into_iter())
    }

    #[inline]
    pub fn is_empty(&self) -> bool {
        self.len() == 0
    }

    #[inline]
    pub fn len(&self) -> usize {
        self.0.len()
    }

    #[inline]
    pub fn pop_front(&mut self) -> Option<T> {
        self.0.next()
    }

    #[inline]
    pub fn pop_back(&mut self) -> Option<T> {
        self.0.next_back()
    }

    #[inline]
    pub fn iter(&self) -> core::slice::Iter<'_, T> {
        self.0.as_slice().iter()
    }
}
