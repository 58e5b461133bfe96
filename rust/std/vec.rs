//! Calls of a list that ask for memory only where that may fail. Rust's own calls of these kinds end the program without memory, so they
//! have other names here.
use super::alloc::AllocError;
pub use ::alloc::vec::{IntoIter, Vec};
use core::cmp::Ordering;

/// The calls of a list that Rattle's std has, and Rust's has not, or not so.
pub trait Growing<T>: Sized {
    /// `with_capacity`, which may fail.
    fn with_room(count: usize) -> Result<Self, AllocError>;

    /// A list of this item, so many times.
    fn from_elem(item: T, count: usize) -> Result<Self, AllocError>
    where
        T: Clone;

    /// `push`, which may fail.
    fn try_push(&mut self, item: T) -> Result<(), AllocError>;

    /// `push`, where there is room.
    fn push_reserved(&mut self, item: T);

    /// `insert`, which may fail.
    fn try_insert(&mut self, at: usize, item: T) -> Result<(), AllocError>;

    /// `append`, which may fail.
    fn try_append(&mut self, other: &mut Self) -> Result<(), AllocError>;

    /// `resize`, which may fail.
    fn try_resize(&mut self, count: usize, item: T) -> Result<(), AllocError>
    where
        T: Clone;

    /// `reserve`, which may fail.
    fn reserve_some(&mut self, more: usize) -> Result<(), AllocError>;

    /// `reserve_exact`, which may fail.
    fn reserve_just(&mut self, more: usize) -> Result<(), AllocError>;

    /// `sort_by`, which may fail. Rust's own ends the program if the memory that it works in is refused: so as much is asked for first.
    fn try_sort_by<F: FnMut(&T, &T) -> Ordering>(&mut self, compare: F) -> Result<(), AllocError>;

    /// `shrink_to`. Rust's own ends the program if the smaller piece of memory is refused: here the list then keeps what it has.
    fn shrink_or_keep(&mut self, least: usize);

    /// `clone`, which may fail.
    fn try_clone(&self) -> Result<Self, AllocError>
    where
        T: Clone;

    /// The last item, of a list that is not empty.
    fn take_last(&mut self) -> T;

    /// Lets an empty list go.
    fn destroy_empty(self) {}
}

#[allow(clippy::disallowed_methods)]
impl<T> Growing<T> for Vec<T> {
    #[inline]
    fn with_room(count: usize) -> Result<Self, AllocError> {
        let mut items = Vec::new();
        items.reserve_just(count)?;
        Ok(items)
    }

    #[inline]
    fn from_elem(item: T, count: usize) -> Result<Self, AllocError>
    where
        T: Clone,
    {
        let mut items = Self::with_room(count)?;
        items.resize(count, item);
        Ok(items)
    }

    #[inline]
    fn try_push(&mut self, item: T) -> Result<(), AllocError> {
        self.reserve_some(1)?;
        self.push(item);
        Ok(())
    }

    #[inline(always)]
    fn push_reserved(&mut self, item: T) {
        debug_assert!(self.len() < self.capacity());
        self.push(item);
    }

    #[inline]
    fn try_insert(&mut self, at: usize, item: T) -> Result<(), AllocError> {
        self.reserve_some(1)?;
        self.insert(at, item);
        Ok(())
    }

    #[inline]
    fn try_append(&mut self, other: &mut Self) -> Result<(), AllocError> {
        self.reserve_some(other.len())?;
        self.append(other);
        Ok(())
    }

    #[inline]
    fn try_resize(&mut self, count: usize, item: T) -> Result<(), AllocError>
    where
        T: Clone,
    {
        self.reserve_some(count.saturating_sub(self.len()))?;
        self.resize(count, item);
        Ok(())
    }

    #[inline]
    fn reserve_some(&mut self, more: usize) -> Result<(), AllocError> {
        self.try_reserve(more).map_err(|_| AllocError)
    }

    #[inline]
    fn reserve_just(&mut self, more: usize) -> Result<(), AllocError> {
        self.try_reserve_exact(more).map_err(|_| AllocError)
    }

    fn try_sort_by<F: FnMut(&T, &T) -> Ordering>(&mut self, compare: F) -> Result<(), AllocError> {
        // A list of up to 4 KiB is sorted in room that Rust's sort has at hand. For a longer one it asks for as many items, and would end the program.
        if 4096 < self.len() * size_of::<T>() {
            Self::new().reserve_just(self.len())?;
        }
        self.sort_by(compare);
        Ok(())
    }

    fn shrink_or_keep(&mut self, least: usize) {
        let wanted = self.len().max(least);
        if wanted < self.capacity() {
            let mut items = Vec::new();
            if items.try_reserve_exact(wanted).is_ok() {
                items.append(self);
                *self = items;
            }
        }
    }

    #[inline]
    fn try_clone(&self) -> Result<Self, AllocError>
    where
        T: Clone,
    {
        let mut items = Self::with_room(self.len())?;
        VecCloneMethods::extend_from_slice(&mut items, self)?;
        Ok(items)
    }

    #[inline(always)]
    fn take_last(&mut self) -> T {
        match self.pop() {
            Some(item) => item,
            None => unreachable!(),
        }
    }
}

/// The call of a list whose items are cloned.
pub trait VecCloneMethods<T> {
    fn extend_from_slice(&mut self, items: &[T]) -> Result<(), AllocError>;
}

#[allow(clippy::disallowed_methods)]
impl<T: Clone> VecCloneMethods<T> for Vec<T> {
    #[inline]
    fn extend_from_slice(&mut self, items: &[T]) -> Result<(), AllocError> {
        self.reserve_some(items.len())?;
        Vec::extend_from_slice(self, items);
        Ok(())
    }
}
