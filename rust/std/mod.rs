//! What stands for Rattle's std: Rust's own where it is the same, and lists whose growth may fail where it is not. Each path here is
//! one that the proved text names; any other does not resolve.
#![allow(dead_code, unused_imports)]

pub mod cmp {
    pub use core::cmp::{Eq, Ordering, PartialEq};
}

pub mod fmt {
    pub use core::fmt::{Debug, Display, Formatter, Result};
}

pub mod iter {
    pub use core::iter::{DoubleEndedIterator, ExactSizeIterator, FusedIterator};
}

pub mod marker {
    pub use core::marker::PhantomData;
}

pub mod mem {
    pub use core::mem::{replace, size_of, size_of_val};
}

pub mod ops {
    pub use core::ops::{Bound, Deref, Range, RangeBounds, RangeFrom, RangeFull, RangeInclusive, RangeTo, RangeToInclusive};
}

#[cfg(feature = "std")]
pub use std::io;

/// What stands for std's errors of input and output where there is none.
#[cfg(not(feature = "std"))]
pub mod io {
    pub struct Error;

    impl From<super::alloc::AllocError> for Error {
        fn from(_: super::alloc::AllocError) -> Error {
            Error
        }
    }
}

pub mod hash;
pub mod queue;
pub mod text;
pub mod vec;

pub mod alloc {
    /// There was no memory.
    #[derive(Clone, Copy, Debug, PartialEq, Eq)]
    pub struct AllocError;

    impl core::fmt::Display for AllocError {
        fn fmt(&self, f: &mut core::fmt::Formatter<'_>) -> core::fmt::Result {
            f.write_str("out of memory")
        }
    }

    impl core::error::Error for AllocError {}

    #[cfg(feature = "std")]
    impl From<AllocError> for std::io::Error {
        fn from(_: AllocError) -> Self {
            std::io::Error::from(std::io::ErrorKind::OutOfMemory)
        }
    }
}

pub mod boxed {
    pub use super::text::{BoxedSlice, BoxedStr};
    pub use ::alloc::boxed::Box;
}

pub mod borrow {
    pub use super::text::CowStr;
}

pub mod collections {
    pub use super::queue::VecDeque;
}

pub mod default {
    use super::alloc::AllocError;

    /// What is left in place of a value that was taken.
    pub trait Emptied: Sized {
        /// Makes it.
        fn emptied(like: &Self) -> Result<Self, AllocError>;
    }
}

pub mod error {
    pub use core::error::Error;
}

pub mod rc {
    pub use super::text::RcStr;
    pub use ::alloc::rc::Rc;
}

pub mod sync {
    pub use super::text::ArcStr;
    pub use ::alloc::sync::Arc;
}

pub mod prelude {
    pub use super::must;
    pub use super::text::{AsSlice, AsStr};
    pub use super::vec::{Growing, Vec};
    pub use ::alloc::string::String;
}

/// Ends the program if there was no memory, as Rust's own collections do.
#[cold]
#[inline(never)]
fn no_memory() -> ! {
    ::alloc::alloc::handle_alloc_error(core::alloc::Layout::new::<u8>())
}

/// The value, if there was memory for it.
#[inline]
pub fn must<T, E>(result: Result<T, E>) -> T {
    match result {
        Ok(value) => value,
        Err(_) => no_memory(),
    }
}
