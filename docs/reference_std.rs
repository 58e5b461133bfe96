//! Items that Rattle's std has and Rust's std does not have, or has in another form. `docs/make_reference` shows signatures
//! that use it.
use std::marker::PhantomData;

/// A value that allocates memory from the allocator `A`.
pub trait Allocator: Ord + std::hash::Hash {}

/// The allocator of the program: `rt.alloc()`.
#[derive(PartialEq, Eq, PartialOrd, Ord, Hash)]
pub struct Global;

impl Allocator for Global {}

/// Memory ran out.
pub struct AllocError;

/// A text. Calls that allocate return a `Result`.
#[derive(PartialEq, Eq, PartialOrd, Ord, Hash)]
pub struct String<A: Allocator = Global>(PhantomData<A>);

/// A list. Calls that allocate return a `Result`.
#[derive(PartialEq, Eq, PartialOrd, Ord, Hash)]
pub struct Vec<T, A: Allocator = Global>(PhantomData<(T, A)>);

/// A text in a box.
#[derive(PartialEq, Eq, PartialOrd, Ord, Hash)]
pub struct BoxedStr<A: Allocator = Global>(PhantomData<A>);

/// A text with shared owners, which are counted.
#[derive(PartialEq, Eq, PartialOrd, Ord, Hash)]
pub struct RcStr<A: Allocator = Global>(PhantomData<A>);

/// A text with shared owners, which threads count.
#[derive(PartialEq, Eq, PartialOrd, Ord, Hash)]
pub struct ArcStr<A: Allocator = Global>(PhantomData<A>);

/// A text that is borrowed or owned.
#[derive(PartialEq, Eq, PartialOrd, Ord, Hash)]
pub struct CowStr<'a, A: Allocator = Global>(PhantomData<(&'a str, A)>);

/// A slice in a box.
#[derive(PartialEq, Eq, PartialOrd, Ord, Hash)]
pub struct BoxedSlice<T, A: Allocator = Global>(PhantomData<(T, A)>);

/// A type whose values may be dropped: `#[derive(Drop)]`.
pub trait Drop {}

impl<T: ?Sized> Drop for T {}

/// A type whose values can be cloned, which fails if there is no memory.
pub trait Clone: Sized {
    /// Returns a clone.
    fn clone(&self) -> Result<Self, AllocError>;
}

/// The default hasher of std.
#[derive(Default)]
pub struct FoldHasher;

impl std::hash::Hasher for FoldHasher {
    fn finish(&self) -> u64 {
        loop {}
    }

    fn write(&mut self, _: &[u8]) {}
}

/// A value in allocated memory.
pub struct Box<T, A: Allocator = Global>(PhantomData<(T, A)>);

/// A value with shared owners, which are counted.
pub struct Rc<T, A: Allocator = Global>(PhantomData<(T, A)>);

/// A value with owners in several threads, which are counted.
pub struct Arc<T, A: Allocator = Global>(PhantomData<(T, A)>);

/// A type that `collect` makes of items.
pub trait FromIterator<T>: Sized {
    /// The allocator that is passed.
    type Alloc;

    /// Makes a value of the items.
    fn from_iter<U: IntoIterator<Item = T>>(alloc: Self::Alloc, iter: U) -> Result<Self, AllocError>;
}

/// A type to which items can be added.
pub trait Extend<T> {
    /// Adds the items.
    fn extend<U: IntoIterator<Item = T>>(&mut self, iter: U) -> Result<(), AllocError>;
}

/// A type of which `mem::try_take` leaves a value in place of the one that it takes.
pub trait Emptied: Sized {
    /// Makes a value, with the allocator of this one.
    fn emptied(like: &Self) -> Result<Self, AllocError>;
}

/// A type of which `or_default` makes a value, by the allocator of the map.
pub trait MadeWith<A> {
    /// Makes a value.
    fn made_with(alloc: A) -> Self;
}

impl<H> Clone for std::hash::BuildHasherDefault<H> {
    fn clone(&self) -> Result<Self, AllocError> {
        loop {}
    }
}

impl Clone for std::hash::RandomState {
    fn clone(&self) -> Result<Self, AllocError> {
        loop {}
    }
}

/// A type whose values are copied by their bytes.
pub trait Copy {}

/// Traits and types for printing a value.
pub mod fmt {
    /// The result of printing.
    pub type Result = std::result::Result<(), Error>;

    /// Printing failed.
    pub struct Error;

    /// A target that can be written to.
    pub trait Write {}

    /// The target that a value is printed to, with the options of the format.
    pub struct Formatter<W: Write>(std::marker::PhantomData<W>);

    /// A value that can be printed for a programmer.
    pub trait Debug {
        /// Prints the value.
        fn fmt<W: Write>(&self, f: &mut Formatter<W>) -> Result;
    }

    /// A value that can be printed for a user.
    pub trait Display {
        /// Prints the value.
        fn fmt<W: Write>(&self, f: &mut Formatter<W>) -> Result;
    }
}

/// Errors.
pub mod error {
    /// An error, which `?` converts into an `anyhow::Error`.
    pub trait Error: super::fmt::Display {}
}
