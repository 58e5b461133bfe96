//! Texts and lists that are keys: Rust's own, by the names that Rattle has for them.
use ::alloc::borrow::Cow;
use ::alloc::boxed::Box;
use ::alloc::rc::Rc;
use ::alloc::sync::Arc;

pub type ArcStr = Arc<str>;
pub type BoxedSlice<T> = Box<[T]>;
pub type BoxedStr = Box<str>;
pub type CowStr<'a> = Cow<'a, str>;
pub type RcStr = Rc<str>;

/// The text of an owned one.
pub trait AsStr {
    fn as_str(&self) -> &str;
}

macro_rules! as_str {
    ($($name:ty),*) => {
        $(impl AsStr for $name {
            #[inline]
            fn as_str(&self) -> &str {
                self
            }
        })*
    };
}

as_str!(ArcStr, BoxedStr, CowStr<'_>, RcStr);

/// The items of an owned slice.
pub trait AsSlice<T> {
    fn as_slice(&self) -> &[T];
}

impl<T> AsSlice<T> for BoxedSlice<T> {
    #[inline]
    fn as_slice(&self) -> &[T] {
        self
    }
}
