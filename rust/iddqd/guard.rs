//! The guard, which lends a whole item for writing.
use super::held::Hashed;
use super::*;

/// An item that is borrowed for writing. The guard hashes the item's keys when it is made and when it ends.
///
/// # Panics
///
/// The end of the guard panics if one of the keys has another hash by then. The item stays in the map, where calls may no longer find it
/// by its keys. A guard that is forgotten (`core::mem::forget`) checks nothing, nor does one that ends while another panic unwinds, where a
/// second panic would end the program (that takes the feature `std`).
pub struct RefMut<'a, H: Hashed, S: Clone + BuildHasher> {
    held: Option<&'a mut H>,
    builder: S,
    hashes: H::Hashes,
}

const LENT: &str = "a guard has its item until it ends";

impl<'a, H: Hashed, S: Clone + BuildHasher> RefMut<'a, H, S> {
    #[inline]
    pub(super) fn new(builder: S, held: &'a mut H) -> Self {
        let hashes = H::hashes(held.item(), &builder);
        RefMut { held: Some(held), builder, hashes }
    }

    fn end(&mut self) -> Option<&'a mut H> {
        let held = self.held.take()?;
        H::check(self.hashes, H::hashes(held.item(), &self.builder));
        Some(held)
    }

    /// Lends the item for a shorter time, by a guard that checks the keys too.
    pub fn reborrow(&mut self) -> RefMut<'_, H, S> {
        RefMut { held: self.held.as_deref_mut(), builder: self.builder.clone(), hashes: self.hashes }
    }

    /// Ends the guard, with its check, and returns the item for reading.
    pub fn into_ref(mut self) -> &'a H::Item {
        self.end().expect(LENT).item()
    }
}

impl<H: Hashed, S: Clone + BuildHasher> Drop for RefMut<'_, H, S> {
    fn drop(&mut self) {
        #[cfg(feature = "std")]
        if std::thread::panicking() {
            return;
        }
        self.end();
    }
}

impl<H: Hashed, S: Clone + BuildHasher> Deref for RefMut<'_, H, S> {
    type Target = H::Item;

    #[inline]
    fn deref(&self) -> &H::Item {
        self.held.as_ref().expect(LENT).item()
    }
}

impl<H: Hashed, S: Clone + BuildHasher> DerefMut for RefMut<'_, H, S> {
    #[inline]
    fn deref_mut(&mut self) -> &mut H::Item {
        self.held.as_mut().expect(LENT).item_mut()
    }
}

impl<H: Hashed<Item: fmt::Debug>, S: Clone + BuildHasher> fmt::Debug for RefMut<'_, H, S> {
    fn fmt(&self, f: &mut fmt::Formatter<'_>) -> fmt::Result {
        fmt::Debug::fmt(&**self, f)
    }
}
