//! The maps with hashed keys: traits of std.
use super::walk::IntoIter;
use super::*;

macro_rules! traits {
    (
        $map:ident $item:ident $module:ident $held:ident $made_by:ident $count:literal $gone:tt $as_gone:tt:
        $($n:literal $rank:ident $k:ident $key:ident $upcast:ident $get:ident $get_mut:ident $remove:ident $contains:ident $find:ident;)*
    ) => {
        impl<T: $item, S: BuildHasher + Default> Default for $map<T, S> {
            fn default() -> Self {
                Self::with_hasher(S::default())
            }
        }

        /// Clones the items and the builder. A panic of their `clone` drops what was cloned.
        impl<T: $item + Clone, S: BuildHasher + Clone> Clone for $map<T, S> {
            fn clone(&self) -> Self {
                $map { map: must(self.map.try_clone()) }
            }
        }

        /// Shows the items, without their keys.
        impl<T: $item + fmt::Debug, S: BuildHasher> fmt::Debug for $map<T, S> {
            fn fmt(&self, f: &mut fmt::Formatter<'_>) -> fmt::Result {
                f.debug_set().entries(self).finish()
            }
        }

        /// Two maps are equal if they have equal items under the same keys, in whatever order.
        impl<T: $item + PartialEq, S: BuildHasher> PartialEq for $map<T, S> {
            fn eq(&self, other: &Self) -> bool {
                let same = |item: &T| {
                    let found = [$(other.$find(&item.$key())),*];
                    found[0].is_some_and(|slot| found.iter().all(|it| it.is_some_and(|it| it.number() == slot.number())) && item == other.at(slot))
                };
                self.len() == other.len() && self.iter().all(same)
            }
        }

        impl<T: $item + Eq, S: BuildHasher> Eq for $map<T, S> {}

        /// Inserts the items, each in the place of those that have one of its keys.
        impl<T: $item, S: BuildHasher> Extend<T> for $map<T, S> {
            fn extend<I: IntoIterator<Item = T>>(&mut self, iter: I) {
                let iter = iter.into_iter();
                // Some keys of the items may be there already: room for half of them is enough but for one growth.
                let least = iter.size_hint().0;
                self.reserve(if self.is_empty() { least } else { least.div_ceil(2) });
                iter.for_each(|item| drop(self.insert_overwrite(item)));
            }
        }

        /// Makes a map of the items, each in the place of those before it that have one of its keys.
        impl<T: $item, S: BuildHasher + Default> FromIterator<T> for $map<T, S> {
            fn from_iter<I: IntoIterator<Item = T>>(iter: I) -> Self {
                let mut map = Self::default();
                map.extend(iter);
                map
            }
        }

        impl<'a, T: $item, S: BuildHasher> IntoIterator for &'a $map<T, S> {
            type Item = &'a T;
            type IntoIter = $module::Iter<'a, T>;

            #[inline]
            fn into_iter(self) -> Self::IntoIter {
                self.iter()
            }
        }

        impl<'a, T: $item, S: Clone + BuildHasher> IntoIterator for &'a mut $map<T, S> {
            type Item = $module::RefMut<'a, T, S>;
            type IntoIter = $module::IterMut<'a, T, S>;

            #[inline]
            fn into_iter(self) -> Self::IntoIter {
                self.iter_mut()
            }
        }

        impl<T: $item, S: BuildHasher> IntoIterator for $map<T, S> {
            type Item = T;
            type IntoIter = $module::IntoIter<T>;

            #[inline]
            fn into_iter(self) -> Self::IntoIter {
                IntoIter(self.map.into_iter())
            }
        }
    };
}

each_hash_map!(traits);

impl<T: IdHashItem + fmt::Debug, S: BuildHasher> IdHashMap<T, S> {
    /// Returns what shows the map as `{key: item, ..}`, where the map's own `Debug` shows the items alone.
    pub fn debug_with_keys<'a>(&'a self) -> impl fmt::Debug + 'a
    where
        T::Key<'a>: fmt::Debug,
    {
        Shown(|f: &mut fmt::Formatter<'_>| f.debug_map().entries(self.iter().map(|item| (item.key(), item))).finish())
    }
}

macro_rules! debug_with_keys {
    ($map:ident $item:ident $form:literal: $($k:ident $key:ident $name:literal),*) => {
        impl<T: $item + fmt::Debug, S: BuildHasher> $map<T, S> {
            #[doc = concat!("Returns what shows the map as `", $form, "`, where the map's own `Debug` shows the items alone.")]
            pub fn debug_with_keys<'a>(&'a self) -> impl fmt::Debug + 'a
            where
                $(T::$k<'a>: fmt::Debug,)*
            {
                let keys = |item: &'a T| Shown(move |f: &mut fmt::Formatter<'_>| f.debug_map()$(.entry(&format_args!($name), &item.$key()))*.finish());
                Shown(move |f: &mut fmt::Formatter<'_>| f.debug_map().entries(self.iter().map(|item| (keys(item), item))).finish())
            }
        }
    };
}

debug_with_keys!(BiHashMap BiHashItem "{{k1: key1, k2: key2}: item, ..}": K1 key1 "k1", K2 key2 "k2");
debug_with_keys!(TriHashMap TriHashItem "{{k1: key1, k2: key2, k3: key3}: item, ..}": K1 key1 "k1", K2 key2 "k2", K3 key3 "k3");
