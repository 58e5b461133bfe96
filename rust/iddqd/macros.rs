//! The macros of iddqd: those that write the upcasts of an item trait, and those that make a map of some items.

#[doc(hidden)]
#[macro_export]
macro_rules! __upcast {
    ($($k:ident $upcast:ident),*) => {
        $(
            #[inline]
            fn $upcast<'short, 'long: 'short>(long: Self::$k<'long>) -> Self::$k<'short>
            where
                Self: 'long,
            {
                long
            }
        )*
    };
}

/// Writes `upcast_key` of an [`iddqd::IdHashItem`](crate::iddqd::IdHashItem) or an [`iddqd::IdOrdItem`](crate::iddqd::IdOrdItem).
#[macro_export]
macro_rules! id_upcast {
    () => {
        $crate::__upcast!(Key upcast_key);
    };
}

/// Writes `upcast_key1` and `upcast_key2` of an [`iddqd::BiHashItem`](crate::iddqd::BiHashItem).
#[macro_export]
macro_rules! bi_upcast {
    () => {
        $crate::__upcast!(K1 upcast_key1, K2 upcast_key2);
    };
}

/// Writes `upcast_key1`, `upcast_key2` and `upcast_key3` of an [`iddqd::TriHashItem`](crate::iddqd::TriHashItem).
#[macro_export]
macro_rules! tri_upcast {
    () => {
        $crate::__upcast!(K1 upcast_key1, K2 upcast_key2, K3 upcast_key3);
    };
}

#[doc(hidden)]
#[macro_export]
macro_rules! __map_of {
    ($map:ty: $($item:expr),*) => {
        <$map>::from_iter_unique([$($item),*]).expect("no two items have an equal key")
    };
}

#[doc(hidden)]
#[macro_export]
macro_rules! __id_hash_map {
    ($($item:expr),* $(,)?) => { $crate::__map_of!($crate::iddqd::IdHashMap<_>: $($item),*) };
    ($builder:ty; $($item:expr),* $(,)?) => { $crate::__map_of!($crate::iddqd::IdHashMap<_, $builder>: $($item),*) };
}

#[doc(hidden)]
#[macro_export]
macro_rules! __bi_hash_map {
    ($($item:expr),* $(,)?) => { $crate::__map_of!($crate::iddqd::BiHashMap<_>: $($item),*) };
    ($builder:ty; $($item:expr),* $(,)?) => { $crate::__map_of!($crate::iddqd::BiHashMap<_, $builder>: $($item),*) };
}

#[doc(hidden)]
#[macro_export]
macro_rules! __tri_hash_map {
    ($($item:expr),* $(,)?) => { $crate::__map_of!($crate::iddqd::TriHashMap<_>: $($item),*) };
    ($builder:ty; $($item:expr),* $(,)?) => { $crate::__map_of!($crate::iddqd::TriHashMap<_, $builder>: $($item),*) };
}

#[doc(hidden)]
#[macro_export]
macro_rules! __id_ord_map {
    ($($item:expr),* $(,)?) => { $crate::__map_of!($crate::iddqd::IdOrdMap<_>: $($item),*) };
}
