//! The traits by which an item says what its keys are.
use super::*;

macro_rules! item_trait {
    ($item:ident of $map:literal, $macro:literal writes upcasts: $($k:ident: $bound:ident $(+ $more:ident)?, $key:ident $upcast:ident;)*) => {
        #[doc = concat!("An item of ", $map, ", which makes its keys or lends them.")]
        pub trait $item {
            $(
                /// The type of the key, which may borrow from the item.
                type $k<'a>: $bound $(+ $more)?
                where
                    Self: 'a;
            )*

            $(
                /// Returns the key. As long as the item is in a map, each call returns an equal one.
                fn $key(&self) -> Self::$k<'_>;
            )*

            $(
                #[doc = concat!("Returns the key with a shorter lifetime; `", $macro, "` writes this function.")]
                fn $upcast<'short, 'long: 'short>(long: Self::$k<'long>) -> Self::$k<'short>;
            )*
        }

        item_pointer!($item ['b,] &'b T: $($k $key $upcast;)*);
        item_pointer!($item ['b,] &'b mut T: $($k $key $upcast;)*);
        item_pointer!($item [] Box<T>: $($k $key $upcast;)*);
        item_pointer!($item [] Rc<T>: $($k $key $upcast;)*);
        item_pointer!($item [] Arc<T>: $($k $key $upcast;)*);
    };
}

/// A pointer to an item has the item's keys.
macro_rules! item_pointer {
    ($item:ident [$($lifetime:tt)*] $pointer:ty: $($k:ident $key:ident $upcast:ident;)*) => {
        impl<$($lifetime)* T: $item + ?Sized> $item for $pointer {
            $(
                type $k<'a>
                    = T::$k<'a>
                where
                    Self: 'a;
            )*

            $(
                #[inline]
                fn $key(&self) -> Self::$k<'_> {
                    (**self).$key()
                }

                #[inline]
                fn $upcast<'short, 'long: 'short>(long: Self::$k<'long>) -> Self::$k<'short>
                where
                    Self: 'long,
                {
                    T::$upcast(long)
                }
            )*
        }
    };
}

item_trait! {
    IdHashItem of "an [`IdHashMap`]", "id_upcast!()" writes upcasts:
    Key: Eq + Hash, key upcast_key;
}

item_trait! {
    BiHashItem of "a [`BiHashMap`]", "bi_upcast!()" writes upcasts:
    K1: Eq + Hash, key1 upcast_key1;
    K2: Eq + Hash, key2 upcast_key2;
}

item_trait! {
    TriHashItem of "a [`TriHashMap`]", "tri_upcast!()" writes upcasts:
    K1: Eq + Hash, key1 upcast_key1;
    K2: Eq + Hash, key2 upcast_key2;
    K3: Eq + Hash, key3 upcast_key3;
}

item_trait! {
    IdOrdItem of "an [`IdOrdMap`]", "id_upcast!()" writes upcasts:
    Key: Ord, key upcast_key;
}
