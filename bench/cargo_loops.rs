//! The loops of bench/loops, which bench/in_rust writes in Rust, over the maps that cargo builds, with the hasher of the proved build.
#![allow(warnings)]

mod bench_loops;
mod test_bi;
mod test_tri;

type Hashers = std::hash::BuildHasherDefault<facetweave::FoldHasher>;

/// Makes a module that has what another one has, and the map with this name with the hasher.
macro_rules! with_hasher {
    ($($name:ident: $of:ident, $($map:ident)*;)*) => {
        $(mod $name {
            pub use facetweave::$of::*;
            $(pub type $map<T> = facetweave::$map<T, super::Hashers>;)*
        })*
    };
}

with_hasher! {
    id: id_hash_map, IdHashMap;
    bi: bi_hash_map, BiHashMap;
    tri: tri_hash_map, TriHashMap;
    sorted: sorted, IdHashOrdMap BiHashOrdMap TriHashOrdMap;
}
