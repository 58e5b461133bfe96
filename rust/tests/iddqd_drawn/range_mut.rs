//! `range_mut` of `iddqd::IdOrdMap` beside a `BTreeMap`.
use crate::item::{Draw, Item};
use facetweave::iddqd::IdOrdMap;
use std::collections::BTreeMap;
use std::ops::Bound;

#[test]
fn range_mut() {
    for n in [10, 700, 5000] {
        let mut draw = Draw(n);
        let (mut map, mut tree) = (IdOrdMap::<Item>::new(), BTreeMap::<String, Item>::new());
        for _ in 0..n {
            let x = Item { 1: format!("{:04}", draw.below(n)), ..draw.item(9) };
            assert_eq!(map.insert_overwrite(x.clone()), tree.insert(x.1.clone(), x));
        }
        for call in 0..400 {
            let (low, high) = (format!("{:04}", draw.below(n)), format!("{:04}", draw.below(n)));
            let of = |key, kind| match kind {
                0 => Bound::Included(key),
                1 => Bound::Excluded(key),
                _ => Bound::Unbounded,
            };
            let (from, to) = (draw.below(3), draw.below(3));
            let within = |it: &&mut Item| {
                let after = [*it.1 >= *low, *it.1 > *low, true][from as usize];
                after && [*it.1 <= *high, *it.1 < *high, true][to as usize]
            };
            let shared: Vec<Item> = map.range::<str, _>((of(&low[..], from), of(&high[..], to))).cloned().collect();
            let mut guards = map.range_mut((of(&low[..], from), of(&high[..], to)));
            let mut expected: Vec<&mut Item> = tree.values_mut().filter(within).collect();
            assert_eq!((guards.len(), guards.size_hint().1), (expected.len(), Some(expected.len())));
            assert!(shared.iter().eq(expected.iter().map(|it| &**it)));
            // Steps from both ends, with all guards alive.
            let (mut front, mut back, mut alive) = (0, expected.len(), Vec::new());
            while front < back {
                let (mut guard, at) = if draw.below(2) == 0 {
                    front += 1;
                    (guards.next().unwrap(), front - 1)
                } else {
                    back -= 1;
                    (guards.next_back().unwrap(), back)
                };
                guard.3 += 1;
                expected[at].3 += 1;
                assert_eq!(*guard, *expected[at]);
                alive.push(guard);
            }
            assert!(guards.next().is_none() && guards.next_back().is_none());
            drop(alive);
            if call % 10 == 0 && n > 10 {
                assert_eq!(map.remove(&low), tree.remove(&low));
            }
            assert!(map.iter().eq(tree.values()));
        }
        let all: Vec<_> = map.range_mut(..).map(|it| it.1.clone()).collect();
        assert!(all.iter().eq(tree.keys()));
        let low = all[3].as_str();
        let some = [
            map.range_mut(low..).len(),
            map.range_mut(..low).len(),
            map.range_mut(..=low).len(),
            map.range_mut(low..=low).len(),
            map.range_mut(low..low).len(),
        ];
        assert_eq!(some, [all.len() - 3, 3, 4, 1, 0]);
    }
}
