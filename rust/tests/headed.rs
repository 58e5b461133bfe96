//! Texts with their first bytes as a number: they are in the order of the texts, which Rust's own comparison tells.
#![cfg(feature = "std")]
use facetweave::id_ord_map::{HeadedStr, HeadedString, Prefix};
use facetweave::{IdOrdMap, Row1};
use std::collections::BTreeMap;

/// Texts of up to two letters behind beginnings of five to nine bytes and none: with and without bytes of 0, and of two bytes a letter.
fn texts() -> Vec<String> {
    let letters = ["", "\0", "a", "b", "\u{7f}", "é", "\u{10ffff}"];
    let begins = ["", "aaaaa", "aaaaaa", "aaaaaaa", "aaaaaaaa", "aaaaaaaaa", "aaaaaa\0", "\0\0\0\0\0\0\0"];
    let two = letters.iter().flat_map(|one| letters.iter().map(move |other| format!("{one}{other}")));
    let mut all: Vec<String> = two.flat_map(|it| begins.iter().map(move |begin| format!("{begin}{it}"))).collect();
    all.sort();
    all.dedup();
    all
}

#[test]
fn two_texts_compare_as_texts() {
    let texts = texts();
    for one in &texts {
        let headed = HeadedString::new(one.clone());
        assert_eq!((headed.as_str(), headed.to_string()), (one.as_str(), one.clone()));
        for other in &texts {
            let with = HeadedString::new(other.clone());
            assert_eq!(headed.cmp(&with), one.cmp(other), "{one:?} and {other:?}");
            assert_eq!(headed.partial_cmp(&with), one.partial_cmp(other), "{one:?} and {other:?}");
            assert_eq!(headed == with, one == other, "{one:?} and {other:?}");
        }
        assert_eq!(headed.clone().into_string(), *one);
    }
}

#[test]
fn a_map_answers_as_one_of_texts() {
    let texts = texts();
    let map: IdOrdMap<_> = texts.iter().step_by(2).rev().map(|it| Row1::new(HeadedString::new(it.clone()), it.len())).collect();
    let plain: BTreeMap<&str, usize> = texts.iter().step_by(2).map(|it| (it.as_str(), it.len())).collect();
    assert!(map.iter().map(|it| it.key.as_str()).eq(plain.keys().copied()));
    for (at, low) in texts.iter().enumerate() {
        let expected = plain.get(low.as_str()).copied();
        assert_eq!(map.get(low.as_str()).map(|it| it.value), expected, "{low:?}");
        assert_eq!(map.get(HeadedStr::new(low)).map(|it| it.value), expected, "{low:?}");
        assert_eq!(map.get(&HeadedString::new(low.clone())).map(|it| it.value), expected, "{low:?}");
        let begin: Vec<&str> = plain.keys().copied().filter(|it| it.starts_with(low.as_str())).collect();
        assert!(map.matching(Prefix(low.as_str())).map(|it| it.key.as_str()).eq(begin), "{low:?}");
        for high in &texts[at..] {
            let within = plain.range(low.as_str()..high.as_str()).map(|it| *it.0);
            assert!(map.range(HeadedStr::new(low)..HeadedStr::new(high)).map(|it| it.key.as_str()).eq(within), "{low:?} to {high:?}");
        }
    }
}
