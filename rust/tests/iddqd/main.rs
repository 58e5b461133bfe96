//! The calls of `facetweave::iddqd`, whose names and results are those of the crate iddqd: an example for each.
#![allow(clippy::while_let_on_iterator)]
use facetweave::iddqd::Equivalent;
use facetweave::iddqd::bi_hash_map::{Entry, OccupiedEntryMut, OccupiedEntryRef};
use facetweave::iddqd::{BiHashItem, BiHashMap, TriHashItem, TriHashMap, bi_upcast, tri_upcast};
use std::collections::hash_map::RandomState;

mod borrows;
mod entries;
mod keys;
mod queries;
mod room;
mod three_keys;
mod whole;

#[derive(Clone, Debug, PartialEq, Eq)]
struct Item {
    id: u32,
    name: String,
    value: i32,
}

impl BiHashItem for Item {
    type K1<'a> = u32;
    type K2<'a> = &'a str;

    fn key1(&self) -> Self::K1<'_> {
        self.id
    }
    fn key2(&self) -> Self::K2<'_> {
        &self.name
    }
    bi_upcast!();
}

fn item(id: u32, name: &str, value: i32) -> Item {
    Item { id, name: name.to_string(), value }
}

#[derive(Clone, Debug, PartialEq, Eq)]
struct Person {
    id: u32,
    email: String,
    phone: String,
    name: String,
}

impl TriHashItem for Person {
    type K1<'a> = u32;
    type K2<'a> = &'a str;
    type K3<'a> = &'a str;

    fn key1(&self) -> Self::K1<'_> {
        self.id
    }
    fn key2(&self) -> Self::K2<'_> {
        &self.email
    }
    fn key3(&self) -> Self::K3<'_> {
        &self.phone
    }
    tri_upcast!();
}

fn person(id: u32, email: &str, phone: &str, name: &str) -> Person {
    Person { id, email: email.to_string(), phone: phone.to_string(), name: name.to_string() }
}
