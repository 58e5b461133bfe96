//! The program that bench/whole times, over other maps than that of bench/whole_program: `whole_by_hand SIDE`. `std` and `seeded` are
//! what a careful user of std keeps in step, a list of records and a hash map from each key to their places, the one with the hasher
//! of the bench and the other with that of std. Built by bench/beside, it has the map of the Rust crate iddqd as `crate`.

// bench/run uses the other functions of this module.
#[allow(dead_code)]
mod hasher;

use hasher::FoldHasher;
use std::collections::HashMap;
use std::collections::hash_map::{Entry, RandomState};
use std::hash::{BuildHasher, BuildHasherDefault};
use std::io::{BufRead, BufWriter, Result, Write, stdin, stdout};

/// How many bytes of output are written at once.
const WRITTEN: usize = 65_536;

struct Record {
    number: u64,
    name: String,
    value: u64,
}

/// What the program needs of a map.
trait Records: Default {
    /// Returns whether the record was added: no other has its number or its name.
    fn add(&mut self, record: Record) -> bool;
    fn by_number(&self, number: u64) -> Option<&Record>;
    fn by_name(&self, name: &str) -> Option<&Record>;
    fn all(&self) -> Vec<&Record>;
}

#[derive(Default)]
struct ByHand<S> {
    records: Vec<Record>,
    by_number: HashMap<u64, usize, S>,
    by_name: HashMap<String, usize, S>,
}

impl<S: BuildHasher + Default> Records for ByHand<S> {
    fn add(&mut self, record: Record) -> bool {
        let Entry::Vacant(number) = self.by_number.entry(record.number) else {
            return false;
        };
        let Entry::Vacant(name) = self.by_name.entry(record.name.clone()) else {
            return false;
        };
        number.insert(self.records.len());
        name.insert(self.records.len());
        self.records.push(record);
        true
    }

    fn by_number(&self, number: u64) -> Option<&Record> {
        self.records.get(*self.by_number.get(&number)?)
    }

    fn by_name(&self, name: &str) -> Option<&Record> {
        self.records.get(*self.by_name.get(name)?)
    }

    fn all(&self) -> Vec<&Record> {
        self.records.iter().collect()
    }
}

/// The same over the crate's map.
#[cfg(feature = "beside")]
mod of_crate {
    use super::{FoldHasher, Record, Records};
    use iddqd::{BiHashItem, BiHashMap};
    use std::hash::BuildHasherDefault;

    impl BiHashItem for Record {
        type K1<'a> = u64;
        type K2<'a> = &'a str;

        fn key1(&self) -> u64 {
            self.number
        }

        fn key2(&self) -> &str {
            &self.name
        }

        fn upcast_key1<'short, 'long: 'short>(long: u64) -> u64 {
            long
        }

        fn upcast_key2<'short, 'long: 'short>(long: &'long str) -> &'short str {
            long
        }
    }

    pub type OfCrate = BiHashMap<Record, BuildHasherDefault<FoldHasher>>;

    impl Records for OfCrate {
        fn add(&mut self, record: Record) -> bool {
            self.insert_unique(record).is_ok()
        }

        fn by_number(&self, number: u64) -> Option<&Record> {
            self.get1(&number)
        }

        fn by_name(&self, name: &str) -> Option<&Record> {
            self.get2(name)
        }

        fn all(&self) -> Vec<&Record> {
            self.iter().collect()
        }
    }
}

fn number(word: Option<&str>) -> u64 {
    let word = word.unwrap_or_default();
    word.parse()
        .unwrap_or_else(|_| panic!("{word} is no number"))
}

/// Answers a line.
fn answer(records: &mut impl Records, line: &str, out: &mut impl Write) -> Result<()> {
    let mut words = line.split(' ');
    match (words.next(), words.next()) {
        (Some("add"), key) => {
            let name = words.next().unwrap_or_default().to_string();
            let (number, value) = (number(key), number(words.next()));
            let record = Record {
                number,
                name,
                value,
            };
            if records.add(record) {
                return Ok(());
            }
            writeln!(out, "taken")
        }
        (Some("number"), key) => match records.by_number(number(key)) {
            Some(found) => writeln!(out, "{} {}", found.name, found.value),
            None => writeln!(out, "none"),
        },
        (Some("name"), Some(name)) => match records.by_name(name) {
            Some(found) => writeln!(out, "{} {}", found.number, found.value),
            None => writeln!(out, "none"),
        },
        _ => panic!("bad line: {line}"),
    }
}

fn run<R: Records>() -> Result<()> {
    let mut records = R::default();
    let mut out = BufWriter::with_capacity(WRITTEN, stdout().lock());
    let (mut input, mut line) = (stdin().lock(), String::new());
    while input.read_line(&mut line)? > 0 {
        answer(&mut records, line.trim_end_matches('\n'), &mut out)?;
        line.clear();
    }
    let mut sorted = records.all();
    sorted.sort_unstable_by_key(|record| record.number);
    for record in sorted {
        writeln!(out, "{} {} {}", record.number, record.name, record.value)?;
    }
    out.flush()
}

fn main() -> Result<()> {
    match std::env::args().nth(1).as_deref() {
        Some("std") => run::<ByHand<BuildHasherDefault<FoldHasher>>>(),
        Some("seeded") => run::<ByHand<RandomState>>(),
        #[cfg(feature = "beside")]
        Some("crate") => run::<of_crate::OfCrate>(),
        _ => panic!("usage: whole_by_hand std|seeded|crate"),
    }
}
