//! Times loops over the maps of this repository beside the same loops over std hash maps kept by hand, in turn, in one
//! process, with the same hasher. Built by bench/beside, it has the maps of the Rust crate iddqd beside these too.
//!
//!     bench [OPTION..] [ITEMS[,ITEMS..]] [WORD]
//!
//! It prints nanoseconds an operation for all sides, and the ratio of the time here to that of each other side. With
//! WORD it times only the operations whose name contains it. Options:
//!
//!     --rounds N      repeats the whole measurement N times (3)
//!     --turns N       takes the least time of N turns in a round (20; fewer above 10,000 items)
//!     --keys N[,N]    times only the maps with N keys, which are 1, 2 or 3
//!     --beside S[,S]  times only these other sides: `std`; `slots`, at one key; and `crate`
//!     --without WORD  leaves out the operations whose name contains WORD
//!     --table         prints the ratios as tables, one for each map and each other side
//!     --page          times the rows and the sizes of docs/SPEED.md alone, and prints a table for each map
//!     --growth        prints tables of the maps here alone, of the calls that visit all items
//!     --svg FILE      writes a picture of five operations at eight sizes
//!     --memory        prints the bytes an item that the maps hold after they grew, and at most while they grow
//!     --others        times text keys, items of 128 bytes and a random seed, with two keys, and nothing else
//!     --ordered       times the ordered map beside a `BTreeMap`, and nothing else; with --memory, counts its bytes; with
//!                     --others, times it with items of 128 bytes and with text keys
//!     --sorted        times the maps with hashed keys and an order, and nothing else; with --memory, counts their bytes
//!     --cargo         times the maps as cargo builds them, which are `here` then, beside their proved build and std, and prints
//!                     the tables of docs/SPEED.md: of the hash maps, or with --ordered (and --others) or --sorted of these
//!     --whole         times whole programs, an order book and sessions that expire, as often as --rounds says; with --cargo,
//!                     over the maps of both builds
//!     --chosen        prints what keys with one home bucket cost under the default builder and a random seed
mod book;
mod by_hand;
mod calls;
mod chosen;
#[cfg(feature = "beside")]
mod crate_maps;
mod hasher;
mod loops;
mod measure;
#[cfg(feature = "counts")]
mod memory;
mod one_by_hand;
mod operations;
mod ordered;
mod ordered_others;
mod others;
mod picture;
mod processors;
mod programs;
mod report;
mod rows;
mod sessions;
mod sorted;
mod workload;

#[cfg(feature = "cargo")]
extern crate cargo_loops as _;

use measure::{Plan, print_once};
use operations::{Kind, Operation};
use report::{Map, map_name};
use rows::{OF_A_MILLION, OF_EACH, OF_TWO, OF_TWO_BY_CARGO, ON_PAGE, SIZES};

/// The name of the ordered map.
const ORDERED: &str = "IdOrdMap";

/// What the arguments ask for.
#[derive(Default)]
struct Wanted {
    plan: Plan,
    sizes: Option<Vec<usize>>,
    keys: Option<Vec<usize>>,
    beside: Option<Vec<String>>,
    word: String,
    without: Option<String>,
    table: bool,
    page: bool,
    growth: bool,
    chosen: bool,
    memory: bool,
    others: bool,
    ordered: bool,
    sorted: bool,
    cargo: bool,
    whole: bool,
    picture: Option<String>,
}

/// Returns the word after an option.
fn behind(words: &mut impl Iterator<Item = String>, option: &str) -> String {
    words
        .next()
        .unwrap_or_else(|| panic!("{option} wants a word behind it"))
}

fn number(word: &str) -> usize {
    word.parse()
        .unwrap_or_else(|_| panic!("{word} is no number"))
}

/// Reads a number of items. Some operations need ten items at least.
fn size(word: &str) -> usize {
    let items = number(word);
    assert!(items >= 10, "{word} items are too few");
    items
}

fn wanted(mut words: impl Iterator<Item = String>) -> Wanted {
    let mut wanted = Wanted::default();
    while let Some(word) = words.next() {
        match &word[..] {
            "--rounds" => wanted.plan.rounds = number(&behind(&mut words, &word)).max(1),
            "--turns" => wanted.plan.turns = number(&behind(&mut words, &word)).max(1),
            "--keys" => {
                let keys = behind(&mut words, &word);
                wanted.keys = Some(keys.split(',').map(number).collect());
            }
            "--beside" => {
                let sides = behind(&mut words, &word);
                wanted.beside = Some(sides.split(',').map(str::to_string).collect());
            }
            "--without" => wanted.without = Some(behind(&mut words, &word)),
            "--table" => wanted.table = true,
            "--page" => wanted.page = true,
            "--growth" => wanted.growth = true,
            "--chosen" => wanted.chosen = true,
            "--memory" => wanted.memory = true,
            "--others" => wanted.others = true,
            "--ordered" => wanted.ordered = true,
            "--sorted" => wanted.sorted = true,
            "--cargo" => wanted.cargo = true,
            "--whole" => wanted.whole = true,
            "--svg" => wanted.picture = Some(behind(&mut words, &word)),
            _ if word.starts_with(|c: char| c.is_ascii_digit()) => {
                wanted.sizes = Some(word.split(',').map(size).collect());
            }
            _ if word.starts_with('-') => panic!("there is no option {word}"),
            _ => wanted.word = word,
        }
    }
    wanted
}

impl Wanted {
    fn has(&self, name: &str) -> bool {
        let left_out = self
            .without
            .as_ref()
            .is_some_and(|word| name.contains(&word[..]));
        name.contains(&self.word) && !left_out
    }

    fn has_map(&self, keys: usize) -> bool {
        self.keys
            .as_ref()
            .is_none_or(|wanted| wanted.contains(&keys))
    }

    fn sizes(&self, default: &[usize]) -> Vec<usize> {
        self.sizes.clone().unwrap_or(default.to_vec())
    }

    /// Returns the operations of the hash map with N keys, or if the arguments ask for a page, those that the page shows.
    fn shown<const N: usize>(&self, mut all: Vec<Operation<N>>) -> Vec<Operation<N>> {
        let more: &[&str] = match () {
            () if N != 2 => &[],
            () if self.cargo => &OF_TWO_BY_CARGO,
            () => &OF_TWO,
        };
        let shown = [&OF_EACH[..], more].concat();
        all.retain(|it| !(self.page || self.cargo) || shown.contains(&it.name));
        all
    }

    /// Returns whether the arguments ask for another side.
    fn is_beside(&self, name: &str) -> bool {
        match &self.beside {
            Some(asked) => asked.iter().any(|it| it == name),
            None => !self.cargo || [operations::PROVED, "std"].contains(&name),
        }
    }

    /// Returns the operations of the map with N keys that the arguments ask for.
    fn picked<const N: usize>(&self, operations: Vec<Operation<N>>) -> Vec<Operation<N>> {
        let mut picked = operations;
        picked.retain(|it| {
            let is_kind = match it.kind {
                Kind::Held => false,
                Kind::All => true,
                Kind::Anew | Kind::Each | Kind::Own => !self.growth,
            };
            is_kind && self.has_map(N) && self.has(it.name)
        });
        for operation in &mut picked {
            let others = &mut operation.others;
            others.retain(|(name, _)| self.is_beside(name) && !self.growth);
        }
        // A map that has none of the sides that were asked for has no table.
        picked.retain(|it| self.beside.is_none() || !it.others.is_empty());
        picked
    }

    /// Measures a map, if there is something to measure.
    fn measured<const N: usize>(
        &self,
        name: &'static str,
        all: Vec<Operation<N>>,
        sizes: &[usize],
    ) -> Option<Map> {
        let picked = self.picked(all);
        let mut plan = self.plan;
        if self.sorted && self.sizes.is_none() {
            plan.of_a_million = &OF_A_MILLION;
        }
        let is_some = !picked.is_empty() && !sizes.is_empty();
        is_some.then(|| report::measured(name, &picked, sizes, plan))
    }

    /// Measures the maps.
    fn maps(&self, sizes: &[usize]) -> Vec<Map> {
        let hashed = || {
            vec![
                self.measured(map_name(1), self.shown(operations::one()), sizes),
                self.measured(map_name(2), self.shown(operations::two()), sizes),
                self.measured(map_name(3), self.shown(operations::three()), sizes),
            ]
        };
        let ordered = |operations| vec![self.measured(ORDERED, operations, sizes)];
        let sorted = || {
            vec![
                self.measured(sorted::NAMES[0], sorted::one(), sizes),
                self.measured(sorted::NAMES[1], sorted::two(), sizes),
                self.measured(sorted::NAMES[2], sorted::three(), sizes),
            ]
        };
        let all = match () {
            () if self.ordered && self.others => ordered(ordered_others::operations()),
            () if self.ordered => ordered(ordered::operations()),
            () if self.sorted => sorted(),
            () if self.others => vec![self.measured(map_name(2), others::operations(), sizes)],
            () => hashed(),
        };
        all.into_iter().flatten().collect()
    }

    /// Measures the maps, and prints their figures.
    fn print(&self) {
        let sizes = self.sizes(match () {
            () if self.growth => &[1_000, 10_000, 100_000, 1_000_000],
            () if self.page => &ON_PAGE,
            () if self.ordered && self.others => &ordered_others::SIZES,
            () if self.sorted => &sorted::SIZES,
            () if self.ordered || self.cargo => &ordered::SIZES,
            () => &SIZES,
        });
        let began = report::machine();
        let maps = self.maps(&sizes);
        println!("{}\n", report::circumstances(&began, &self.plan.said()));
        if self.growth {
            maps.iter().for_each(|map| map.print_times());
        } else if self.table || self.page || self.cargo {
            report::print_table(&maps, self.page || self.cargo);
        } else {
            maps.iter().for_each(|map| map.print_text());
        }
    }
}

unsafe extern "C" {
    safe fn mallopt(parameter: i32, value: i32) -> i32;
}

/// Lets glibc's malloc keep all memory that is freed, and ask the system for no block by itself. So no row depends on
/// what the rows before it freed. The processes of `Kind::Anew` do not call this.
fn keep_memory() {
    const M_TRIM_THRESHOLD: i32 = -1;
    const M_MMAP_MAX: i32 = -4;
    assert!(mallopt(M_TRIM_THRESHOLD, -1) == 1 && mallopt(M_MMAP_MAX, 0) == 1);
}

/// Runs one loop once, for a process that `measure` has started.
fn run_once(words: &mut impl Iterator<Item = String>) {
    fn once<const N: usize>(all: Vec<Operation<N>>, words: [String; 4]) {
        let [name, items, side, whole] = words;
        let found = all.iter().find(|operation| operation.name == name);
        let found = found.unwrap_or_else(|| panic!("there is no operation {name}"));
        print_once(found, number(&items), &side, whole == "true");
    }
    let keys = behind(words, "--once");
    let words = std::array::from_fn(|_| behind(words, "--once"));
    match &keys[..] {
        "1" => once(operations::one(), words),
        "2" => once(operations::two(), words),
        _ => once(operations::three(), words),
    }
}

#[cfg(feature = "counts")]
fn print_memory(wanted: &Wanted) {
    let sizes = wanted.sizes(match () {
        () if wanted.ordered => &ordered::SIZES[..],
        () if wanted.sorted => &sorted::SIZES,
        () => &memory::SIZES,
    });
    if wanted.ordered {
        let columns = memory::columns(ORDERED, &ordered::operations(), &sizes);
        return memory::print(&columns, &sizes);
    }
    let mut columns = Vec::new();
    let (names, one, two, three) = if wanted.sorted {
        (sorted::NAMES, sorted::one(), sorted::two(), sorted::three())
    } else {
        let names = [1, 2, 3].map(map_name);
        (
            names,
            operations::one(),
            operations::two(),
            operations::three(),
        )
    };
    if wanted.has_map(1) {
        columns.extend(memory::columns(names[0], &one, &sizes));
    }
    if wanted.has_map(2) {
        columns.extend(memory::columns(names[1], &two, &sizes));
    }
    if wanted.has_map(3) {
        columns.extend(memory::columns(names[2], &three, &sizes));
    }
    memory::print(&columns, &sizes);
}

#[cfg(not(feature = "counts"))]
fn print_memory(_: &Wanted) {
    panic!("--memory needs a program that counts, which bench/run and bench/beside build for it");
}

fn main() {
    let mut words = std::env::args().skip(1).peekable();
    if words.next_if(|word| word == "--once").is_some() {
        run_once(&mut words);
        return;
    }
    keep_memory();
    let wanted = wanted(words);
    for key in 0..100 {
        assert_eq!(
            hasher::hash(key),
            operations::hash(key),
            "the hashers differ"
        );
    }
    if let Some(file) = &wanted.picture {
        let sizes = wanted.sizes(&picture::SIZES);
        let drawn = picture::draw(&sizes, wanted.plan);
        std::fs::write(file, drawn).unwrap_or_else(|error| panic!("{file}: {error}"));
        return;
    }
    if wanted.memory {
        print_memory(&wanted);
        return;
    }
    if wanted.chosen {
        chosen::print();
        return;
    }
    let has_loops = !(wanted.cargo && wanted.others) || wanted.ordered;
    assert!(
        wanted.cargo == cfg!(feature = "cargo") && has_loops,
        "--cargo needs the program that bench/run and bench/beside build for it, which of --others has the loops of --ordered alone"
    );
    if wanted.whole {
        let mut all = vec![book::program(), sessions::program()];
        all.retain_mut(|program| {
            let of = program.name;
            program
                .forms
                .retain(|(name, _)| wanted.has(&format!("{of}: {name}")));
            !program.forms.is_empty()
        });
        programs::print(&all, wanted.plan.rounds);
        return;
    }
    wanted.print();
}
