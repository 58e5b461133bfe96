//! `test_calls` of tests/programs, whose other texts `rust/lines/run` writes in Rust: it answers lines by calls of the maps as cargo builds
//! them.
#![allow(warnings)]

/// A text as the programs make one, which may fail in Rattle.
macro_rules! format {
    ($($text:tt)*) => {
        Ok::<String, facetweave::AllocError>(std::format!($($text)*))
    };
}

mod iddqd_commands;
mod iddqd_commands_bi;
mod iddqd_commands_tri;
mod test_calls_bi;
mod test_calls_id;
mod test_calls_ord;
mod test_calls_shared;
mod test_calls_sorted;
mod test_calls_tri;

use facetweave::FoldHasher;
use std::fs::File;
use std::hash::BuildHasherDefault;
use std::io::{BufRead, BufReader, Write};
use std::process::ExitCode;
use test_calls_shared::answer::shown;
use test_calls_shared::builder::{Alike, Builder, Largest, Own};
use test_calls_shared::gauge::Gauge;
use test_calls_shared::line::line_of;
use test_calls_shared::table::{Table, filled};

fn main() -> ExitCode {
    let words: Vec<String> = std::env::args().skip(1).collect();
    let is_run = match &words[..] {
        [kind, builder, told] => chosen(kind, builder, told == "costs"),
        _ => false,
    };
    if is_run {
        return ExitCode::SUCCESS;
    }
    eprintln!("usage: test_calls [id|bi|tri][_ord] own|zero|max|default answers|costs, or ord none");
    ExitCode::from(2)
}

fn chosen(kind: &str, builder: &str, tells: bool) -> bool {
    match builder {
        "own" => of_kind::<Own>(kind, tells),
        "zero" => of_kind::<Alike>(kind, tells),
        "max" => of_kind::<Largest>(kind, tells),
        "default" => of_kind::<BuildHasherDefault<FoldHasher>>(kind, tells),
        "none" if kind == "ord" => run::<test_calls_ord::Called>(tells),
        _ => false,
    }
}

fn of_kind<S: Builder>(kind: &str, tells: bool) -> bool {
    match kind {
        "id" => run::<test_calls_id::Called<S>>(tells),
        "bi" => run::<test_calls_bi::Called<S>>(tells),
        "tri" => run::<test_calls_tri::Called<S>>(tells),
        "id_ord" => run::<test_calls_sorted::One<S>>(tells),
        "bi_ord" => run::<test_calls_sorted::Two<S>>(tells),
        "tri_ord" => run::<test_calls_sorted::Three<S>>(tells),
        _ => false,
    }
}

fn run<M: Table>(tells: bool) -> bool {
    let mut gauge = Gauge::new().unwrap();
    let mut map = filled::<M>(&gauge, 0, None).unwrap();
    // Rust's own standard input and output keep a buffer that is never freed, which the allocator that counts would tell.
    let mut out = File::options().append(true).open("/dev/stdout").unwrap();
    for text in BufReader::new(File::open("/dev/stdin").unwrap()).lines() {
        let text = text.unwrap();
        let line = line_of(&text).unwrap();
        if let Some((items, room)) = line.begins {
            map = filled::<M>(&gauge, items, room).unwrap();
        }
        gauge.refuse(line.refused);
        let reply = match line.call {
            "items" => map.listed().unwrap(),
            _ => match map.carry_out(&mut gauge, &line).unwrap() {
                Some(answer) => shown(&answer, M::WIDTH).unwrap(),
                None => "no such call".to_string(),
            },
        };
        let [length, capacity] = map.state();
        if tells {
            let costs = gauge.costs().unwrap();
            writeln!(out, "{text}: {reply}; {costs}; {length} of {capacity}").unwrap();
        } else {
            writeln!(out, "{text}: {reply}; {length} of {capacity}").unwrap();
        }
    }
    drop(map);
    writeln!(out, "end: {} keys left", gauge.alive()).unwrap();
    true
}
