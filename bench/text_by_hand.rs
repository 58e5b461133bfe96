//! The text program as one would write it in Rust over std: `text_by_hand bi` or `text_by_hand tri` runs the lines of standard
//! input on a map kept by hand, and writes a line for each. bench/text times it beside `iddqd_run`.
//!
//! It reads one line at a time, splits it at spaces, reads a number by a loop over its digits, and writes through a buffer. It
//! has the commands that bench/text uses, and ends at a malformed line.

// bench/run uses the other calls of these modules.
#![allow(dead_code)]
mod by_hand;
mod calls;
mod hasher;
mod workload;

use by_hand::ByHand;
use calls::Map;
use std::io::{BufRead, BufWriter, Result, Write, stdin, stdout};
use workload::Row;

/// Reads a number of decimal digits.
fn number(word: &str) -> Option<u64> {
    let mut number = 0u64;
    for byte in word.bytes() {
        let digit = byte.wrapping_sub(b'0');
        if digit > 9 {
            return None;
        }
        number = number.checked_mul(10)?.checked_add(digit.into())?;
    }
    (!word.is_empty()).then_some(number)
}

/// Reads as many numbers as there are, and nothing after them.
fn numbers<'a, const M: usize>(words: impl Iterator<Item = &'a str>) -> Option<[u64; M]> {
    let mut numbers = [0; M];
    let mut read = 0;
    for word in words {
        *numbers.get_mut(read)? = number(word)?;
        read += 1;
    }
    (read == M).then_some(numbers)
}

fn write_item<const N: usize>(out: &mut impl Write, row: &Row<N>) -> Result<()> {
    write!(out, " (")?;
    for key in row.keys {
        write!(out, "{key} ")?;
    }
    write!(out, "{})", row.value)
}

fn write_found<const N: usize>(out: &mut impl Write, row: Option<&Row<N>>) -> Result<()> {
    let Some(row) = row else {
        return writeln!(out, "none");
    };
    write!(out, "item")?;
    write_item(out, row)?;
    writeln!(out)
}

/// Runs a line on a map whose items are M numbers. Returns `None` if the line is malformed.
fn run_line<const N: usize, const M: usize>(
    map: &mut ByHand<N>,
    line: &str,
    out: &mut impl Write,
) -> Option<Result<()>> {
    let mut words = line.split(' ');
    let word = words.next()?;
    Some(match word {
        "new" => {
            let item = numbers::<M>(words)?;
            let row = Row {
                keys: *item.first_chunk()?,
                value: *item.last()?,
            };
            match map.enter(row) {
                Ok(_) => writeln!(out, "ok"),
                Err(found) => write!(out, "dup")
                    .and_then(|()| map.items_of(found).try_for_each(|row| write_item(out, row)))
                    .and_then(|()| writeln!(out)),
            }
        }
        "get1" => write_found(out, map.get(numbers::<1>(words)?[0])),
        "del1" => write_found(out, map.remove(numbers::<1>(words)?[0]).as_ref()),
        "len" => {
            numbers::<0>(words)?;
            writeln!(out, "len {}", map.len())
        }
        _ => return None,
    })
}

fn run<const N: usize, const M: usize>() -> Result<()> {
    let mut map = ByHand::<N>::with_capacity(0);
    let mut out = BufWriter::new(stdout().lock());
    let (mut input, mut line) = (stdin().lock(), String::new());
    while input.read_line(&mut line)? > 0 {
        let text = line.strip_suffix('\n').unwrap_or(&line);
        run_line::<N, M>(&mut map, text, &mut out)
            .unwrap_or_else(|| panic!("bad command: {line}"))?;
        line.clear();
    }
    out.flush()
}

fn main() -> Result<()> {
    match std::env::args().nth(1).as_deref() {
        Some("bi") => run::<2, 3>(),
        Some("tri") => run::<3, 4>(),
        _ => panic!("usage: text_by_hand bi|tri"),
    }
}
