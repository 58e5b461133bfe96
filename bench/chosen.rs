//! Times the map with two keys and keys that an attacker chose to slow it down. The default builder has a fixed seed,
//! so such keys can be found for it. A random seed makes them harmless, and costs time itself.
use crate::hasher;
use crate::operations::{Exported, exported};
use crate::processors::take_fastest;
use crate::report;
use crate::workload::{Row, Workload, rows};
use std::hint::black_box;
use std::time::Instant;

/// The number of items in a map.
const ITEMS: usize = 20_000;

/// The number of cells of a table that is made for so many items. The lowest bits of a hash give its home bucket.
const CELLS: u64 = 65_536;

/// How often each loop is timed, in turn with what prepares it. The least times count.
const TURNS: usize = 20;

/// Returns the rows with other first keys, which all have the same home bucket with the default builder.
fn of_one_home(rows: &[Row<2>]) -> Vec<Row<2>> {
    let keys = (0..).filter(|key| hasher::hash(*key) % CELLS == 0);
    rows.iter()
        .zip(keys)
        .map(|(row, key)| Row {
            keys: [key, row.keys[1]],
            ..*row
        })
        .collect()
}

/// Returns nanoseconds for each item, without what prepares the loop.
fn time(exported: Exported<2>, rows: &[Row<2>]) -> f64 {
    let load = Workload::new(rows.to_vec(), rows.to_vec(), ITEMS, ITEMS).reserved(ITEMS);
    take_fastest();
    let mut least = [f64::INFINITY; 2];
    for _ in 0..TURNS {
        for whole in [false, true] {
            let began = Instant::now();
            black_box(load.run(exported, whole));
            let of_kind = &mut least[whole as usize];
            *of_kind = of_kind.min(began.elapsed().as_secs_f64());
        }
    }
    let [prepared, all] = least;
    (all - prepared).max(0.0) * 1e9 / ITEMS as f64
}

/// Prints a table of the times for each item.
pub fn print() {
    let began = report::machine();
    let spread = rows::<2>(0, ITEMS);
    let together = of_one_home(&spread);
    let items = report::grouped(ITEMS);
    let mut lines = Vec::new();
    let loops: [(&str, Exported<2>, Exported<2>); 2] = [
        (
            "insert with room",
            exported!("bi", insert, 2),
            exported!("bi", insert_seeded, 2),
        ),
        (
            "look-up, hit",
            exported!("bi", get, 2),
            exported!("bi", get_seeded, 2),
        ),
    ];
    for (name, default, seeded) in loops {
        for (keys, rows) in [
            ("spread keys", &spread),
            ("keys of one home bucket", &together),
        ] {
            let (here, there) = (time(default, rows), time(seeded, rows));
            lines.push(format!("| {name}, {keys} | {here:.0} | {there:.0} |"));
        }
    }
    let how = format!("the least of {TURNS} turns was taken");
    println!("{}\n", report::circumstances(&began, &how));
    println!("| {items} items, nanoseconds an item | default builder | random seed |");
    println!("|---|---|---|\n{}", lines.join("\n"));
}
