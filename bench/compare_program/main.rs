//! Draws calls on the maps of `facetweave::iddqd` and on those of the crate iddqd, and compares what each call returns and panics with,
//! and which items the maps have then: compare [CALLS [SEED]]. CALLS are the calls on each map of each kind, 40,000 by default.
//!
//! Both sides are one text, `calls.rs`, which writes what it sees as lines. Lists of items are sorted first: the order in which a map
//! has its items is not documented.
mod ours {
    use facetweave::iddqd as maps;
    include!("calls.rs");
}

mod theirs {
    use iddqd as maps;
    include!("calls.rs");
}

mod draw;

use draw::Draw;

type Calls = fn(Draw, u64, u64) -> Vec<String>;

const KINDS: [(&str, Calls, Calls); 2] = [("BiHashMap", ours::bi::calls, theirs::bi::calls), ("TriHashMap", ours::tri::calls, theirs::tri::calls)];

fn main() {
    let mut words = std::env::args().skip(1).map(|it| it.parse::<u64>().expect("CALLS and SEED are numbers"));
    let (calls, seed) = (words.next().unwrap_or(40_000), words.next().unwrap_or(1));
    // The panics of both sides are compared; nobody has to read them.
    std::panic::set_hook(Box::new(|_| {}));
    let (mut compared, mut refused, mut panicked, mut differences) = (0, 0, 0, 0);
    for (name, ours, theirs) in KINDS {
        // Few keys make conflicts, many make tables that grow.
        for keys in [5, 20, 100, 1000] {
            for seed in seed..seed + 3 {
                let (ours, theirs) = (ours(Draw::new(seed), keys, calls), theirs(Draw::new(seed), keys, calls));
                assert_eq!(ours.len(), theirs.len());
                for (number, (ours, theirs)) in ours.iter().zip(&theirs).enumerate() {
                    compared += 1;
                    refused += u64::from(ours.contains("refused"));
                    panicked += u64::from(ours.contains("panic"));
                    if ours != theirs {
                        differences += 1;
                        if differences <= 5 {
                            println!("{name}, {keys} keys, seed {seed}, call {number}:\n  here  {ours}\n  iddqd {theirs}");
                        }
                    }
                }
            }
        }
    }
    println!("{compared} calls compared, {refused} refused inserts, {panicked} panics, {differences} differences");
    std::process::exit(i32::from(differences > 0));
}
