//! Measures the times of loops, in rounds.
use crate::operations::{Kind, Operation};
use crate::processors::take_fastest;
use crate::workload::Workload;
use std::process::Command;

/// How often the operations are measured.
#[derive(Clone, Copy)]
pub struct Plan {
    /// How often the whole measurement is made.
    pub rounds: usize,
    /// The number of turns in a round, of which the least time counts, for up to 10,000 items.
    pub turns: usize,
    /// The operations that alone are timed with a million items and more. If there are none, all are.
    pub of_a_million: &'static [&'static str],
}

/// How many nanoseconds the turns of a round take before it ends, if one was made.
const LONG: f64 = 5e8;

impl Default for Plan {
    fn default() -> Plan {
        Plan {
            rounds: 3,
            turns: 20,
            of_a_million: &[],
        }
    }
}

impl Plan {
    fn turns(&self, items: usize) -> usize {
        let part = match items {
            0..=10_000 => 1,
            10_001..=30_000 => 2,
            30_001..=110_000 => 4,
            _ => 20,
        };
        (self.turns / part).max(1)
    }

    /// Returns whether an operation is timed with so many items.
    fn has(&self, operation: &str, items: usize) -> bool {
        items < 1_000_000 || self.of_a_million.is_empty() || self.of_a_million.contains(&operation)
    }

    /// Says how often the operations are measured.
    pub fn said(&self) -> String {
        let rounds = match self.rounds {
            1 => "one round, in which".to_string(),
            rounds => format!("the medians of {rounds} rounds, in each of which"),
        };
        let fewer = "fewer above 10,000 items, and where they take half a second";
        format!(
            "{rounds} the least of {} turns was taken ({fewer})",
            self.turns
        )
    }
}

/// The median, the lowest and the highest of the rounds.
pub struct Spread {
    pub median: f64,
    pub lowest: f64,
    pub highest: f64,
}

/// Returns `None` if there are no figures.
fn spread(mut figures: Vec<f64>) -> Option<Spread> {
    figures.sort_by(f64::total_cmp);
    let (lowest, highest) = (*figures.first()?, *figures.last()?);
    let middle = figures.len() / 2;
    let below = (figures.len() - 1) / 2;
    Some(Spread {
        median: (figures[below] + figures[middle]) / 2.0,
        lowest,
        highest,
    })
}

/// Nanoseconds an operation, one figure for each round: first here, and then of each other side that has the operation.
pub struct Figures(Vec<Option<Vec<f64>>>);

impl Figures {
    fn new<const N: usize>(operation: &Operation<N>) -> Figures {
        let others = operation.others.iter();
        let others = others.map(|(_, run)| run.map(|_| Vec::new()));
        Figures([Some(Vec::new())].into_iter().chain(others).collect())
    }

    fn of(&self, side: usize) -> &[f64] {
        self.0[side].as_deref().unwrap_or(&[])
    }

    /// Returns the median of a side, which is 0 for the maps here, or NaN if the side has none.
    pub fn time(&self, side: usize) -> f64 {
        spread(self.of(side).to_vec()).map_or(f64::NAN, |times| times.median)
    }

    /// Returns the ratios of the times here to those of another side, or `None` if noise was larger than the figures of
    /// each round.
    pub fn ratio(&self, side: usize) -> Option<Spread> {
        let rounds = self.of(0).iter().zip(self.of(side));
        let sound = rounds.filter(|(here, other)| **here > 0.0 && **other > 0.0);
        spread(sound.map(|(here, other)| here / other).collect())
    }

    /// Returns whether a side has the operation, and it was timed.
    pub fn has(&self, side: usize) -> bool {
        !self.of(side).is_empty()
    }
}

/// The name of the maps here, beside those of the other sides.
const HERE: &str = "here";

/// Seconds and nanoseconds, as Linux has them.
#[repr(C)]
struct Time([i64; 2]);

unsafe extern "C" {
    fn clock_gettime(clock: i32, time: *mut Time) -> i32;
}

/// Returns the nanoseconds that this thread has run. What a processor does for other work meanwhile does not count.
pub extern "C" fn ran() -> u64 {
    const OF_THIS_THREAD: i32 = 3;
    let mut time = Time([0; 2]);
    // SAFETY: the call writes one time.
    let told = unsafe { clock_gettime(OF_THIS_THREAD, &mut time) };
    assert_eq!(told, 0, "the system tells no time");
    (1_000_000_000 * time.0[0] + time.0[1]) as u64
}

/// Runs the loop of a side, and returns the nanoseconds that it took, and its sum.
fn time<const N: usize>(
    operation: &Operation<N>,
    load: &Workload<N>,
    side: &str,
    whole: bool,
) -> (f64, u64) {
    let mut others = operation.others.iter();
    let start = ran();
    let sum = match others.find(|(name, _)| *name == side) {
        Some((_, run)) => run.expect("the side has the operation")(load, whole),
        None => load.run(operation.exported, whole),
    };
    ((ran() - start) as f64, sum)
}

/// Times the loop of a side, and prints what `time` returns.
pub fn print_once<const N: usize>(operation: &Operation<N>, items: usize, side: &str, whole: bool) {
    let (took, sum) = time(operation, &(operation.load)(items), side, whole);
    println!("{took} {sum}");
}

/// Returns what `time` returns in a process of its own.
fn time_anew<const N: usize>(
    operation: &Operation<N>,
    items: usize,
    side: &str,
    whole: bool,
) -> (f64, u64) {
    let program = std::env::current_exe().expect("the program has a path");
    let (keys, items, whole) = (N.to_string(), items.to_string(), whole.to_string());
    let words = ["--once", &keys, operation.name, &items, side, &whole];
    let said = Command::new(program).args(words).output();
    let said = String::from_utf8(said.expect("the program runs again").stdout);
    let said = said.expect("it prints text");
    let figures = said.trim().split_once(' ');
    let (took, sum) = figures.expect("it prints a time and a sum");
    (
        took.parse().expect("a time"),
        sum.parse().expect("a number"),
    )
}

/// How many turns a round makes before it looks for the fastest processor again.
const TURNS_IN_PLACE: usize = 5;

/// Measures one round of an operation. The sides take turns, and have to return the same sums.
fn round<const N: usize>(
    operation: &Operation<N>,
    items: usize,
    plan: Plan,
    figures: &mut Figures,
) {
    let load = (operation.load)(items);
    let others = operation.others.iter();
    let others = others.filter_map(|(name, run)| run.map(|_| *name));
    let sides: Vec<&str> = [HERE].into_iter().chain(others).collect();
    // The least times of each side: of what prepares the loop, and of the whole loop.
    let mut least = vec![[f64::MAX; 2]; sides.len()];
    let mut spent = 0.0;
    for turn in 0..plan.turns(items) {
        if LONG < spent {
            break;
        }
        if turn % TURNS_IN_PLACE == 0 {
            take_fastest();
        }
        for whole in [true, false] {
            let mut sums = Vec::new();
            for (side, least) in sides.iter().zip(&mut least) {
                let (took, sum) = match operation.kind {
                    Kind::Anew => time_anew(operation, items, side, whole),
                    Kind::Own if whole => (time(operation, &load, side, whole).1 as f64, 0),
                    _ => time(operation, &load, side, whole),
                };
                least[usize::from(whole)] = took.min(least[usize::from(whole)]);
                spent += took;
                sums.push(sum);
            }
            let equal = sums.iter().all(|sum| *sum == sums[0]);
            assert!(equal, "the sides differ: {}: {sums:?}", operation.name);
        }
    }
    for (figures, [prepared, whole]) in figures.0.iter_mut().flatten().zip(least) {
        let prepared = match operation.kind {
            Kind::Own => 0.0,
            _ => prepared,
        };
        figures.push((whole - prepared) / load.operations as f64);
    }
}

/// Returns the figures of each operation at each size.
pub fn measure<const N: usize>(
    operations: &[Operation<N>],
    sizes: &[usize],
    plan: Plan,
) -> Vec<Vec<Figures>> {
    let none = |operation| sizes.iter().map(|_| Figures::new(operation)).collect();
    let mut figures: Vec<Vec<Figures>> = operations.iter().map(none).collect();
    for made in 1..=plan.rounds {
        for (at, items) in sizes.iter().copied().enumerate() {
            eprintln!("{N} keys, {items} items: round {made} of {}", plan.rounds);
            let timed = operations.iter().zip(&mut figures);
            for (operation, figures) in timed.filter(|it| plan.has(it.0.name, items)) {
                round(operation, items, plan, &mut figures[at]);
            }
        }
    }
    figures
}
