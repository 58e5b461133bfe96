//! Whole programs, each over the maps here and over what one keeps in step by hand. All forms of a program run in this process, one after the
//! other and several times, over the same events, which are drawn before, and have to return the same sum.
use crate::measure::ran;
use crate::operations::{Exported, Loop};
use crate::processors::take_fastest;
use crate::report::{circumstances, grouped, machine, print_head, print_row};
use crate::workload::{Row, Workload};
use std::hint::black_box;

/// How many events a program has.
pub const EVENTS: usize = 1_000_000;

/// Makes the events of a program from their number and from how many of something there are.
pub type Events = fn(usize, usize) -> Workload<3>;

/// How a form of a program runs.
#[derive(Clone, Copy)]
pub enum Run {
    Here(Exported<3>),
    ByHand(Loop<3>),
}

/// A program: what the head of its table calls it, its events, and how many of what these are of. Each form has a name.
pub struct Program {
    pub name: &'static str,
    pub events: Events,
    pub sizes: [(usize, &'static str); 2],
    pub forms: Vec<(&'static str, Run)>,
}

/// The forms of the maps here: as the toolchain compiles them, and if cargo built the program, as cargo does.
macro_rules! here {
    ($($name:literal $of:literal $loop:ident,)*) => {{
        let proved = [$(($name, $crate::programs::Run::Here($crate::operations::exported!($of, $loop, 3)))),*];
        #[cfg(feature = "cargo")]
        let by_cargo = [$((
            concat!($name, ", as cargo builds it"),
            $crate::programs::Run::Here($crate::operations::exported!("cargo_" $of, $loop, 3)),
        )),*];
        #[cfg(not(feature = "cargo"))]
        let by_cargo = [];
        proved.into_iter().chain(by_cargo)
    }};
}
pub(crate) use here;

/// Makes an event.
pub fn event(kind: u64, keys: [u64; 2], value: u64) -> Row<3> {
    Row {
        keys: [kind, keys[0], keys[1]],
        value,
    }
}

impl Run {
    /// Returns the nanoseconds that the form took, and its sum.
    fn time(self, load: &Workload<3>, whole: bool) -> (f64, u64) {
        let began = ran();
        let sum = black_box(match self {
            Run::Here(exported) => load.run(exported, whole),
            Run::ByHand(run) => run(load, whole),
        });
        ((ran() - began) as f64, sum)
    }
}

/// Returns the seconds of each form: the least of some runs in turn, without what prepares them.
fn seconds(program: &Program, size: usize, runs: usize) -> Vec<f64> {
    let load = (program.events)(EVENTS, size);
    let mut least = vec![[f64::MAX; 2]; program.forms.len()];
    for run in 0..runs {
        eprintln!(
            "{}, {}: run {} of {runs}",
            program.name,
            grouped(size),
            run + 1
        );
        take_fastest();
        for whole in [true, false] {
            let times = program
                .forms
                .iter()
                .map(|(_, form)| form.time(&load, whole));
            let (times, sums): (Vec<f64>, Vec<u64>) = times.unzip();
            let equal = sums.iter().all(|sum| *sum == sums[0]);
            assert!(equal, "the forms differ: {}: {sums:?}", program.name);
            for (least, took) in least.iter_mut().zip(times) {
                least[usize::from(whole)] = took.min(least[usize::from(whole)]);
            }
        }
    }
    let all = least.iter();
    all.map(|[prepared, whole]| (whole - prepared) / 1e9)
        .collect()
}

/// Prints a table for each program.
pub fn print(programs: &[Program], runs: usize) {
    let began = machine();
    let measured = programs.iter().map(|program| {
        let of_size = program
            .sizes
            .iter()
            .map(|(size, _)| seconds(program, *size, runs));
        of_size.collect::<Vec<Vec<f64>>>()
    });
    let measured: Vec<Vec<Vec<f64>>> = measured.collect();
    println!(
        "{}\n",
        circumstances(
            &began,
            &format!("the least of {runs} runs in turn, in one process")
        )
    );
    for (program, columns) in programs.iter().zip(measured) {
        let heads = program.sizes.iter().flat_map(|(size, of)| {
            [
                format!("{} {of}: s", grouped(*size)),
                "first / this".to_string(),
            ]
        });
        let name = format!("{}, {} events", program.name, grouped(EVENTS));
        print_head(name, heads.collect());
        for (at, (name, _)) in program.forms.iter().enumerate() {
            let cells = columns.iter().flat_map(|column| {
                [
                    format!("{:.3}", column[at]),
                    format!("{:.2}", column[0] / column[at]),
                ]
            });
            print_row([name.to_string()].into_iter().chain(cells));
        }
        println!();
    }
}
