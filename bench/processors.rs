//! Moves the program to the fastest processor. Where a processor shares its core with other work, of this machine or of
//! another one on the same host, a loop takes up to twice as long there.
use std::hint::black_box;
use std::sync::OnceLock;
use std::time::Instant;

/// A set of at most 1,024 processors, a bit for each of them, as Linux has it.
type Set = [u64; 16];

unsafe extern "C" {
    fn sched_getaffinity(process: i32, bytes: usize, set: *mut Set) -> i32;
    fn sched_setaffinity(process: i32, bytes: usize, set: *const Set) -> i32;
}

/// The processors that the program was started on. Once it has moved, the system lists only the one that it moved to.
static STARTED_ON: OnceLock<Vec<Set>> = OnceLock::new();

/// Lists the processors on which the program may run, each as a set of its own. The list is empty if the system does not say.
fn allowed() -> Vec<Set> {
    let mut set: Set = [0; 16];
    // SAFETY: the call writes at most as many bytes as the set has.
    let told = unsafe { sched_getaffinity(0, size_of::<Set>(), &mut set) };
    let one = |at: usize| {
        let mut one: Set = [0; 16];
        one[at / 64] = set[at / 64] & 1 << (at % 64);
        (one[at / 64] != 0).then_some(one)
    };
    let all = if told < 0 { 0 } else { 1_024 };
    (0..all).filter_map(one).collect()
}

/// Moves the program to the processor on which a short loop takes the least time.
pub fn take_fastest() {
    let processors = STARTED_ON.get_or_init(allowed);
    let times = processors.iter().map(|one| {
        move_to(one);
        (0..3).map(|_| short_loop()).min()
    });
    if let Some((_, fastest)) = times.zip(processors).min_by_key(|(time, _)| *time) {
        move_to(fastest);
    }
}

fn move_to(set: &Set) {
    // SAFETY: the call reads as many bytes as the set has. Where it fails, the program stays where it is.
    unsafe { sched_setaffinity(0, size_of::<Set>(), set) };
}

/// Returns the nanoseconds that a loop took which keeps the units of a core busy.
fn short_loop() -> u128 {
    let start = Instant::now();
    let mut sums = [1u64, 2, 3, 4];
    for _ in 0..black_box(10_000) {
        sums = sums.map(|sum| sum.rotate_left(5) ^ sum.wrapping_mul(0x9e37_79b9_7f4a_7c15));
    }
    black_box(sums);
    start.elapsed().as_nanos()
}
