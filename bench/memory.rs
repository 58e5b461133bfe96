//! Counts the bytes of the heap that a map holds after it grew, one item after the other, and the most that it had while
//! it grew.
//!
//! The program has its own malloc here, which all sides call, and which passes each request on to glibc. A block
//! counts with the bytes that glibc says it can use. A block that grows counts with its old and its new bytes for that
//! moment, as if it moved, whether it does or not.
use crate::operations::{Kind, Operation};
use crate::report::{grouped, print_head, print_row};
use crate::workload::MARK;
use std::ffi::c_void;
use std::ptr::null_mut;
use std::sync::atomic::{AtomicUsize, Ordering::Relaxed};

/// The numbers of items.
pub const SIZES: [usize; 8] = [600, 890, 1_000, 3_500, 10_000, 20_000, 57_000, 100_000];

static HELD: AtomicUsize = AtomicUsize::new(0);
static PEAK: AtomicUsize = AtomicUsize::new(0);
static MARKED: AtomicUsize = AtomicUsize::new(0);

unsafe extern "C" {
    fn __libc_malloc(size: usize) -> *mut c_void;
    fn __libc_calloc(number: usize, size: usize) -> *mut c_void;
    fn __libc_realloc(block: *mut c_void, size: usize) -> *mut c_void;
    fn __libc_free(block: *mut c_void);
    fn malloc_usable_size(block: *mut c_void) -> usize;
}

/// Counts a new block.
fn counted(block: *mut c_void) -> *mut c_void {
    let size = unsafe { malloc_usable_size(block) };
    PEAK.fetch_max(HELD.fetch_add(size, Relaxed) + size, Relaxed);
    block
}

fn discount(size: usize) {
    HELD.fetch_sub(size, Relaxed);
}

#[unsafe(no_mangle)]
extern "C" fn malloc(size: usize) -> *mut c_void {
    if size == MARK {
        MARKED.store(HELD.load(Relaxed), Relaxed);
        return null_mut();
    }
    counted(unsafe { __libc_malloc(size) })
}

#[unsafe(no_mangle)]
extern "C" fn calloc(number: usize, size: usize) -> *mut c_void {
    counted(unsafe { __libc_calloc(number, size) })
}

#[unsafe(no_mangle)]
unsafe extern "C" fn realloc(block: *mut c_void, size: usize) -> *mut c_void {
    let before = unsafe { malloc_usable_size(block) };
    let moved = unsafe { __libc_realloc(block, size) };
    if !moved.is_null() {
        counted(moved);
        discount(before);
    }
    moved
}

#[unsafe(no_mangle)]
unsafe extern "C" fn free(block: *mut c_void) {
    discount(unsafe { malloc_usable_size(block) });
    unsafe { __libc_free(block) }
}

/// Returns the bytes that a map holds at the mark of a loop that grows it, and the most that it held until then.
fn bytes(grow: impl FnOnce() -> u64) -> [f64; 2] {
    let before = HELD.load(Relaxed);
    PEAK.store(before, Relaxed);
    assert_eq!(grow(), 1, "an insert failed, or the mark did not");
    [&MARKED, &PEAK].map(|bytes| (bytes.load(Relaxed) - before) as f64)
}

/// Returns two numbers divided by two others.
fn divided(bytes: [f64; 2], by: [f64; 2], digits: usize) -> String {
    let [held, peak] = [bytes[0] / by[0], bytes[1] / by[1]];
    format!("{held:.digits$} ({peak:.digits$})")
}

/// A column of a table: its head, and its cells.
pub type Column = (String, Vec<String>);

/// Returns the columns of the map with this name, for each operation that grows it: its bytes an item, and their ratio to
/// those of each other side.
pub fn columns<const N: usize>(
    name: &str,
    operations: &[Operation<N>],
    sizes: &[usize],
) -> Vec<Column> {
    let held = operations.iter().filter(|it| it.kind == Kind::Held);
    held.flat_map(|grow| {
        let order = grow.name.strip_prefix("bytes").unwrap_or_default();
        columns_of(format!("`{name}`{order}"), grow, sizes)
    })
    .collect()
}

fn columns_of<const N: usize>(head: String, grow: &Operation<N>, sizes: &[usize]) -> Vec<Column> {
    // The bytes of the crate's map with one key are those of the slots, which stand for it.
    let others = grow.others.iter();
    let others = others.filter(|(name, _)| N > 1 || *name != "crate");
    let names = others.clone().map(|(name, _)| format!("to {name}"));
    let heads = [head].into_iter().chain(names);
    let mut columns: Vec<Column> = heads.map(|head| (head, Vec::new())).collect();
    for items in sizes {
        let load = (grow.load)(*items);
        let here = bytes(|| load.run(grow.exported, true));
        columns[0].1.push(divided(here, [*items as f64; 2], 0));
        for ((_, run), (_, cells)) in others.clone().zip(&mut columns[1..]) {
            let there = run.map(|run| bytes(|| run(&load, true)));
            cells.push(there.map_or("-".to_string(), |there| divided(here, there, 2)));
        }
    }
    columns
}

pub fn print(columns: &[Column], sizes: &[usize]) {
    let heads = columns.iter().map(|(head, _)| head.clone()).collect();
    print_head("bytes an item, held (at most)".to_string(), heads);
    for (at, items) in sizes.iter().enumerate() {
        let cells = columns.iter().map(|(_, cells)| cells[at].clone());
        print_row([grouped(*items)].into_iter().chain(cells));
    }
    println!();
}
