//! The rows that the loops take: with mixed keys, and in orders that no branch predictor has seen.

/// An item with N keys and a value, laid out as in `bench/loops`.
#[repr(C)]
#[derive(Clone, Copy, PartialEq)]
pub struct Row<const N: usize> {
    pub keys: [u64; N],
    pub value: u64,
}

/// The rows of one operation.
pub struct Workload<const N: usize> {
    /// The rows that fill the maps.
    pub rows: Vec<Row<N>>,
    /// Rows that are asked for, or inserted later.
    pub asked: Vec<Row<N>>,
    /// The number of items in a map, or how often something is repeated.
    pub number: usize,
    /// How many items a map has spare capacity for before it is filled. With 0 it grows as it is filled.
    pub room: usize,
    /// The number of operations that are timed in all.
    pub operations: usize,
}

impl<const N: usize> Workload<N> {
    pub fn new(rows: Vec<Row<N>>, asked: Vec<Row<N>>, number: usize, operations: usize) -> Self {
        Workload {
            rows,
            asked,
            number,
            room: 0,
            operations,
        }
    }

    /// Returns the same rows for maps with spare capacity for so many items.
    pub fn reserved(self, items: usize) -> Self {
        Workload {
            room: items,
            ..self
        }
    }
}

pub fn mix(x: u64) -> u64 {
    let x = x.wrapping_mul(0x9E37_79B9_7F4A_7C15);
    let x = (x ^ (x >> 30)).wrapping_mul(0xBF58_476D_1CE4_E5B9);
    let x = (x ^ (x >> 27)).wrapping_mul(0x94D0_49BB_1331_11EB);
    x ^ (x >> 31)
}

/// Returns the rows with these numbers. No two rows have a key in common.
pub fn rows<const N: usize>(from: usize, to: usize) -> Vec<Row<N>> {
    let key = |rank: usize, i: usize| mix(((rank as u64 + 1) << 40) + i as u64);
    (from..to)
        .map(|i| Row {
            keys: std::array::from_fn(|rank| key(rank, i)),
            value: 0,
        })
        .collect()
}

pub fn shuffled<T: Clone>(list: &[T], seed: usize) -> Vec<T> {
    let mut list = list.to_vec();
    for i in (1..list.len()).rev() {
        let other = mix(((seed as u64) << 32) + i as u64) % (i as u64 + 1);
        list.swap(i, other as usize);
    }
    list
}

/// Makes a text of so many digits, which a number tells, as `bench/loops` does.
pub fn digits(number: u64, len: usize) -> String {
    let mut text = String::with_capacity(len);
    let mut rest = number;
    for _ in 0..len {
        rest = rest
            .wrapping_mul(0x5851_F42D_4C95_7F2D)
            .wrapping_add(0x1405_7B7E_F767_814F);
        text.push(char::from(b'0' + ((rest >> 33) % 10) as u8));
    }
    text
}

/// Returns how many maps are filled, so that one loop takes about as long at each size up to 10,000. A million items take seconds.
fn rounds(items: usize) -> usize {
    (20_000 / items).max(if items < 500_000 { 2 } else { 1 })
}

/// Returns how often each item of one map is asked for.
fn orders(items: usize) -> usize {
    let rounds = rounds(items);
    if rounds == 1 { 1 } else { 2 * rounds }
}

/// One map, whose items are asked for in many orders.
pub fn asked_again<const N: usize>(items: usize) -> Workload<N> {
    let rows = rows(0, items);
    let orders = (0..orders(items)).flat_map(|round| shuffled(&rows, round));
    let asked: Vec<Row<N>> = orders.collect();
    let operations = asked.len();
    Workload::new(rows, asked, 0, operations)
}

/// One map, and rows with keys that it does not have.
pub fn missed<const N: usize>(items: usize) -> Workload<N> {
    let operations = items * orders(items);
    let asked = rows(items, items + operations);
    Workload::new(rows(0, items), asked, 0, operations)
}

/// One map, and rows of which it has the last key.
pub fn taken<const N: usize>(items: usize) -> Workload<N> {
    let mut load = asked_again(items);
    let fresh = rows::<N>(items, items + load.asked.len());
    for (row, fresh) in load.asked.iter_mut().zip(fresh) {
        row.keys[..N - 1].copy_from_slice(&fresh.keys[..N - 1]);
    }
    load
}

/// One map, and pairs of rows: one that is in the map by then, and one that is not.
pub fn exchanged<const N: usize>(items: usize) -> Workload<N> {
    let new = rows(items, items * (rounds(items) + 1));
    let mut there = rows(0, items);
    let mut asked = Vec::with_capacity(2 * new.len());
    for (round, new) in new.chunks(items).enumerate() {
        for (old, new) in shuffled(&there, round).iter().zip(new) {
            asked.extend([*old, *new]);
        }
        there = new.to_vec();
    }
    Workload::new(rows(0, items), asked, 0, new.len())
}

/// One map, and an operation on all of its items that is repeated.
pub fn repeated<const N: usize>(items: usize) -> Workload<N> {
    // An iteration is short in comparison with the inserts that prepare it, so it is repeated often.
    let number = (4_000_000 / items).clamp(20, 80);
    Workload::new(rows(0, items), Vec::new(), number, items * number)
}

/// Several maps, with this many items each.
pub fn fresh<const N: usize>(items: usize) -> Workload<N> {
    let operations = items * rounds(items);
    Workload::new(rows(0, operations), Vec::new(), items, operations)
}

/// Returns how many copies of a map with this many items a loop changes, as in `bench/loops`.
pub fn copies(items: usize) -> usize {
    (items / 10_000).clamp(1, 4)
}

/// Several maps, of which clones are changed.
pub fn copied<const N: usize>(items: usize) -> Workload<N> {
    let mut load = fresh::<N>(items);
    load.operations *= copies(items);
    load
}

/// Several maps, compared with maps of the same items in another order, as often as there are copies.
pub fn compared<const N: usize>(items: usize) -> Workload<N> {
    let mut load = reordered::<N>(items);
    load.operations *= copies(items);
    load
}

/// Several maps, each with half of the items, to which as many are added.
pub fn doubled<const N: usize>(items: usize) -> Workload<N> {
    let mut load = fresh::<N>(items);
    load.operations /= 2;
    load
}

/// Several maps, and the items of each in another order.
pub fn reordered<const N: usize>(items: usize) -> Workload<N> {
    let mut load = fresh::<N>(items);
    let parts = load.rows.chunks(items);
    load.asked = parts.flat_map(|rows| shuffled(rows, 1)).collect();
    load
}

/// Several maps, and half of the items of each. The operations are counted by the items that are left in the clones.
pub fn halved<const N: usize>(items: usize) -> Workload<N> {
    let mut load = fresh::<N>(items);
    let parts = load.rows.chunks(items);
    let halves = parts.flat_map(|rows| shuffled(rows, 1).into_iter().take(items / 2));
    load.asked = halves.collect();
    load.operations -= load.asked.len();
    load.operations *= copies(items);
    load
}

/// Several maps, and rows that take each key from another item of a map, so that each conflicts with N items.
pub fn crossed<const N: usize>(items: usize) -> Workload<N> {
    let mut load = fresh::<N>(items);
    for rows in load.rows.chunks(items) {
        let others = shuffled(rows, 1);
        let over = |found: &[Row<N>]| Row {
            keys: std::array::from_fn(|rank| found[rank].keys[rank]),
            value: 0,
        };
        load.asked.extend(others.chunks_exact(N).map(over));
    }
    load.operations = load.asked.len();
    load
}

/// Several maps, where the last item of each has the last key of the first item.
pub fn spoiled<const N: usize>(items: usize) -> Workload<N> {
    let mut load = fresh::<N>(items);
    for rows in load.rows.chunks_mut(items) {
        let first = rows[0].keys[N - 1];
        rows[items - 1].keys[N - 1] = first;
    }
    load
}

/// A loop that grows a map asks for so many bytes while the map has all items. Where bytes are counted, the request
/// fails.
pub const MARK: usize = 1_000_003;

/// One map.
pub fn grown<const N: usize>(items: usize) -> Workload<N> {
    Workload::new(rows(0, items), Vec::new(), MARK, items)
}
