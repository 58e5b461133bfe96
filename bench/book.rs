//! An order book, in forms that one keeps in step by hand. Half of the events are new limit orders, which execute the other side, as far as the prices
//! meet, and stay with what is left; 35 % cancel an order by its number, 10 % reduce one, and 5 % read the ten best orders of each side. An order has a
//! rank, which tells how good its price is, and those of one rank are executed in the order in which they came. `bench/loops/book.rattle` is the same.
use crate::calls::sum_of;
use crate::hasher::FoldHasher;
use crate::operations::Loop;
use crate::programs::{Program, Run, event, here};
use crate::workload::{Row, Workload, mix};
use std::collections::hash_map::{Entry, RandomState};
use std::collections::{BTreeMap, BTreeSet, HashMap, VecDeque};
use std::hash::{BuildHasher, BuildHasherDefault};

/// The rank of a price on the one side and that on the other side have this sum. A lower rank is better.
const RANKS: u64 = 0x10_0000;

/// How many of the best orders are read.
const BEST: usize = 10;

/// What an order is worth of which so many are there.
fn worth(rank: u64, size: u64) -> u64 {
    rank.wrapping_mul(size)
}

/// One side of the book.
trait Side: Default {
    fn enter(&mut self, number: u64, place: (u64, u64), size: u64);
    /// Removes an order, and returns its size, or 0 if there is none.
    fn cancel(&mut self, number: u64) -> u64;
    /// Returns the size of an order.
    fn size_of(&mut self, number: u64) -> Option<&mut u64>;
    /// Executes the best orders whose ranks are at most `limit`, until `left` is bought or sold. Returns how much is left, and adds to a sum what they
    /// were worth.
    fn execute(&mut self, limit: u64, left: u64, sum: &mut u64) -> u64;
    /// Returns the ranks and the sizes of the best orders.
    fn best(&mut self) -> impl Iterator<Item = (u64, u64)>;
}

/// Takes as much of an order as is left to execute, and returns whether the order is gone.
fn take(rank: u64, size: &mut u64, left: &mut u64, sum: &mut u64) -> bool {
    let taken = *left.min(size);
    *sum = sum.wrapping_add(worth(rank, taken));
    *left -= taken;
    *size -= taken;
    *size == 0
}

/// The orders by their numbers, and their places, each with the number.
#[derive(Default)]
struct Listed<S> {
    orders: HashMap<u64, (u64, u64, u64), S>,
    places: BTreeSet<(u64, u64, u64)>,
}

impl<S: BuildHasher + Default> Side for Listed<S> {
    fn enter(&mut self, number: u64, (rank, time): (u64, u64), size: u64) {
        self.orders.insert(number, (rank, time, size));
        self.places.insert((rank, time, number));
    }

    fn cancel(&mut self, number: u64) -> u64 {
        self.orders.remove(&number).map_or(0, |(rank, time, size)| {
            self.places.remove(&(rank, time, number));
            size
        })
    }

    fn size_of(&mut self, number: u64) -> Option<&mut u64> {
        self.orders.get_mut(&number).map(|order| &mut order.2)
    }

    fn execute(&mut self, limit: u64, mut left: u64, sum: &mut u64) -> u64 {
        while left > 0
            && let Some(&(rank, _, number)) = self.places.first()
            && rank <= limit
            && let Entry::Occupied(mut order) = self.orders.entry(number)
        {
            if take(rank, &mut order.get_mut().2, &mut left, sum) {
                order.remove();
                self.places.pop_first();
            }
        }
        left
    }

    fn best(&mut self) -> impl Iterator<Item = (u64, u64)> {
        let places = self.places.iter().take(BEST);
        places.map(|(rank, _, number)| (*rank, self.orders[number].2))
    }
}

/// The orders by their places, each with its number, and their places by their numbers.
#[derive(Default)]
struct Placed<S> {
    places: HashMap<u64, (u64, u64), S>,
    orders: BTreeMap<(u64, u64), (u64, u64)>,
}

impl<S: BuildHasher + Default> Side for Placed<S> {
    fn enter(&mut self, number: u64, place: (u64, u64), size: u64) {
        self.places.insert(number, place);
        self.orders.insert(place, (number, size));
    }

    fn cancel(&mut self, number: u64) -> u64 {
        let place = self.places.remove(&number);
        let gone = place.and_then(|place| self.orders.remove(&place));
        gone.map_or(0, |(_, size)| size)
    }

    fn size_of(&mut self, number: u64) -> Option<&mut u64> {
        let order = self.orders.get_mut(self.places.get(&number)?);
        order.map(|order| &mut order.1)
    }

    fn execute(&mut self, limit: u64, mut left: u64, sum: &mut u64) -> u64 {
        while left > 0
            && let Some(mut order) = self.orders.first_entry()
            && order.key().0 <= limit
        {
            let rank = order.key().0;
            if take(rank, &mut order.get_mut().1, &mut left, sum) {
                self.places.remove(&order.remove().0);
            }
        }
        left
    }

    fn best(&mut self) -> impl Iterator<Item = (u64, u64)> {
        let orders = self.orders.iter().take(BEST);
        orders.map(|((rank, _), (_, size))| (*rank, *size))
    }
}

/// The orders by their numbers, and a queue of numbers for each rank. What was cancelled stays in its queue until it is the first one.
#[derive(Default)]
struct Queued<S> {
    orders: HashMap<u64, (u64, u64), S>,
    queues: BTreeMap<u64, VecDeque<u64>>,
}

impl<S: BuildHasher + Default> Side for Queued<S> {
    fn enter(&mut self, number: u64, (rank, _): (u64, u64), size: u64) {
        self.orders.insert(number, (rank, size));
        self.queues.entry(rank).or_default().push_back(number);
    }

    fn cancel(&mut self, number: u64) -> u64 {
        self.orders.remove(&number).map_or(0, |(_, size)| size)
    }

    fn size_of(&mut self, number: u64) -> Option<&mut u64> {
        self.orders.get_mut(&number).map(|order| &mut order.1)
    }

    fn execute(&mut self, limit: u64, mut left: u64, sum: &mut u64) -> u64 {
        while left > 0
            && let Some(mut queue) = self.queues.first_entry()
            && *queue.key() <= limit
        {
            let rank = *queue.key();
            while left > 0
                && let Some(number) = queue.get().front()
            {
                if let Entry::Occupied(mut order) = self.orders.entry(*number) {
                    if !take(rank, &mut order.get_mut().1, &mut left, sum) {
                        break;
                    }
                    order.remove();
                }
                queue.get_mut().pop_front();
            }
            if queue.get().is_empty() {
                queue.remove();
            }
        }
        left
    }

    fn best(&mut self) -> impl Iterator<Item = (u64, u64)> {
        // What is no more is not met again.
        while let Some(mut queue) = self.queues.first_entry() {
            match queue.get().front() {
                Some(number) if self.orders.contains_key(number) => break,
                Some(_) => drop(queue.get_mut().pop_front()),
                None => drop(queue.remove()),
            }
        }
        let orders = &self.orders;
        let numbers = self.queues.values().flatten();
        numbers
            .filter_map(|number| orders.get(number))
            .copied()
            .take(BEST)
    }
}

/// Sums what the events meet.
fn run<B: Side>(load: &Workload<3>, whole: bool) -> u64 {
    let mut sides = [B::default(), B::default()];
    let mut sum = 0u64;
    let rows = if whole { &load.rows[..] } else { &[] };
    for (row, time) in rows.iter().zip(1..) {
        let [kind, number, rank] = row.keys;
        let [side, other] = &mut sides;
        let (side, other) = if kind % 2 == 0 {
            (side, other)
        } else {
            (other, side)
        };
        let met = match kind {
            0 | 1 => {
                let mut worth = 0;
                let left = other.execute(RANKS - rank, row.value, &mut worth);
                if left > 0 {
                    side.enter(number, (rank, time), left);
                }
                worth
            }
            2 | 3 => side.cancel(number),
            4 | 5 => side.size_of(number).map_or(0, |size| {
                *size = size.saturating_sub(row.value).max(1);
                1
            }),
            _ => {
                let of = |side: &mut B| sum_of(side.best().map(|(rank, size)| worth(rank, size)));
                of(side).wrapping_add(of(other))
            }
        };
        sum = sum.wrapping_add(met);
    }
    sum
}

/// Draws events. Orders are cancelled and reduced that are among the last so many that were not cancelled.
fn events(number: usize, back: usize) -> Workload<3> {
    let mut there: Vec<(u64, u64)> = Vec::new();
    let mut draws = (0..).map(mix);
    let mut draw = move |below: usize| draws.next().unwrap_or_default() as usize % below;
    let mut drawn = |at: usize| {
        let kind = draw(100);
        if kind < 50 {
            let (side, number) = (draw(2) as u64, mix(at as u64 + (1 << 40)));
            there.push((side, number));
            // Prices are near each other more often than not, and some meet the other side.
            let far = draw(512).min(draw(512)) as u64;
            let rank = RANKS / 2 + far - 24;
            return event(side, [number, rank], 1 + draw(100) as u64);
        }
        if 95 <= kind || there.is_empty() {
            return event(6, [0, 0], 0);
        }
        let place = there.len() - 1 - draw(there.len().min(back));
        let (side, number) = there[place];
        if kind < 85 {
            there.swap_remove(place);
            return event(2 + side, [number, 0], 0);
        }
        event(4 + side, [number, 0], 1 + draw(100) as u64)
    };
    let rows: Vec<Row<3>> = (0..number).map(&mut drawn).collect();
    Workload::new(rows, Vec::new(), back, number)
}

type Fixed = BuildHasherDefault<FoldHasher>;

pub fn program() -> Program {
    let by_hand: [(&str, Loop<3>); 6] = [
        (
            "`HashMap`, `BTreeSet` of rank, time, number",
            run::<Listed<Fixed>>,
        ),
        ("the same with std's own hasher", run::<Listed<RandomState>>),
        (
            "`HashMap` to the place, `BTreeMap` from it",
            run::<Placed<Fixed>>,
        ),
        ("the same with std's own hasher", run::<Placed<RandomState>>),
        (
            "`HashMap`, a `VecDeque` for each price",
            run::<Queued<Fixed>>,
        ),
        ("the same with std's own hasher", run::<Queued<RandomState>>),
    ];
    let here = here! {
        "`IdHashOrdMap`, one `u64` as sort key" "book" one,
        "`IdHashOrdMap`, a pair as sort key" "book" pair,
    };
    let by_hand = by_hand.map(|(name, run)| (name, Run::ByHand(run)));
    Program {
        name: "order book",
        events,
        sizes: [(200_000, "back"), (5_000, "back")],
        forms: here.chain(by_hand).collect(),
    }
}
