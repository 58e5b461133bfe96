//! A plain list of items, which does by a walk over all items what a map does.
use super::item::{Shown, sort_key};

/// In what order a map shows its items.
#[derive(Clone, Copy, PartialEq, Debug)]
pub enum Order {
    None,
    /// By the first key.
    Key,
    /// By the sort key, and by the first key where sort keys are equal.
    Sort,
}

impl Order {
    fn place(self, item: &Shown) -> (u64, u64) {
        match self {
            Order::None => (0, 0),
            Order::Key => (0, item.0[0]),
            Order::Sort => (sort_key(item.1), item.0[0]),
        }
    }
}

/// The items of a map with so many keys, in the map's order where it has one.
#[derive(Clone, Debug)]
pub struct List {
    pub items: Vec<Shown>,
    pub width: usize,
    pub order: Order,
}

impl List {
    pub fn new(width: usize, order: Order) -> List {
        List { items: Vec::new(), width, order }
    }

    /// Where the item is that has this key.
    pub fn at(&self, rank: usize, key: u64) -> Option<usize> {
        self.items.iter().position(|it| it.0[rank] == key)
    }

    pub fn get(&self, rank: usize, key: u64) -> Option<Shown> {
        self.at(rank, key).map(|at| self.items[at])
    }

    /// The item that has all the keys.
    pub fn unique(&self, keys: [u64; 3]) -> Option<usize> {
        self.at(0, keys[0]).filter(|&at| (0..self.width).all(|rank| self.items[at].0[rank] == keys[rank]))
    }

    /// Which of the item's keys are taken.
    pub fn taken(&self, item: &Shown) -> [bool; 3] {
        std::array::from_fn(|rank| rank < self.width && self.at(rank, item.0[rank]).is_some())
    }

    /// The items that have one of the item's keys, in the order of its keys.
    pub fn conflicts(&self, item: &Shown) -> Vec<Shown> {
        let mut out = Vec::new();
        for found in (0..self.width).filter_map(|rank| self.get(rank, item.0[rank])) {
            if !out.contains(&found) {
                out.push(found);
            }
        }
        out
    }

    pub fn add(&mut self, item: Shown) {
        let place = self.order.place(&item);
        let at = match self.order {
            Order::None => self.items.len(),
            order => self.items.partition_point(|it| order.place(it) < place),
        };
        self.items.insert(at, item);
    }

    pub fn take(&mut self, at: usize) -> Shown {
        if self.order == Order::None { self.items.swap_remove(at) } else { self.items.remove(at) }
    }

    /// Puts an item in the place of those that conflict with it, which it returns.
    pub fn overwrite(&mut self, item: Shown) -> Vec<Shown> {
        let gone = self.conflicts(&item);
        self.items.retain(|it| !gone.contains(it));
        self.add(item);
        gone
    }

    /// Changes the data of an item.
    pub fn write(&mut self, at: usize, data: u64) {
        let item = self.take(at);
        self.add((item.0, data));
    }

    /// The items for which `f` says yes leave.
    pub fn extract(&mut self, f: impl Fn(&Shown) -> bool) -> Vec<Shown> {
        let gone = self.items.iter().filter(|it| f(it)).copied().collect();
        self.items.retain(|it| !f(it));
        gone
    }

    /// Brings items that were put in at once into the map's order.
    pub fn sort(&mut self) {
        let order = self.order;
        self.items.sort_by_key(|it| order.place(it));
    }

    /// The items as a map shows them, without an order sorted in some way.
    pub fn shown(&self) -> Vec<Shown> {
        self.in_order(self.items.clone())
    }

    /// Items that a map gave in its order, to compare them with those of a list.
    pub fn in_order(&self, mut items: Vec<Shown>) -> Vec<Shown> {
        if self.order == Order::None {
            items.sort();
        }
        items
    }
}
