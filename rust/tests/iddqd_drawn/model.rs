//! A list of items, which the maps of two and three keys are compared with.
use crate::item::Item;

const SAME: [fn(&Item, &Item) -> bool; 3] = [|a, b| a.0 == b.0, |a, b| a.1 == b.1, |a, b| a.2 == b.2];

// A list of items, of which no two have one of the first `keys` keys in common.
pub struct Model {
    pub items: Vec<Item>,
    pub keys: usize,
}

impl Model {
    pub fn by(&mut self, key: usize, x: &Item) -> Option<&mut Item> {
        self.items.iter_mut().find(|it| SAME[key](it, x))
    }
    pub fn unique(&mut self, x: &Item) -> Option<&mut Item> {
        let keys = self.keys;
        self.items.iter_mut().find(|it| SAME[..keys].iter().all(|same| same(it, x)))
    }
    // The items that have one of the keys, each once, in the order of the keys.
    pub fn conflicts(&mut self, x: &Item) -> Vec<Item> {
        let mut found: Vec<Item> = Vec::new();
        for key in 0..self.keys {
            let it = self.by(key, x).cloned();
            found.extend(it.filter(|it| !found.contains(it)));
        }
        found
    }
    pub fn take(&mut self, gone: &[Item]) {
        self.items.retain(|it| !gone.contains(it));
    }
    pub fn sorted(&self) -> Vec<Item> {
        let mut items = self.items.clone();
        items.sort();
        items
    }
}
