// The items of the examples of `Sorted`.
use facetweave::*;

#[derive(Debug, Clone, PartialEq)]
struct Job {
    id: u32,
    name: &'static str,
    seat: u16,
    time: u64,
}

fn job(id: u32, name: &'static str, time: u64) -> Job {
    Job { id, name, seat: id as u16 + 10, time }
}

impl IdHashItem for Job {
    type Key = u32;
    fn key(&self) -> &u32 {
        &self.id
    }
}

impl IdHashItemMut for Job {
    type Data = u64;
    fn data_mut(&mut self) -> &mut u64 {
        &mut self.time
    }
}

impl BiHashItem for Job {
    type K1 = u32;
    type K2 = &'static str;
    fn key1(&self) -> &u32 {
        &self.id
    }
    fn key2(&self) -> &&'static str {
        &self.name
    }
}

impl BiHashItemMut for Job {
    type Data = u64;
    fn data_mut(&mut self) -> &mut u64 {
        &mut self.time
    }
}

impl TriHashItem for Job {
    type K1 = u32;
    type K2 = &'static str;
    type K3 = u16;
    fn key1(&self) -> &u32 {
        &self.id
    }
    fn key2(&self) -> &&'static str {
        &self.name
    }
    fn key3(&self) -> &u16 {
        &self.seat
    }
}

impl TriHashItemMut for Job {
    type Data = u64;
    fn data_mut(&mut self) -> &mut u64 {
        &mut self.time
    }
}

impl Sortable for Job {
    type SortKey = u64;
    fn sort_key(&self) -> u64 {
        self.time
    }
}
