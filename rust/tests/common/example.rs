// What the examples of the docs name.
use facetweave::shared::ItemSet;

#[derive(Debug, Clone, PartialEq)]
struct Item {
    serial: u32,
    name: String,
    port: u16,
    until: u64,
    data: u64,
}

type Step = Item;
type Port = u32;
type Person = u32;
type Files = IdOrdMap<Row1<(u32, String), ()>>;
type Hosts = IdOrdMap<Row1<String, ()>>;

enum Refused {
    Taken(Item),
    Full(Item),
    Key(Item),
    Key1(Item),
    Key2(Item),
    Key3(Item),
    Memory(Item),
}

impl Item {
    fn new(serial: u32, name: &str) -> Item {
        Item { serial, name: name.into(), port: 0, until: 0, data: 0 }
    }
}

#[derive(Debug)]
struct User(String);

impl User {
    fn new(name: &str) -> User {
        User(name.into())
    }
}

impl IdHashItem for User {
    type Key = String;
    fn key(&self) -> &String {
        &self.0
    }
}

impl IdHashItem for Item {
    type Key = String;
    fn key(&self) -> &String {
        &self.name
    }
}

impl IdHashItemMut for Item {
    type Data = u64;
    fn data_mut(&mut self) -> &mut u64 {
        &mut self.data
    }
}

impl BiHashItem for Item {
    type K1 = u32;
    type K2 = String;
    fn key1(&self) -> &u32 {
        &self.serial
    }
    fn key2(&self) -> &String {
        &self.name
    }
}

impl BiHashItemMut for Item {
    type Data = u64;
    fn data_mut(&mut self) -> &mut u64 {
        &mut self.data
    }
}

impl TriHashItem for Item {
    type K1 = u32;
    type K2 = String;
    type K3 = u16;
    fn key1(&self) -> &u32 {
        &self.serial
    }
    fn key2(&self) -> &String {
        &self.name
    }
    fn key3(&self) -> &u16 {
        &self.port
    }
}

impl TriHashItemMut for Item {
    type Data = u64;
    fn data_mut(&mut self) -> &mut u64 {
        &mut self.data
    }
}

impl IdOrdItem for Item {
    type Key = u32;
    fn key(&self) -> &u32 {
        &self.serial
    }
}

impl IdOrdItemMut for Item {
    type Data = u64;
    fn data_mut(&mut self) -> &mut u64 {
        &mut self.data
    }
}

impl Sortable for Item {
    type SortKey = u64;
    fn sort_key(&self) -> u64 {
        self.until
    }
}
