//! The symbols of a compiler: by scope and name, and by address. A name may hide that of an outer scope; an address is given once.
use facetweave::{BiHashItem, BiHashMap};

#[derive(Debug)]
struct Symbol {
    /// The scope and the name in it.
    place: (u32, String),
    address: u64,
    kind: &'static str,
}

impl BiHashItem for Symbol {
    type K1 = (u32, String);
    type K2 = u64;

    fn key1(&self) -> &(u32, String) {
        &self.place
    }

    fn key2(&self) -> &u64 {
        &self.address
    }
}

#[derive(Default)]
struct Symbols {
    all: BiHashMap<Symbol>,
    open: Vec<u32>,
    scopes: u32,
}

impl Symbols {
    fn enter(&mut self) {
        self.scopes += 1;
        self.open.push(self.scopes);
    }

    /// Leaves the innermost scope, whose symbols are dropped.
    fn leave(&mut self) {
        let left = self.open.pop();
        self.all.retain(|symbol| Some(symbol.place.0) != left);
    }

    fn define(&mut self, name: &str, address: u64, kind: &'static str) -> Result<(), String> {
        let scope = *self.open.last().ok_or("no scope is open")?;
        let symbol = Symbol { place: (scope, name.to_string()), address, kind };
        // The error of `insert_unique` lends the symbols that are in the way.
        self.all.insert_unique(symbol).map_err(|e| {
            let others: Vec<String> = e.duplicates().iter().map(|it| format!("{} at {:#x}", it.place.1, it.address)).collect();
            format!("{name} at {address:#x} conflicts with {}", others.join(" and "))
        })
    }

    /// Finds a name in the innermost scope that has it. The query is a pair of a number and a text, so no `String` is made.
    fn find(&self, name: &str) -> Option<&Symbol> {
        self.open.iter().rev().find_map(|&scope| self.all.get1((scope, name)))
    }
}

fn main() -> Result<(), String> {
    let mut symbols = Symbols::default();
    println!("{}", symbols.define("x", 0x1000, "u8").unwrap_err());
    symbols.enter();
    symbols.define("x", 0x1000, "u8")?;
    symbols.define("main", 0x2000, "fn")?;
    symbols.enter();
    symbols.define("x", 0x1008, "u64")?;
    println!("{}", symbols.define("x", 0x2000, "u16").unwrap_err());
    println!("{}", symbols.define("y", 0x2000, "u16").unwrap_err());

    println!("x is a {}", symbols.find("x").unwrap().kind);
    println!("main is a {}", symbols.find("main").unwrap().kind);
    println!("at 0x1000 is {:?}", symbols.all.get2(0x1000).unwrap().place);
    symbols.leave();
    println!("x is a {}", symbols.find("x").unwrap().kind);
    println!("at 0x1008 is {:?}", symbols.all.get2(0x1008));
    println!("{} symbols are left", symbols.all.len());
    Ok(())
}
