//! A routing table: the route with the longest prefix of an address. The routes are in the order of the length and then of the bits of their prefixes,
//! so those of one length stand side by side.
use facetweave::{IdOrdItem, IdOrdItemMut, IdOrdMap};
use std::fmt;
use std::net::Ipv4Addr;
use std::str::FromStr;

#[derive(Clone, Copy, Debug, PartialEq, Eq, PartialOrd, Ord)]
struct Prefix {
    length: u8,
    bits: u32,
}

impl Prefix {
    fn of(address: Ipv4Addr, length: u8) -> Prefix {
        let mask = u32::MAX.checked_shl(32 - u32::from(length)).unwrap_or(0);
        Prefix { length, bits: u32::from(address) & mask }
    }
}

impl FromStr for Prefix {
    type Err = String;

    fn from_str(text: &str) -> Result<Prefix, String> {
        let (address, length) = text.split_once('/').ok_or("there is no length")?;
        let address = address.parse().map_err(|_| "there is no address")?;
        let length = length.parse::<u8>().ok().filter(|it| *it <= 32).ok_or("no such length")?;
        Ok(Prefix::of(address, length))
    }
}

impl fmt::Display for Prefix {
    fn fmt(&self, f: &mut fmt::Formatter<'_>) -> fmt::Result {
        write!(f, "{}/{}", Ipv4Addr::from(self.bits), self.length)
    }
}

struct Route {
    prefix: Prefix,
    hop: Hop,
}

struct Hop {
    gateway: Ipv4Addr,
    used: u64,
}

impl IdOrdItem for Route {
    type Key = Prefix;

    fn key(&self) -> &Prefix {
        &self.prefix
    }
}

impl IdOrdItemMut for Route {
    type Data = Hop;

    fn data_mut(&mut self) -> &mut Hop {
        &mut self.hop
    }
}

#[derive(Default)]
struct Routes(IdOrdMap<Route>);

impl Routes {
    /// Adds a route, and returns the one that it replaces.
    fn add(&mut self, prefix: &str, gateway: [u8; 4]) -> Result<Option<Route>, String> {
        let route = Route { prefix: prefix.parse()?, hop: Hop { gateway: gateway.into(), used: 0 } };
        self.0.insert_overwrite(route).map_err(|e| e.to_string())
    }

    /// Returns the gateway for an address, and counts that its route was used.
    fn gateway(&mut self, address: Ipv4Addr) -> Option<Ipv4Addr> {
        let found = (0..=32).rev().map(|length| Prefix::of(address, length)).find(|prefix| self.0.contains_key(prefix))?;
        let hop = self.0.data_mut(&found)?;
        hop.used += 1;
        Some(hop.gateway)
    }

    fn of_length(&self, length: u8) -> impl Iterator<Item = &Route> {
        let (low, high) = (Prefix { length, bits: 0 }, Prefix { length, bits: u32::MAX });
        self.0.range(&low..=&high)
    }
}

fn main() -> Result<(), String> {
    let mut routes = Routes::default();
    routes.add("0.0.0.0/0", [192, 168, 0, 1])?;
    routes.add("10.0.0.0/8", [10, 0, 0, 1])?;
    routes.add("10.1.0.0/16", [10, 1, 0, 1])?;
    if let Some(old) = routes.add("10.1.0.0/16", [10, 1, 0, 2])? {
        println!("was by {}", old.hop.gateway);
    }
    println!("{}", routes.add("10.1.0.0/40", [0; 4]).err().unwrap());

    for address in [[10, 1, 2, 3], [10, 2, 2, 3], [8, 8, 8, 8], [10, 9, 2, 3]].map(Ipv4Addr::from) {
        println!("{address} by {}", routes.gateway(address).unwrap());
    }
    for route in routes.of_length(8) {
        println!("{} by {}, used {} times", route.prefix, route.hop.gateway, route.hop.used);
    }
    let all: Vec<String> = routes.0.iter().map(|route| route.prefix.to_string()).collect();
    println!("{}", all.join(", "));
    Ok(())
}
