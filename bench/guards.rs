//! What the calls of `facetweave::iddqd` take beside those of the crate's own traits: bench/guards builds and runs this program.
//!
//! Both sides have the same items, with a number and a text of 20 bytes as keys, and one builder of hashers, std's with a random seed. A
//! write adds 1 to an item's data: there through a guard, and here through the data that `data_mut` lends. The sides take turns, and
//! each turn of both has to give the same sum. It prints a table with its first argument in the head. A ratio is that of the least times: the
//! calls of `facetweave::iddqd` take longer where it is above 1. `get2` takes a text, and all else a number.
mod processors;
#[allow(dead_code)]
mod workload;

use facetweave::iddqd::{self, bi_upcast, id_upcast};
use facetweave::{BiHashItem, BiHashItemMut, IdHashItem, IdHashItemMut, IdOrdItem, IdOrdItemMut};
use std::hash::RandomState;
use workload::{mix, shuffled};

const SIZES: [usize; 2] = [1_000, 30_000];

/// The number of calls in a turn.
const CALLS: usize = 60_000;

const TURNS: usize = 30;

#[derive(Clone)]
struct User {
    id: u64,
    name: String,
    logins: u64,
}

/// The crate's own traits: a key is a field.
macro_rules! own {
    ($($item:ident $writes:ident: $($key_type:ident $type:ident $key:ident $field:ident),*;)*) => {
        $(
            impl $item for User {
                $(
                    type $key_type = $type;

                    fn $key(&self) -> &$type {
                        &self.$field
                    }
                )*
            }

            impl $writes for User {
                type Data = u64;

                fn data_mut(&mut self) -> &mut u64 {
                    &mut self.logins
                }
            }
        )*
    };
}

own! {
    IdHashItem IdHashItemMut: Key u64 key id;
    BiHashItem BiHashItemMut: K1 u64 key1 id, K2 String key2 name;
    IdOrdItem IdOrdItemMut: Key u64 key id;
}

impl iddqd::IdHashItem for User {
    type Key<'a> = u64;

    fn key(&self) -> u64 {
        self.id
    }

    id_upcast!();
}

impl iddqd::BiHashItem for User {
    type K1<'a> = u64;
    type K2<'a> = &'a str;

    fn key1(&self) -> u64 {
        self.id
    }

    fn key2(&self) -> &str {
        &self.name
    }

    bi_upcast!();
}

impl iddqd::IdOrdItem for User {
    type Key<'a> = u64;

    fn key(&self) -> u64 {
        self.id
    }

    id_upcast!();
}

/// A loop over a map, which returns a sum of what its calls met.
type Loop = Box<dyn FnMut(&[User]) -> u64>;

fn looped<M: 'static>(mut map: M, call: impl Fn(&mut M, &User) -> Option<u64> + 'static) -> Loop {
    Box::new(move |asked| {
        let met = asked.iter().map(|user| call(&mut map, user).unwrap_or(0));
        met.fold(0, u64::wrapping_add)
    })
}

/// The name of a call, the loop over the crate's own map, and that over the map of `facetweave::iddqd`.
type Row = (&'static str, Loop, Loop);

fn added(data: &mut u64) -> u64 {
    *data += 1;
    *data
}

/// Makes a map of the users by a call that inserts one.
fn filled<M>(mut map: M, users: &[User], insert: impl Fn(&mut M, User) -> bool) -> M {
    assert!(users.iter().all(|user| insert(&mut map, user.clone())), "no two users have a key in common");
    map
}

/// Makes the loops of a call on maps of these names, with the same hashers.
macro_rules! hashed {
    ($name:literal, $map:ident, $users:ident, $hashers:ident, |$own:ident, $guarded:ident, $user:ident| $here:expr, $there:expr) => {{
        let own = facetweave::$map::<User>::with_hasher($hashers.clone());
        let guarded = iddqd::$map::<User>::with_hasher($hashers.clone());
        let own = filled(own, $users, |map, user| map.try_insert(user).is_ok());
        let guarded = filled(guarded, $users, |map, user| map.insert_unique(user).is_ok());
        ($name, looped(own, |$own, $user| $here), looped(guarded, |$guarded, $user| $there))
    }};
}

/// Makes the loops of a call on ordered maps.
macro_rules! ordered {
    ($name:literal, $users:ident, |$own:ident, $guarded:ident, $user:ident| $here:expr, $there:expr) => {{
        let own = filled(facetweave::IdOrdMap::<User>::new(), $users, |map, user| map.try_insert(user).is_ok());
        let guarded = filled(iddqd::IdOrdMap::<User>::new(), $users, |map, user| map.insert_unique(user).is_ok());
        ($name, looped(own, |$own, $user| $here), looped(guarded, |$guarded, $user| $there))
    }};
}

fn rows(users: &[User]) -> Vec<Row> {
    let hashers = RandomState::new();
    vec![
        hashed!("`get1`", BiHashMap, users, hashers, |map, guarded, user| Some(map.get1(&user.id)?.logins), Some(guarded.get1(&user.id)?.logins)),
        hashed!(
            "`get2`",
            BiHashMap,
            users,
            hashers,
            |map, guarded, user| Some(map.get2(&user.name)?.logins),
            Some(guarded.get2(&user.name[..])?.logins)
        ),
        hashed!(
            "a write, one key",
            IdHashMap,
            users,
            hashers,
            |map, guarded, user| Some(added(map.data_mut(&user.id)?)),
            Some(added(&mut guarded.get_mut(user.id)?.logins))
        ),
        hashed!(
            "a write, two keys",
            BiHashMap,
            users,
            hashers,
            |map, guarded, user| Some(added(map.data1_mut(&user.id)?)),
            Some(added(&mut guarded.get1_mut(user.id)?.logins))
        ),
        ordered!("ordered `get`", users, |map, guarded, user| Some(map.get(&user.id)?.logins), Some(guarded.get(&user.id)?.logins)),
        ordered!(
            "an ordered write",
            users,
            |map, guarded, user| Some(added(map.data_mut(&user.id)?)),
            Some(added(&mut guarded.get_mut(user.id)?.logins))
        ),
    ]
}

/// Seconds and nanoseconds, as Linux has them.
#[repr(C)]
struct Time([i64; 2]);

unsafe extern "C" {
    fn clock_gettime(clock: i32, time: *mut Time) -> i32;
}

/// Returns the nanoseconds that this thread has run.
fn ran() -> i64 {
    const OF_THIS_THREAD: i32 = 3;
    let mut time = Time([0; 2]);
    // SAFETY: the call writes one time.
    let told = unsafe { clock_gettime(OF_THIS_THREAD, &mut time) };
    assert_eq!(told, 0, "the system tells no time");
    1_000_000_000 * time.0[0] + time.0[1]
}

/// Returns the least nanoseconds a call, of either side.
fn least((name, own, guarded): &mut Row, asked: &[User]) -> [f64; 2] {
    let mut least = [i64::MAX; 2];
    for turn in 0..TURNS {
        if turn % 5 == 0 {
            processors::take_fastest();
        }
        let sums = [(0, &mut *own), (1, &mut *guarded)].map(|(side, run)| {
            let began = ran();
            let sum = run(asked);
            least[side] = least[side].min(ran() - began);
            sum
        });
        assert_eq!(sums[0], sums[1], "the sides differ: {name}");
    }
    least.map(|time| time as f64 / asked.len() as f64)
}

fn main() {
    let head = std::env::args().nth(1).unwrap_or_default();
    let mut lines = Vec::new();
    for items in SIZES {
        let user = |at: usize| User { id: mix(at as u64), name: format!("{:020}", mix(at as u64 + (1 << 40))), logins: at as u64 };
        let users: Vec<User> = (0..items).map(user).collect();
        let orders = (0..CALLS / items).flat_map(|round| shuffled(&users, round));
        let (asked, mut rows): (Vec<User>, Vec<Row>) = (orders.collect(), rows(&users));
        if lines.is_empty() {
            let names: Vec<&str> = rows.iter().map(|(name, _, _)| *name).collect();
            lines.push(format!("| {head} | {} |\n|---|{}", names.join(" | "), "---|".repeat(rows.len())));
        }
        let cell = |row: &mut Row| {
            let [own, guarded] = least(row, &asked);
            format!(" {:.2} ({own:.0} ns) |", guarded / own)
        };
        let grouped = format!("{},{:03}", items / 1_000, items % 1_000);
        lines.push(format!("| {grouped} items |{}", rows.iter_mut().map(cell).collect::<String>()));
    }
    println!("{}", lines.join("\n"));
}
