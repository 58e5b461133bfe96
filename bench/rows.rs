//! The sizes and the rows that are timed, by what the arguments ask for.

/// The numbers of items. The load of a table of std is then 0.59, 0.87, 0.49, 0.85, 0.61, 0.61, 0.85, 0.87 and 0.76.
pub const SIZES: [usize; 9] = [
    600, 890, 1_000, 3_500, 10_000, 20_000, 28_000, 57_000, 100_000,
];

/// The sizes that docs/SPEED.md shows.
pub const ON_PAGE: [usize; 6] = [600, 1_000, 3_500, 20_000, 57_000, 100_000];

/// The rows that docs/SPEED.md shows for each map, and those that it shows for the map with two keys too.
pub const OF_EACH: [&str; 10] = [
    "insert without room",
    "insert with room",
    "look-up, hit",
    "look-up, miss",
    "removal",
    "removal and insert",
    "iter",
    "retain half",
    "clone",
    "reserve, as many again, new process",
];
pub const OF_TWO: [&str; 22] = [
    "insert without room, new process",
    "insert, refused",
    "look-up, hit, reserved",
    "look-up, miss, reserved",
    "look-up, waits for the last",
    "get_unique",
    "look-up and write",
    "rekey1",
    "overwrite, one a key",
    "overwrite, same keys",
    "or_insert, vacant",
    "or_insert, occupied",
    "for, by value",
    "update_all",
    "retain, 1 in 64 goes",
    "pop_from, all",
    "extract_from, half",
    "clear",
    "equality",
    "shrink_to_fit, half went",
    "reserve, as many again",
    "extend_unique",
];

/// The rows that --cargo shows for the map with two keys too.
pub const OF_TWO_BY_CARGO: [&str; 8] = [
    "insert, refused",
    "look-up and write",
    "rekey1",
    "overwrite, same keys",
    "or_insert, vacant",
    "for, by value",
    "update_all",
    "pop_from, all",
];

/// The rows of the maps with hashed keys and an order that are timed with a million items, if the arguments name no sizes.
pub const OF_A_MILLION: [&str; 9] = [
    "look-up, hit",
    "insert without room",
    "insert at the end",
    "collect",
    "removal",
    "replace, same sort key",
    "touch, drawn",
    "touch, filled in order",
    "pop_to, all",
];
