//! What the written files have beside the proved text: advice for the compiler's messages, other names for the docs' search, and below a
//! file's last line the plain Rust of `lend/`.
use std::collections::BTreeSet;

/// What the compiler says where a bound on one of these traits is not met: the trait's line, the message, the note.
const ADVICE: &[(&str, &str, &str)] = &[
    (
        "pub trait Equivalent<",
        "`&{Self}` is no query for a key of type `{K}`",
        "a `&str` is a query by itself: `get2(name)`, not `get2(&name)`; a type of your own is one if it is `Equivalent<{K}>`",
    ),
    (
        "pub trait Query<",
        "`{Self}` is no query for a key of type `{K}`",
        "a query is `&key`, a `&str` for a text, a number of the key's own type, `Some(query)`, a tuple of queries, or a reference to a type that is `Equivalent<{K}>`",
    ),
    (
        "pub trait OrdQuery<",
        "`{Self}` is no query for a key of type `{K}`",
        "a query is `&key`, a `&str` for a text, a number of the key's own type, `Some(query)`, a tuple of queries, or a type of your own that is `OrdQuery<{K}>`",
    ),
    (
        "pub trait OrdSeek<",
        "`{Self}` seeks no keys of type `{K}`",
        "`Prefix(text)`, `First(&part)` and each query of `get` do: `&key`, a `&str` for a text, a number of the key's own type, `Some(query)`, a tuple of queries",
    ),
    ("pub trait IdHashItem {", "`{Self}` does not say what its key is", "write `impl IdHashItem for {Self}`, or use `Row1`"),
    ("pub trait BiHashItem {", "`{Self}` does not say what its keys are", "write `impl BiHashItem for {Self}`, or use `Row2`"),
    ("pub trait TriHashItem {", "`{Self}` does not say what its keys are", "write `impl TriHashItem for {Self}`, or use `Row3`"),
    ("pub trait IdOrdItem {", "`{Self}` does not say what its key is", "write `impl IdOrdItem for {Self}`, or use `Row1`"),
    ("pub trait SlotMap", "`{Self}` is no hash map of this crate", "`Sorted` is over one: `BiHashOrdMap<T>` is `Sorted<BiHashMap<T>>`"),
    (
        "pub trait Sortable {",
        "`{Self}` does not say what it is ordered by",
        "write `impl Sortable for {Self}`, which has to be a type of your own: `Row1`, `Row2` and `Row3` have no order",
    ),
];

/// Implementations that the compiler's messages do not propose, since they are for keys that few items have.
const NOT_PROPOSED: &[&str] = &[
    "impl<T: MakesKey<RANK>, const RANK: usize> Equivalent<",
    "impl<T: MakesKey<RANK>, const RANK: usize> Query<",
    "impl<T: MakesKey<RANK>, const RANK: usize> OrdQuery<",
];

/// Other names for calls of the maps: the calls, and what a user of std's maps looks for in the docs.
const ALIASES: &[(&str, &str)] = &[
    ("try_insert", "insert add push"),
    ("insert_overwrite", "insert replace upsert"),
    ("contains_key", "contains"),
    ("contains_key1 contains_key2 contains_key3", "contains contains_key"),
    ("get", "index"),
    ("get1 get2 get3", "get index"),
    ("get1_mut get2_mut get3_mut data1_mut data2_mut data3_mut", "get_mut"),
    ("data_mut", "get_mut"),
    ("remove1 remove2 remove3", "remove delete"),
    ("remove", "delete"),
    ("update1 update2 update3", "update modify"),
    ("update_all", "values_mut"),
    ("rekey1 rekey2 rekey3", "rekey change_key"),
    ("iter", "keys values"),
    ("pop pop_first", "drain"),
    ("extract_from", "drain extract_if"),
    ("entry", "get_or_insert_with or_default"),
    ("from_iter_unique", "try_collect"),
    ("first", "first_key_value peek"),
    ("last", "last_key_value"),
    ("matching", "prefix starts_with"),
    ("len", "size count"),
];

/// Plain Rust below the last line of a file, for what `iddqd.rs` and `traits.rs` need of its private fields: the crate, the file, what `MAP` and
/// `ITEM` begin with in the text, and the text.
const LENT: &[(&str, &str, &str, &str)] = &[
    ("iddqd_store", "item_set.rt", "", include_str!("lend/items.rs")),
    ("iddqd_order", "block.rt", "", include_str!("lend/block.rs")),
    ("iddqd_order", "row.rt", "", include_str!("lend/row.rs")),
    ("iddqd_order", "blocks.rt", "", include_str!("lend/blocks.rs")),
    ("iddqd_ord", "map.rt", "", include_str!("lend/ordered.rs")),
    ("iddqd_id", "map.rt", "IdHash", include_str!("lend/map.rs")),
    ("iddqd_bi", "map.rt", "BiHash", include_str!("lend/map.rs")),
    ("iddqd_tri", "map.rt", "TriHash", include_str!("lend/map.rs")),
];

/// The rows above that apply to no file of the maps.
pub fn unused(used: &BTreeSet<String>) -> Vec<String> {
    let files = LENT.iter().map(|(own, path, _, _)| format!("{own}/{path}"));
    let lines = ADVICE.iter().map(|it| it.0).chain(NOT_PROPOSED.iter().copied()).map(str::to_string);
    let calls = ALIASES.iter().flat_map(|it| it.0.split(' ')).map(|it| format!("pub fn {it}"));
    files.chain(lines).chain(calls).filter(|it| !used.contains(it)).collect()
}

/// The attribute with the other names of the call that a line begins.
fn aliases(line: &str, used: &mut BTreeSet<String>) -> Option<String> {
    let (_, function) = line.rsplit_once("pub fn ")?;
    let call = function.split(['(', '<']).next()?;
    let (_, names) = ALIASES.iter().find(|it| it.0.split(' ').any(|it| it == call))?;
    used.insert(format!("pub fn {call}"));
    Some(format!("#[doc(alias({}))] ", names.split(' ').map(|it| format!("{it:?}")).collect::<Vec<_>>().join(", ")))
}

/// Returns the text with all of these, and notes what applied. Each line keeps its number.
pub fn with(text: &str, own: &str, path: &str, used: &mut BTreeSet<String>) -> String {
    let mut lines: Vec<String> = text.split('\n').map(str::to_string).collect();
    for line in &mut lines {
        if let Some((of, message, note)) = ADVICE.iter().find(|it| line.contains(it.0)) {
            used.insert(of.to_string());
            line.insert_str(0, &format!("#[diagnostic::on_unimplemented(message = {message:?}, note = {note:?})] "));
        }
        if let Some(of) = NOT_PROPOSED.iter().find(|it| line.contains(**it)) {
            used.insert(of.to_string());
            line.insert_str(0, "#[diagnostic::do_not_recommend] ");
        }
        // Of a map's own calls, which stand in files of their own.
        if let Some(found) = path.starts_with("map/").then(|| aliases(line, used)).flatten() {
            line.insert_str(line.len() - line.trim_start().len(), &found);
        }
    }
    let mut text = lines.join("\n");
    if let Some((_, _, name, lent)) = LENT.iter().find(|it| it.0 == own && it.1 == path) {
        used.insert(format!("{own}/{path}"));
        text += "\n";
        text += &lent.replace("ITEM", &format!("{name}Item")).replace("MAP", &format!("{name}Map"));
    }
    text
}
