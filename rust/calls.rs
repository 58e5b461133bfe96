//! The examples of the maps, of their calls and of the traits of items, which the docs show and `cargo test` runs: a file of `calls/` has
//! those of a map's calls, each below the call's name, and one has those of types and traits.

/// The examples of a map's calls.
struct Calls {
    own: &'static str,
    /// What stands in a file that has calls of the map.
    mark: &'static str,
    /// What each example begins with.
    head: &'static str,
    examples: &'static str,
    /// What is written otherwise, of the examples and of a call's name.
    changes: &'static [(&'static str, &'static str)],
}

const fn calls(own: &'static str, mark: &'static str, head: &'static str, examples: &'static str) -> Calls {
    Calls { own, mark, head, examples, changes: &[] }
}

const fn sorted(mark: &'static str, changes: &'static [(&'static str, &'static str)]) -> Calls {
    Calls { own: "iddqd_sorted", mark, head: JOBS, examples: include_str!("calls/sorted.txt"), changes }
}

const ITEMS: &str = include_str!("calls/items.txt");

const JOBS: &str = "# include!(concat!(env!(\"CARGO_MANIFEST_DIR\"), \"/rust/tests/common/job.rs\"));
// Jobs by their ids, names and seats, in the order of their times: `job(id, name, time)`.";

const CALLS: &[Calls] = &[
    calls("iddqd_id", "> IdHashMap<T", "use facetweave::{IdHashMap, Row1};", include_str!("calls/id.txt")),
    calls("iddqd_bi", "> BiHashMap<T", "use facetweave::{BiHashMap, Row2};", include_str!("calls/bi.txt")),
    calls("iddqd_tri", "> TriHashMap<T", "use facetweave::{TriHashMap, Row3};", include_str!("calls/tri.txt")),
    calls("iddqd_ord", "> IdOrdMap<T", "use facetweave::{IdOrdMap, Row1};", include_str!("calls/ord.txt")),
    sorted("> Sorted<M", &[]),
    sorted(
        "> Sorted<IdHashMap<T",
        &[
            ("BiHashOrdMap", "IdHashOrdMap"),
            ("get1", "get"),
            ("contains_key1", "contains_key"),
            ("remove1", "remove"),
            ("rekey1", "rekey"),
            ("update1", "update"),
        ],
    ),
    sorted("> Sorted<BiHashMap<T", &[]),
    sorted("> Sorted<TriHashMap<T", &[("BiHashOrdMap", "TriHashOrdMap")]),
];

/// The lines below a name in brackets, until the next one.
fn below<'a>(examples: &'a str, name: &str) -> Option<Vec<&'a str>> {
    let (_, example) = examples.split_once(&format!("\n[{name}]\n"))?;
    Some(example.lines().take_while(|it| !it.starts_with('[')).collect())
}

/// The example for a call, as docs on the function's line. The first line of the examples stands before each that has no map of its own, and
/// what an example uses before that.
fn example(name: &str, writes: bool, calls: &Calls) -> Option<String> {
    let examples = calls.changes.iter().fold(calls.examples.to_string(), |text, (old, new)| text.replace(old, new));
    let lines = below(&examples, name)?;
    let (uses, rest) = lines.split_at(lines.iter().take_while(|it| it.starts_with("use ")).count());
    let map = examples.lines().next().filter(|_| !rest.iter().any(|it| it.starts_with("let map"))).unwrap_or_default();
    let map = if writes { map.to_string() } else { map.replacen("let mut ", "let ", 1) };
    let main = "# fn main() -> Result<(), Box<dyn std::error::Error>> {";
    let mut all = vec!["", "```", calls.head];
    all.extend(uses);
    all.extend([main, &map].into_iter().filter(|it| !it.is_empty()));
    all.extend(rest);
    all.extend(["# Ok(())", "# }", "```"]);
    Some(format!("#[doc = {:?}] ", all.join("\n")))
}

/// Returns the text with an example before each call, each map and each trait of items. Each line keeps its number.
pub fn shown(text: &str, own: &str) -> String {
    let mut lines: Vec<String> = text.split('\n').map(str::to_string).collect();
    for line in &mut lines {
        let item = line.rsplit_once("pub trait ").or(line.rsplit_once("pub struct "));
        let name = item.and_then(|it| it.1.split(|c: char| !c.is_alphanumeric()).next());
        if let Some(found) = name.and_then(|it| below(ITEMS, it)) {
            line.insert_str(0, &format!("#[doc = {:?}] ", format!("\n```\n{}\n```", found.join("\n"))));
        }
    }
    let Some(calls) = CALLS.iter().find(|it| it.own == own && text.contains(it.mark)) else { return lines.join("\n") };
    for at in 0..lines.len() {
        let function = lines[at].strip_prefix("    ").map(|it| it.trim_start_matches("#[inline] ")).and_then(|it| it.strip_prefix("pub fn "));
        let Some(name) = function.and_then(|it| it.split(['(', '<']).next()) else { continue };
        let writes = lines[at..].iter().find(|it| it.contains("self")).is_some_and(|it| it.contains("&mut self"));
        if let Some(found) = example(name, writes, calls) {
            lines[at].insert_str(4, &found);
        }
    }
    lines.join("\n")
}
