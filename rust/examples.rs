//! Makes the examples of the docs tests of Rust. What an example leaves open, as `map` and `key`, stands before it and is not shown.

/// What an example of a crate begins with: its map, and the module whose names it uses.
const FRAMES: &[(&str, &str, &str)] = &[
    ("iddqd_store", "BiHashMap<Item>", "bi_hash_map"),
    ("iddqd_id", "IdHashMap<Item>", "id_hash_map"),
    ("iddqd_bi", "BiHashMap<Item>", "bi_hash_map"),
    ("iddqd_tri", "TriHashMap<Item>", "tri_hash_map"),
    ("iddqd_ord", "IdOrdMap<Item>", "id_ord_map"),
    ("iddqd_sorted", "BiHashOrdMap<Item>", "sorted"),
];

/// What an example names that is not in it: `M` is its map, and `K` the map's key.
const NAMES: &[(&str, &str)] = &[
    ("batch", "Vec<Item>"),
    ("data", "u64"),
    ("device", "Item"),
    ("devices", "&mut M"),
    ("difference", "&Difference<'_, Item>"),
    ("email", "String"),
    ("files", "&Files"),
    ("hosts", "&Hosts"),
    ("item", "Item"),
    ("jobs", "&mut M"),
    ("key", "K"),
    ("key1", "u32"),
    ("key2", "String"),
    ("key3", "u16"),
    ("leases", "&mut M"),
    ("map", "&mut M"),
    ("name", "String"),
    ("new", "&M"),
    ("now", "u64"),
    ("old", "&M"),
    ("person", "u32"),
    ("port", "u32"),
    ("step", "Item"),
    ("steps", "&mut M"),
    ("user", "u32"),
];

/// The examples that implement a trait: a line of each, and what stands before it.
const IMPLS: &[(&str, &str)] = &[
    ("impl IdHashItemMut for Met {", "impl IdHashItem for Met { type Key = String; fn key(&self) -> &String { &self.key } }"),
    (
        "impl BiHashItemMut for Met {",
        "impl BiHashItem for Met { type K1 = String; type K2 = String; fn key1(&self) -> &String { &self.key1 } fn key2(&self) -> &String { &self.key2 } }",
    ),
    (
        "impl TriHashItemMut for Met {",
        "impl TriHashItem for Met { type K1 = String; type K2 = String; type K3 = String; fn key1(&self) -> &String { &self.key1 } \
         fn key2(&self) -> &String { &self.key2 } fn key3(&self) -> &String { &self.key3 } }",
    ),
    ("impl IdOrdItemMut for Word {", "impl IdOrdItem for Word { type Key = String; fn key(&self) -> &String { &self.text } }"),
    (
        "impl HasData for Service {",
        "impl MakesKey<1> for Service { type Made = u32; fn make_key(&self) -> u32 { self.rack as u32 * 100 + self.bay as u32 } }",
    ),
    ("impl LendsPair<String, u32, 1> for Release {", "struct Release { name: String, number: u32 }"),
    ("impl MakesKey<1> for Header {", "struct Header { bits: u16 }"),
    ("impl MakesKey<1> for Reading {", "let reading = Reading { seconds: 300, value: 7 };\n# #[derive(Debug)]"),
    ("impl OrdQuery<u64> for Clock {", "use std::cmp::Ordering;"),
    ("impl Sortable for Session {", "struct Session { seen: u64 }"),
];

const CHANGES: &[(&str, &str)] = &[
    ("{ .. }", "{ /* .. */ }"),
    ("(alloc)", "()"),
    ("(rt.alloc())", "()"),
    (", rt.alloc())", ")"),
    ("println!(rt; ", "println!("),
    ("}\")?", "}\")"),
    ("\")?", "\")"),
    ("())?", "())"),
];

/// A line of Rattle as Rust has it. What is ghost is not shown.
fn changed(line: &str) -> String {
    if let Some((indent, ghost)) = line.split_once(" ghost ").filter(|it| matches!(it.0.trim(), "///" | "//!")) {
        return format!("{} # // ghost {}", indent.trim_end(), ghost.trim_start());
    }
    let asks = line.contains("println!(rt; ");
    CHANGES.iter().take(if asks { 8 } else { 5 }).fold(line.to_string(), |line, (old, new)| line.replace(old, new))
}

/// What stands before and behind an example.
fn frame(own: &str, example: &str) -> Option<(String, &'static str)> {
    let (_, map, module) = FRAMES.iter().find(|it| it.0 == own)?;
    let used = format!("# use facetweave::{{*, {module}::*}};\n");
    if let Some((_, before)) = IMPLS.iter().find(|it| example.contains(it.0)) {
        let result = if before.starts_with("let ") { "-> Result<(), Box<dyn std::error::Error>> " } else { "" };
        return Some((format!("{used}# fn main() {result}{{\n# {before}"), if result.is_empty() { "# }" } else { "# Ok(()) }" }));
    }
    let key = if *module == "id_hash_map" { "String" } else { "u32" };
    let result = match () {
        _ if example.contains("Refused::") => "Result<(), Refused>",
        _ if example.contains("return Err(refused") => "Result<(), Item>",
        _ if example.contains("return;") => "()",
        _ => "Result<(), Box<dyn std::error::Error>>",
    };
    let is_whole = result == "()" || result.contains("Refused") && !example.trim_end().ends_with(';');
    let words: Vec<&str> = example.split(|c: char| c != '_' && !c.is_alphanumeric()).collect();
    let names = NAMES.iter().filter(|it| words.contains(&it.0)).map(|(name, of)| format!("{name}: {}", of.replace('M', map).replace('K', key)));
    let lines = [
        "include!(concat!(env!(\"CARGO_MANIFEST_DIR\"), \"/rust/tests/common/example.rs\"));".to_string(),
        format!("fn example({}) -> {result} {{", names.collect::<Vec<_>>().join(", ")),
    ];
    Some((used + &lines.map(|it| format!("# {it}")).join("\n"), if is_whole { "# }\n# fn main() {}" } else { "# Ok(()) }\n# fn main() {}" }))
}

/// Returns the text with its examples as tests, in as many lines.
pub fn tested(text: &str, own: &str) -> String {
    let mut lines: Vec<String> = text.split('\n').map(str::to_string).collect();
    let mut at = 0;
    while at < lines.len() {
        let line = lines[at].trim_start();
        let mark = line.get(..3).unwrap_or("").to_string();
        let is_fence = |line: &str| line.trim_start().strip_prefix(&mark).is_some_and(|it| it.trim() == "```");
        let close = (at + 1..lines.len()).find(|&at| is_fence(&lines[at]));
        if line.contains("{ #![doc = \"\\n<details>") {
            at = (at..lines.len()).find(|&at| lines[at].trim_start().starts_with("#![doc = \"```")).unwrap_or(at);
        } else if let (true, Some(close)) = ((mark == "///" || mark == "//!") && matches!(line[3..].trim(), "```" | "```text"), close) {
            let indent = lines[at][..lines[at].len() - line.len()].to_string();
            for at in at + 1..close {
                lines[at] = match lines[at].trim() {
                    // An empty line behind one that is not shown.
                    "///" if lines[at - 1].contains(" # // ghost ") => format!("{indent}/// #"),
                    _ => changed(&lines[at]),
                };
            }
            let example: String = lines[at + 1..close].iter().map(|it| format!("{}\n", it.trim_start().get(4..).unwrap_or(""))).collect();
            let doc = if mark == "///" { "#" } else { "#!" };
            match frame(own, &example) {
                Some((before, behind)) => {
                    lines[at] = format!("{indent}{doc}[doc = {:?}]", format!("```\n{before}"));
                    lines[close] = format!("{indent}{doc}[doc = {:?}]", format!("{behind}\n```"));
                }
                None => lines[at] = format!("{indent}{mark} ```ignore"),
            }
            at = close;
        }
        at += 1;
    }
    lines.join("\n")
}
