//! The eraser: each rule does what its case says, what is not known is refused with its line, and so is an unknown line at any place.
#[path = "../erase.rs"]
mod erase;

use std::collections::BTreeSet;
use std::fs;
use std::path::Path;

const CRATES: [&str; 2] = ["own", "other"];

/// Erases a text as a file of a crate that has nothing else. Each text begins with the prelude, which no case shows.
fn run(text: &str, used: &mut erase::Used) -> Result<String, (usize, String)> {
    let mut names = erase::Names::default();
    let out = erase::names(text, &mut names).and_then(|()| erase::erased(text, "own", &CRATES, &names, used));
    out.map(|it| it.replacen("use crate::rattle::prelude::*; ", "", 1)).map_err(|it| (it.line, it.why))
}

#[track_caller]
fn refuses(text: &str, line: usize, why: &str) {
    match run(text, &mut erase::Used::default()) {
        Ok(out) => panic!("it was not refused: {out}"),
        Err((at, told)) => assert!(at == line && told.contains(why), "{at}: {told}"),
    }
}

#[test]
fn each_rule_does_what_its_case_says() {
    for (rule, before, after) in erase::cases() {
        let mut used = erase::Used::default();
        let out = run(&before, &mut used).unwrap_or_else(|it| panic!("{rule:?}: {before}: {it:?}"));
        assert!(rule.iter().any(|it| used.contains(it)), "the case does not show its rule: {rule:?}");
        assert_eq!(out, after, "{rule:?}");
        assert_eq!(out.lines().count(), before.lines().count(), "{rule:?}");
    }
}

#[test]
fn contracts_and_laws_become_docs() {
    let text = "/// Adds.\npub fn add(a: u64, b: u64) -> u64\n    // It fits.\n    requires fits { a + b < 2 ^ 64 }\n    ensures { result ≡ a + b }\n{\n    a + b\n}";
    let lines = [
        "/// Adds.",
        r#"#[inline] pub fn add(a: u64, b: u64) -> u64 { #![doc = "\n<details><summary>Proved: 2 clauses</summary>\n\n```text"]"#,
        "    //! // It fits.",
        "    //! requires fits { a + b < 2 ^ 64 }",
        "    //! ensures { result ≡ a + b }",
        r#"    #![doc = "```\n\n</details>"]"#,
        "    a + b",
        "}",
    ];
    assert_eq!(run(text, &mut Default::default()), Ok(lines.join("\n")));
    let text = "trait A {\n    // A law.\n    ghost same: { x ≡ x };\n    fn f()\n        ensures { true };\n}";
    let lines = [
        r#"#[doc = "\n<details><summary>Laws</summary>\n\n```text\n// A law.\nghost same: { x ≡ x };\n```\n\n</details>"] trait A {"#,
        "    // A law.",
        "    // ghost same: { x ≡ x };",
        r#"    #[doc = "\n<details><summary>Proved: 1 clause</summary>\n\n```text\nensures { true }\n```\n\n</details>"] fn f();"#,
        "        // ensures { true };",
        "}",
    ];
    assert_eq!(run(text, &mut Default::default()), Ok(lines.join("\n")));
}

#[test]
fn ghost_items_models_and_drops_are_taken_out() {
    for taken in [
        "ghost use A.{◌≡◌};",
        "ghost law = { 1 };",
        "impl Model for X {\n    ghost Value = { Unit };\n}",
        "impl<T> Drop for X<T> {\n    fn drop(self)\n        ensures { true }\n    {\n        let X { item } = self;\n        drop(item);\n    }\n}",
    ] {
        let out = run(&format!("use other::Thing;\n{taken}"), &mut Default::default()).unwrap();
        let comments = taken.lines().map(|it| format!("{}// {}", &it[..it.len() - it.trim_start().len()], it.trim_start()));
        assert_eq!(out, format!("use crate::other::Thing;\n{}", comments.collect::<Vec<_>>().join("\n")));
    }
}

#[test]
fn what_is_not_known_is_refused() {
    refuses("fn f() {\n    x.wonder();\n}", 2, "a method of std");
    refuses("fn f() {\n    println!(rt; \"a\");\n}", 2, "a macro");
    refuses("macro_rules! x { () => {} }", 1, "an item of a kind");
    refuses("static X: u64 = 1;", 1, "an item of a kind");
    refuses("unsafe fn f() {}", 1, "an item of a kind");
    refuses("fn f() {\n    unsafe { 1 }\n}", 2, "left");
    refuses("#[repr(C)]\nstruct X { a: u64 }", 1, "an attribute");
    refuses("#[derive(Model)]\nstruct X { a: u64 }", 1, "an attribute");
    refuses("impl Strange for X {}", 1, "a trait that is not known");
    refuses("fn f() {\n    let g = |x| requires { x ≡ 1 } { x };\n}", 2, "left");
    refuses("fn f() {\n    ghost let x = 1;\n}", 2, "left");
    refuses("fn f() {\n    a ≡ b;\n}", 2, "left");
    refuses("fn f(a: Vec<u64, Global>) {}", 1, "left");
    refuses("impl Drop for X {\n    fn drop(self) { count(self) }\n}", 2, "a `Drop` that does more");
    // What an `impl Drop` does beside the drops of the fields, and an allocator that is another.
    refuses("impl Drop for X {\n    fn drop(self) {\n        self.count = 1;\n    }\n}", 3, "a `Drop` that does more");
    refuses("impl Drop for X {\n    fn drop(self) {\n        let X { a } = self;\n        drop(a.b);\n    }\n}", 4, "a `Drop` that does more");
    refuses("impl Drop for X {\n    fn drop(self) {\n        if a { drop(a); }\n    }\n}", 3, "a `Drop` that does more");
    refuses("fn allocator(&self) -> Global {\n    self.count(); self.alloc\n}", 1, "left");
    refuses("fn f() {\n    let alloc = other();\n}", 2, "left");
    refuses("impl Model for X {\n    fn f() {}\n}", 1, "a trait that is not known");
    refuses("#[repr(C)]\nimpl Model for X {}", 1, "an attribute of an item");
    refuses("fn f()\n    ensures a { b } { 1 }", 2, "a body on the line");
    refuses("fn f() ensures a { b }\n{}", 1, "a clause of a form");
    refuses("fn f() {\n    assert!(a);\n}", 2, "a macro");
    refuses("fn f() -> char {\n    'a'\n}", 2, "a character");
    refuses("fn f() {\n    (1]\n}", 2, "another kind");
    refuses("/* a */", 1, "a comment");
    refuses("fn f() {\r\n}", 1, "a carriage return");
    refuses("fn f() {", 1, "not closed");
    refuses("ghost fn f() {}", 1, "an item without");
    refuses("fn f<T>() where Vec<Drop, u8>: Eq {}", 1, "left");
    refuses("fn f() {\n    let text = r\"a\";\n}", 2, "a literal with a prefix");
    for word in erase::GONE.split_whitespace() {
        refuses(&format!("fn f() {{\n    a + {word};\n}}"), 2, "left");
    }
}

/// Lines that no file may have: in a body, and between items.
const IN_BODY: [&str; 12] = [
    "ghost let z = 1;",
    "assert!(rt; x);",
    "x.frobnicate();",
    "prove!(x == 1);",
    "let y = unsafe { 1 };",
    "a ≡ b;",
    "let f = |x| requires { x } { x };",
    "let c = 'q';",
    "x.sort_unstable_by(f);",
    "let alloc = other();",
    "let text = format!(\"a\");",
    "y(r#\"a\"#);",
];
const BETWEEN_ITEMS: [&str; 10] = [
    "static Z: u8 = 1;",
    "#[repr(C)]",
    "#[derive(Model)]",
    "macro_rules! z { () => {} }",
    "unsafe impl Send for Z {}",
    "ghost struct Z;",
    "impl Odd for Z {}",
    "extern crate std;",
    "/* a comment */",
    "impl Drop for Z { fn drop(self) { count(self) } }",
];
const PLANTS_OF_EACH: u64 = 16;

fn sources(folder: &Path, out: &mut Vec<(String, String)>) {
    let mut paths: Vec<_> = fs::read_dir(folder).unwrap().map(|it| it.unwrap().path()).collect();
    paths.sort();
    for path in paths {
        match path.extension() {
            None => sources(&path, out),
            Some(it) if it == "rt" => out.push((path.display().to_string(), fs::read_to_string(&path).unwrap())),
            Some(_) => {}
        }
    }
}

/// Draws the next number below a bound.
fn drawn(state: &mut u64, bound: usize) -> usize {
    *state = state.wrapping_mul(6_364_136_223_846_793_005).wrapping_add(1_442_695_040_888_963_407);
    (*state >> 33) as usize % bound
}

/// Whether a line of a file begins a statement of a body, or an item.
fn may_be_planted(line: &str, in_body: bool) -> bool {
    let begins = |words: &[&str], line: &str| words.iter().any(|it| line.strip_prefix(it).is_some_and(|it| it.starts_with([' ', '.', '(', '<'])));
    match line.strip_prefix("        ") {
        // A line of a contract has a bracket that it closes.
        Some(line) if in_body => begins(&["let", "if", "match", "self", "Ok", "for", "while"], line) && (!line.contains("{ ") || line.ends_with('{')),
        _ => !in_body && begins(&["pub fn", "fn", "impl", "pub struct", "struct", "pub enum"], line),
    }
}

#[test]
fn unknown_lines_at_drawn_places_are_refused() {
    let folder = Path::new(env!("CARGO_MANIFEST_DIR")).join("crates");
    let (mut files, mut names) = (Vec::new(), erase::Names::default());
    erase::CRATES.iter().for_each(|it| sources(&folder.join(it).join("src"), &mut files));
    files.iter().for_each(|it| assert!(erase::names(&it.1, &mut names).is_ok()));
    let (mut state, mut places) = (7, BTreeSet::new());
    for (in_body, plant) in IN_BODY.iter().map(|it| (true, it)).chain(BETWEEN_ITEMS.iter().map(|it| (false, it))) {
        for _ in 0..PLANTS_OF_EACH {
            let (path, mut lines, at) = loop {
                let (path, text) = &files[drawn(&mut state, files.len())];
                let lines: Vec<&str> = text.split('\n').collect();
                let spots: Vec<usize> = (0..lines.len()).filter(|&at| may_be_planted(lines[at], in_body)).collect();
                if !spots.is_empty() {
                    break (path, lines.clone(), spots[drawn(&mut state, spots.len())]);
                }
            };
            lines.insert(at, plant);
            let mut names = names.clone();
            let text = lines.join("\n");
            let refused =
                erase::names(&text, &mut names).and_then(|()| erase::erased(&text, "iddqd_bi", &erase::CRATES, &names, &mut Default::default()));
            match refused {
                Ok(_) => panic!("{path}:{}: it was not refused: {plant}", at + 1),
                // An item that such a line breaks is refused where the item begins, which may be a line or two above.
                Err(it) => assert!((at.saturating_sub(1)..=at + 1).contains(&it.line), "{path}:{}: {plant}: {}", it.line, it.why),
            }
            places.insert((path, at));
        }
    }
    assert!(places.len() > 300, "{} places", places.len());
}
