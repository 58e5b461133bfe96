//! Makes plain Rust of proved Rattle text, line by line: line 12 of `insert.rt` is line 12 of `insert.rs`. A contract becomes docs at
//! its own lines, and other lines that have no meaning at run time become comments. What is no Rust is erased by the table of rules
//! and by the kind of its item (`items.rs`). All else stays as it is, and what is not in the lists below is refused, with file and line.
use std::collections::BTreeSet;

#[path = "erase/file.rs"]
mod file;
#[path = "erase/items.rs"]
mod items;
#[path = "erase/known.rs"]
mod known;
#[path = "erase/lines.rs"]
mod lines;
#[path = "erase/rules.rs"]
mod rules;
#[path = "erase/tokens.rs"]
mod tokens;

/// The crates of the maps, whose modules the one crate has.
pub const CRATES: [&str; 7] = ["iddqd_store", "iddqd_order", "iddqd_id", "iddqd_bi", "iddqd_tri", "iddqd_ord", "iddqd_sorted"];

/// The table of rules, each with its case. Its head says how a rule is written.
const RULES: &str = include_str!("erase/rules.txt");

/// What an `impl Drop` may do, by its statements: take the value apart and drop what it has, as the drops of its fields do.
const DROP_STATEMENTS: &[&str] = &["let ◌ {…} = self", "let error = self . into_error ( )", "drop ( ◌ )"];

/// The words of attributes.
const ATTRIBUTES: &str = "Clone Copy Debug Eq Hash Ord PartialEq PartialOrd always cold derive inline never";

const MACROS: &str = "core::assert matches unreachable write";

/// The traits of std that an `impl` may have, beside those of the crates.
const TRAITS: &str = "Clone Debug Default Deref Display DoubleEndedIterator Emptied Eq Error ExactSizeIterator Extend From FromIterator
    FusedIterator Hash IntoIterator Iterator Ord PartialEq PartialOrd";

/// The methods of std that a body may call: each was read beside Rust's own, and does the same.
const METHODS: &str = include_str!("std/methods.txt");

/// Words that have to be gone. Nor may a letter be left that is not ASCII.
pub const GONE: &str =
    "Allocator Drop Global MadeWith Model alloc allocator async ensures extern ghost macro_rules prove requires static tactic union unsafe";

/// Words of Rust behind which a `!` negates.
const BEFORE_NOT: &str = "if";

/// The functions and traits that the crates define, which a body may call and an `impl` may name, as `fn get`.
pub type Names = BTreeSet<String>;

/// The rules that applied somewhere, and the words of the lists above that occur somewhere.
pub type Used = BTreeSet<String>;

/// Why a text is refused, and at which of its lines.
pub struct Refusal {
    pub line: usize,
    pub why: String,
}

type Outcome<T> = Result<T, Refusal>;

fn refuse<T>(line: usize, why: impl Into<String>) -> Outcome<T> {
    Err(Refusal { line, why: why.into() })
}

fn has(list: &str, word: &str) -> bool {
    list.split_whitespace().any(|it| it == word)
}

/// What stands in the docs before the lines of a contract, which a page shows folded.
fn fold(title: &str) -> String {
    format!("\n<details><summary>{title}</summary>\n\n```text")
}

/// What stands behind them.
const FOLD_END: &str = "```\n\n</details>";

/// Collects the names that a file defines.
pub fn names(text: &str, into: &mut Names) -> Outcome<()> {
    let all: Vec<tokens::Token> = tokens::tokens(text)?.into_iter().filter(|it| it.kind != tokens::Kind::Space).collect();
    into.extend(all.windows(2).filter(|it| has("fn trait", &it[0].text)).map(|it| format!("{} {}", it[0].text, it[1].text)));
    Ok(())
}

/// Returns the plain Rust of a file of the crate `own`, with as many lines.
pub fn erased(text: &str, own: &str, crates: &[&str], names: &Names, used: &mut Used) -> Outcome<String> {
    let mut file = file::File { own, crates, names, used, all: tokens::tokens(text)? };
    file.apply_rules(false);
    let items = file.items(0, file.all.len())?;
    let head = items.first().map_or(0, |it| file.comments_above(it.start, tokens::Kind::Doc));
    file.erase_items(items, false)?;
    file.change_paths();
    file.only_known()?;
    file.apply_rules(true);
    if let Some(it) = file.all.get_mut(head) {
        it.before.insert_str(0, "use crate::rattle::prelude::*; ");
    }
    Ok(file.written())
}

/// The rules, and the words of the lists, that no file used.
#[allow(dead_code)]
pub fn unused(used: &Used) -> Vec<String> {
    let lists = [("attribute", ATTRIBUTES), ("macro", MACROS), ("trait", TRAITS), ("method", METHODS), ("negated behind", BEFORE_NOT)];
    let words = lists.iter().flat_map(|(kind, list)| list.split_whitespace().map(move |it| format!("{kind} {it}")));
    let statements = DROP_STATEMENTS.iter().map(|it| format!("statement {it}"));
    rules::RULES.iter().flat_map(|it| it.uses()).chain(words).chain(statements).filter(|it| !used.contains(it)).collect()
}

/// The rules with their cases: what is counted of a rule, the text before it, and the text behind it.
#[allow(dead_code)]
pub fn cases() -> Vec<(Vec<String>, String, String)> {
    rules::RULES.iter().map(|it| (it.uses(), it.before.replace('⏎', "\n"), it.after.replace('⏎', "\n"))).collect()
}
