//! What the docs of the written files show: helper types that no user names are hidden, and sentences on Rattle are written otherwise.
use std::collections::BTreeSet;

/// What the docs do not show, since contracts name it, or the maps' own text, and no user does: in files that have some words, items of a kind.
const HIDDEN: &[(&str, &str, &str)] = &[
    ("", "pub struct", "ByQuery Costs InOrder ItemIndex Meter"),
    (
        "",
        "pub trait",
        "ClonesHashes ClonesKeys FoundByHash Hashed HashedKey Holds KeepsKey KeepsOrder KeyMatcher KeyOf KeyOrder Lookup Matcher Ranked SortOrder",
    ),
    ("", "pub mod", "ranks"),
    ("", "pub fn", "find_with find1_with find2_with find3_with pass"),
    ("impl UpToTwo<ItemIndex>", "impl", "UpToTwo"),
    ("impl UpToThree<ItemIndex>", "impl", "UpToThree"),
    // What speaks of the numbers of slots, for the text of `Sorted`.
    ("pub trait SlotMap", "type", "Places Found Taken"),
    (
        "pub trait SlotMap",
        "fn",
        "slots places found_slots taken slot_of_all insert_into remove_at replace_at overwrite_at rekey_at grow none_taken reject slot_by remove_by store_at",
    ),
];

/// Whether the docs do not show what a line begins, by the rows of `HIDDEN` for its file.
fn is_hidden(line: &str, rows: &[&(&str, &str, &str)]) -> bool {
    let code = line.split("] ").last().unwrap_or(line).trim_start();
    rows.iter().any(|(_, kind, names)| {
        let name = code.strip_prefix(kind).and_then(|it| it.strip_prefix(' '));
        let name = name.and_then(|it| it.split(|c: char| c != '_' && !c.is_alphanumeric()).next());
        name.is_some_and(|name| names.split(' ').any(|it| it == name))
    })
}

/// Sentences of the proved text that speak of Rattle or of its checker, and what the docs have in their place. `…` is the rest of a sentence.
/// Each row applies somewhere, or the build ends.
const REWORDED: &[(&str, &str)] = &[
    // What a contract shows is said in the module `contracts`.
    ("Contracts see…", ""),
    ("Contracts say less…", ""),
    ("Contracts do not say what the map is afterwards. A caller who has to prove that…", ""),
    ("By that borrow contracts tell…", ""),
    (", and contracts see the item", ""),
    ("After steps by `next_data` the contract says…", ""),
    ("After a guard of `next_mut` the number is exact too…", ""),
    ("It is a parameter for the proof alone…", ""),
    ("The checker asks for a measure of this loop…", ""),
    ("It asks for none of a loop that begins…", ""),
    ("Where a key is a field beside the data, `Prim.search rules` proves…", ""),
    ("Where the key is a field beside the data, `Prim.search rules` proves…", ""),
    ("`Prim.search rules` proves the laws of all three…", ""),
    (", and proves that the comparisons rise with the keys. `IsRising-key` of…", ": the keys before it are `Less`, and those behind it `Greater`."),
    // Memory, and the names that the calls have here.
    (">>(alloc)?` makes a map.", ">>()` makes a map. If memory runs out, the program ends, as with std's maps; `try_from_iter` returns an error."),
    (
        "An item for which there is no memory is dropped, and those before it stay in the map.",
        "If memory runs out, the program ends, as with std's maps; `try_extend` returns an error.",
    ),
    ("from_iter_unique(alloc, sessions)?`", "from_iter_unique(sessions)?`"),
    ("A struct that holds a map may derive `Clone`.", "If memory runs out, the program ends, as with std's maps; `try_clone` returns an error."),
    ("`with_capacity`, `clone` and the like", "`with_capacity`, `try_clone` and the like"),
    ("`insert_overwrite`, `extend` and `from_iter`:", "`insert_overwrite`, `try_extend` and `try_from_iter`:"),
    ("as `extend` does", "as `try_extend` does"),
    ("costs what `extend` costs", "costs what `try_extend` costs"),
    (": the two names are the Rust crate's, where…", "."),
    (
        "which is std's, with a fixed seed. It does not protect…",
        "std's `RandomState`: its seed is random, against attackers who choose keys with equal hashes.",
    ),
    ("For such keys make the map by `with_hasher(alloc…", "Without the feature `std` there is no such seed."),
    // A number is a query by itself.
    ("(&3..&7)`", "(3..7)`"),
];

/// Which rows of `REWORDED` applied.
pub type Applied = BTreeSet<usize>;

/// The rows that did not apply.
pub fn left_over(applied: &Applied) -> Vec<&'static str> {
    (0..REWORDED.len()).filter(|at| !applied.contains(at)).map(|at| REWORDED[at].0).collect()
}

/// Returns a paragraph with its sentences as the docs shall have them.
fn reworded(paragraph: &str, applied: &mut Applied) -> String {
    let mut out = paragraph.to_string();
    for (at, (old, new)) in REWORDED.iter().enumerate() {
        let (begin, is_open) = (old.trim_end_matches('…'), old.ends_with('…'));
        if let Some(from) = out.find(begin) {
            let end = from + begin.len();
            let end = if is_open { out[end..].find(". ").map_or(out.len(), |it| end + it + 1) } else { end };
            out.replace_range(from..end, new);
            applied.insert(at);
        }
    }
    out
}

/// Writes the sentences of some lines of docs anew, in as many lines.
fn rewrite(lines: &mut [String], applied: &mut Applied) {
    let text = |line: &str| line.trim_start().trim_start_matches("///").trim().to_string();
    let old = lines.iter().map(|it| text(it)).collect::<Vec<_>>().join(" ");
    let new = reworded(&old, applied);
    if new == old {
        return;
    }
    let mut words = new.split_whitespace().peekable();
    let last = lines.len() - 1;
    for (at, line) in lines.iter_mut().enumerate() {
        line.truncate(line.len() - line.trim_start().len());
        line.push_str("///");
        while let Some(word) = words.next_if(|it| at == last || line.len() + it.len() < 118) {
            line.push(' ');
            line.push_str(word);
        }
    }
}

/// Returns the text as the docs shall have it. Each line keeps its number.
pub fn readable(text: &str, applied: &mut Applied) -> String {
    let mut lines: Vec<String> = text.split('\n').map(str::to_string).collect();
    let (mut start, mut in_code) = (0, false);
    for at in 0..lines.len() {
        let line = lines[at].trim_start();
        let is_fence = line.starts_with("/// ```");
        let is_prose = !in_code && !is_fence && line.starts_with("/// ");
        if !is_prose || line.starts_with("/// - ") {
            if start < at {
                rewrite(&mut lines[start..at], applied);
            }
            start = if is_prose { at } else { at + 1 };
        }
        in_code ^= is_fence;
    }
    let rows: Vec<_> = HIDDEN.iter().filter(|it| text.contains(it.0)).collect();
    for line in &mut lines {
        if is_hidden(line, &rows) {
            line.insert_str(line.len() - line.trim_start().len(), "#[doc(hidden)] ");
        }
    }
    let text = lines.join("\n").replace("</summary>\\n\\n```text", "</summary>\\n\\n[How to read this](crate::contracts)\\n\\n```text");
    // The contract of a trait's function stands before it, since it has no body: whoever implements the trait keeps it.
    text.replace(" #[doc = \"\\n<details><summary>Proved: ", " #[doc = \"\\n<details><summary>Laws: ")
}
