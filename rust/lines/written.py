"""Writes programs of this repository, which are in Rattle, in Rust over the maps as cargo builds them.

They only drive the maps, so that a few replacements suffice: what is written wrong does not compile, or answers otherwise.
"""
import collections
import re

# What the maps' crates are called in the crate that cargo builds.
MODULES = {"iddqd_id": "facetweave::id_hash_map", "iddqd_bi": "facetweave::bi_hash_map", "iddqd_tri": "facetweave::tri_hash_map",
           "iddqd_ord": "facetweave::id_ord_map", "iddqd_sorted": "facetweave::sorted", "iddqd_store": "facetweave::shared"}
ALLOC = r"(?:gauge\.alloc\(\)|rt\.alloc\(\)|self\.alloc|load\.alloc|alloc: Global|alloc)"
# Why there are replacements, and these: a pattern and what stands in its place. They are applied in this order.
REPLACEMENTS = [
    ("what is for proofs alone goes", [
        (r"(?m)^ *ghost [^;{]*(\{[^}]*\}[^;]*)?;\n", ""),
        (r"(?m)^impl Clones\w+ for \w+ \{\s*\}\n", ""),
        (r"(?m)^#!\[tactic.*\n", ""),
    ]),
    ("Rust's maps take no allocator", [
        (r"(?m)^    (?:pub )?fn alloc\(&self\) -> Global \{\n.*\n    \}\n", ""),
        (r"use std::alloc::\{AllocError, Global\};", "use facetweave::AllocError;"),
        (r"use std::alloc::AllocError;", "use facetweave::AllocError;"),
        (r"use std::alloc::Global;\n", ""),
        (rf"(?<=[(,{{\s])(?<!let ){ALLOC},\s*", ""),
        (rf"(?<=\(){ALLOC}(?=\))", ""),
        (rf",\s*{ALLOC}(?=\s*\))", ""),
        (r"in alloc;\s*", ""),
    ]),
    ("the default builder of Rattle has a fixed seed", [
        (r"use iddqd_bi::DefaultHashBuilder;", "type DefaultHashBuilder = std::hash::BuildHasherDefault<facetweave::FoldHasher>;"),
    ]),
    ("every type of Rust can be dropped, and no bound says so", [
        (r"(#\[derive\((?:.*, )?)Drop(?:, )?(.*\)\])", r"\1\2"),
        (r"#\[derive\(\)\]\n", ""),
        (r", \)\]", ")]"),
        (r" \+ Drop\b", ""),
        (r"(?m)^ *[\w:]+: Drop,\n", ""),
        (r"(trait \w+): Drop", r"\1: Sized"),
        (r"(\w): Drop\b", r"\1"),
    ]),
    ("a clone of a key or an item cannot fail in Rust", [
        (r"fn clone\(&self\) -> Result<Self, AllocError> \{\n((?:        .*\n)*)    \}",
         r"fn clone(&self) -> Self {\n(|| -> Result<Self, AllocError> {\n\1})().unwrap()\n    }"),
        (r"(\.key[123]?|counts)\.clone\(\)\?", r"\1.clone()"),
        (r"let Ok\(key\) = (item\.key1?)\.clone\(\) else", r"let Ok::<_, ()>(key) = Ok(\1.clone()) else"),
        (r"if let Ok\(item\) = item\.clone\(\)", "if let Ok::<_, ()>(item) = Ok(item.clone())"),
    ]),
    ("clone, extend and from_iter of Rust end the program without memory, and their forms with try_ return an error", [
        (r"match Clone::clone\(map\)", "match map.try_clone()"),
        (r"\bmap\.clone\(\)", "map.try_clone()"),
        (r"Extend::extend\(map, ", "map.try_extend("),
        (r"\bmap\.extend\(", "map.try_extend("),
        (r"::from_iter\(", "::try_from_iter("),
        (r"(\w+(?:\s*\.[a-z_]+\([^()]*(?:\([^()]*\))?\))*)\s*\.collect::<((?:Bi|Tri|Id)\w+<.*?>)>\(\)", r"\2::try_from_iter(\1)"),
        (r"(Bi|Tri|Id)(\w+)<([^<>]*)>::try_from", r"\1\2::<\3>::try_from"),
    ]),
    ("calls of Rust's std that cannot fail, or by another name", [
        (r"Rc::new\(Counts::new\(\)\)\?", "Rc::new(Counts::new())"),
        (r"\.sort\(\)\?", ".sort()"),
        (r"Vec::<u8>::with_capacity\(([\w.]+)\)", r"std::hint::black_box(Vec::<u8>::new()).try_reserve_exact(\1)"),
    ]),
]
# Calls that cannot fail in Rust: the `?` behind them goes.
CANNOT_FAIL = ["push", "push_str"]
applied = collections.Counter()


def end_of(text, at, brackets):
    """Returns the place behind the bracket that closes the one before this place."""
    depth = 1
    while depth:
        depth += {brackets[0]: 1, brackets[1]: -1}.get(text[at], 0)
        at += 1
    return at


def without_clauses(text):
    """Takes the contracts of functions away."""
    while it := re.search(r"\n *(ensures|requires)\*?( \w+)? \{", text):
        applied["clauses"] += 1
        text = text[:it.start()] + text[end_of(text, it.end(), "{}"):]
    return text


def without_asks(text, call):
    """Takes the `?` behind each call of this name away."""
    at = 0
    while (at := text.find(f".{call}(", at)) >= 0:
        at += len(call) + 2
        end = end_of(text, at, "()")
        applied[f".{call}(..)?"] += text.startswith("?", end)
        text = text[:end] + text[end:].removeprefix("?")
    return text


def replaced(name, pattern, new, text):
    text, count = re.subn(pattern, new, text)
    applied[name] += count
    return text


def rust(text, own, crates, before=(), modules=MODULES):
    """Returns a file of a crate in Rust, in which crates of the program are modules. The replacements `before` go before the others."""
    text = without_clauses(text)
    for _, changes in [*before, *REPLACEMENTS]:
        for pattern, new in changes:
            text = replaced(pattern, pattern, new, text)
    for call in CANNOT_FAIL:
        text = without_asks(text, call)
    text = replaced("crate::", r"\bcrate::", f"crate::{own}::", text)
    for crate, module in modules.items():
        text = replaced(f"{crate}::", rf"\b{crate}::", f"{module}::", text)
    text = replaced("crates of the program", rf"(?<!::)\b({'|'.join(crates)})::", r"crate::\1::", text)
    return text.replace("crate::crate::", "crate::")


def idle():
    """Returns the replacements that were tried and applied nowhere."""
    return [name for name, count in applied.items() if not count]
