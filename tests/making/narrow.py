#!/usr/bin/env python3
"""Makes the one-key text from the two-key text. `tests/making/narrow.py FILE` prints it, and tests/widths compares it with the one-key
file.

It is the inverse of tests/making/widen.py, and finds the same pieces: of a piece and its counterpart at the next rank it keeps the piece. A
tuple of one part that is left of it is that part, and a list keeps its first part. Then no name needs the number of a rank.

Some words are nothing at one key (NOTHING): a search by all keys, lists of the items that several searches found, and commands, which
no program carries out at one key. Functions, definitions and modules with such a name are left out, and so is the name where it is imported.
"""
import os
import re
import sys

sys.dont_write_bytecode = True
sys.path.insert(0, os.path.dirname(os.path.dirname(os.path.abspath(__file__))))
import sources  # noqa: E402
import widen  # noqa: E402
from widen import NAME, is_balanced, matches, numbers, text_of, words_of  # noqa: E402

RENAMED = [
    (r"\b(iddqd|caller|test|test_calls)_bi\b", r"\1_id"), (r"\bbi_(?=\w)", "id_"), (r"Bi(?=Hash|Item)", "Id"),
    (r"\btwo(?=[ _]keys?\b)", "one"), (r"\bTwo(?=[ _]keys?\b)", "One"), (r"\b([Oo]ne[ _]key)s\b", r"\1"),
    (r"\bA (?=`Id)", "An "), (r"(?<=rank < )2\b|(?<=KEYS: usize = )2\b", "1"), (r"\b(conflicting|conflicts_of)-both\b", r"\1-key"), (r"\bwith both keys\b", "with the key"),
    # The items that several keys found, held for writing, are one item, held by its guard.
    (r"\bOccupiedEntryMut T S K1 K2 H\b", "RefMut T S K1 K2 H of eq1 input1 eq2 input2 build hashes"), (r"\bOccupiedEntryMut\b", "RefMut"),
    (r"\bslot1: Some\(slot\),\s+slot2: Some\(slot\)", "slot"), (r"\bGainsAndHolds\b", "GainsAndLends"),
    (r"\bgains_and_holds\b", "gains_and_lends"), (r"\binsert_mut\b", "insert"),
    # What is the same at each rank: types or proofs, parts of a list, and arguments of a call.
    (r"(?<!-> )(?<![\w>])\(([\w:]+(?:\(\))?), \1\)", r"\1"), (r"\((\w+) × \1\)", r"\1"), (r"\b(\w+) × \1\b", r"\1"), (r"\b(ℕ|nat_eq) \1\b", r"\1"),
    (r"\bNone ∷ None(?= ∷)", "None"), (r"\b_ ∷ _ ∷ \[\]", "_ ∷ []"),
    (r"(?<=, )(None|&nothing),\s+\1(?=,?\s*(?:\)|(?:&mut Meter|meter)\b))", r"\1"),
    # The hash of each key.
    (r"-> \(u64, u64\)", "-> u64"),
    # The key that is inside of another one.
    (r"\bBy(?:Made|Pair)<(\w+)(?:, \w+)*, 2>", r"\1"),
    # The walks through each other table, and the least of all.
    (r"\(1 ∷ \[\]\)", "[]"), (r"\(min ([\w.]*)first([\w.]*) \1second\2\)", r"\1first\2"),
    # What code takes at one rank alone.
    (r"\bSome\((\w+)\), None(?=,?\s*(?:[)}]|&mut Meter\b))", r"Some(\1)"),
    (r" *// At each other rank:\n *[^;]*;\n", ""),
]
# The words that are nothing at one key.
NOTHING = re.compile(r"""(?x)^(
    # Searches by all keys, with the guards and entries of the items that they found.
    \w*(?<!insert)(?<!extend)(?<!extended)(?<!from_iter)(?<!made)_unique(_mut)? | (remove_)?unique_\w+ | \w+_both | one_of | has_others | overwrite_two
    | occupied_mut | OccupiedEntryMut | occupied_ref | OccupiedEntryRef | OccupiedRefs | insert_mut | lend | data_mut_of | GainsAndHolds
    # The rank at which a key differs, and lists of what several searches found.
    | differ | first_mismatch | of_rank | each_once | items_of | remove_slots | store_all | store_found | for_each | conflicts | conflicts_with
    # Calls that take several keys.
    | answered_by_all
    # Commands as values, in the programs that test the calls.
    | commands? | run
    )$""")
# Names without the number of a rank, if the rule is not that the number goes, and phrases of comments.
NAMED = [
    (r"\bK1\b", "Key"), (r"\bhash_of1\b", "hash_of_key"), (r"(?<=[A-Za-z])1(?=\b|_)", ""), (r"\n *let (\w+) = \1;", ""),
    (r"\(\[\]\)", "[]"), (r"\n *∷ \[\]", " ∷ []"),
    # Several keys are given as an item that has them, and one as a key.
    (r"\bRow2\b", "Row1"), (r"&keys\.key\b", "key"), (r"\bkeys: &('a )?Item\b", r"key: &\1Key"), (r"\b(map|call), keys\b", r"\1, key"),
]
# What comments say of several keys, ranks and tables, each with what they say of one. A space may be the end of a line.
PHRASED = [
    ("([Aa]|[Tt]he|[Tt]his|[Ii]ts|whose|item's|[Aa]ll|another|equal|by) first (keys?|rank)", r"\1 \2"), ("(hash|table) (?:at|of) the rank", r"\1"),
    ("(an equal key) of the same rank", r"\1"), ("for each rank a table", "a table"), ("in both keys", "in the key"),
    (r"(\w),? rank by rank,? up to the first that differs", r"\1"), (r"each key of (the \w+ item|the item|an item|a removed item)", r"the key of \1"),
    ("each key of (them|those|these)", r"the key of each of \1"), ("each key of it", "its key"), ("says of each key whether", "says whether"),
    ("the query and the other key of the item,", "the query,"), ("once, hashes each other key of the item once,", "once,"), ("which (?:of its keys|keys of the item|keys) are taken", "whether the key is taken"),
    ("the searches by its keys", "the search by its key"), ("by each of its keys", "by its key"), ("searches by all keys", "a search"),
    ("names the lowest rank at which its key is not", "says that its key is not"),
    # Of a key that is one the verb is another.
    ("([Ii]ts) keys (depend|stay)", r"\1 key \2s"), ("(?:all )?(its|the item's) keys (find|name)", r"\1 key \2s"),
    ("those keys of the old item that the new one does not have", "the key of the old item, if the new one has another"),
    ("the item's keys are equal to the old ones", "the item's key is equal to the old one"), ("its keys are tests", "its key is a test"),
    ("(its|the item's|the entry's|an item's|the same) keys", r"\1 key"),
    ("(slots and) each table", r"\1 the table"), ("each table", "the table"), ("smaller slots and tables", "smaller slots and a smaller table"),
    ("[Tt]he two ranks of an item, as types", "The rank of an item's key, as a type"), ("these types say which key is meant", "this type says which key"),
    ("all keys of an item together", "the key of an item, as a list of one rank"),
    ("slots and tables", "slots and the table"), ("Slots and tables", "Slots and table"), ("the table of one rank", "the table"),
]
COMMENT = re.compile(r"^ *(?://[/!]?|--) .*(?:\n *[\ue000-\ue003].*)*", re.M)
# An import: what is before the name or the names that it imports, and what is behind.
USE = re.compile(r"(?m)^(?P<head> *(?:ghost |pub )*use [\w.:]*\w)(?P<by>\.|::| as )(?:\{(?P<names>[^}]*)\}|(?P<name>\w+))(?P<end>;?\n)")


class Pieces(widen.Pieces):
    """Words, of which a piece stays and its counterpart goes."""

    def narrowed(self, at, end):
        """Returns the words between these places, without those of the second rank."""
        made = []
        while at < end:
            found = self.is_edge(at) and (self.cut(at, end, made) or self.without_second(at))
            at, more = found or (at + 1, self.words[at:at + 1])
            made += more
        return made

    def cut(self, at, end, made):
        """Returns where the counterpart of the piece that begins here ends, and the piece; or None if it has no counterpart. What was
        made before it loses the bracket of a tuple that has no other part."""
        for far in self.distances(at, end):
            begin = at + far
            found = self.alike(at, begin, end)
            if not found:
                continue
            between, middle = found[0], begin - len(found[0])
            after = begin + middle - at
            kept = narrowed(one_part(self.words[at:middle], self.words[begin:after]))
            if len(between) == 2 and between[1][1] == "(":
                # Pairs in pairs: the bracket of the inner pair goes too.
                close = next((it for it in range(after, end) if is_balanced(self.words[begin - 1:it + 1])), None)
                if close and matches(self.words, after, ","):
                    return close + 1, [*kept, *self.words[after:close]]
                continue
            return self.unwrapped(at, after, kept, made)
        return None

    def unwrapped(self, at, after, kept, made):
        """Returns where a piece and its counterpart end, and the piece. If nothing else is between the brackets of a tuple, these go
        too; those of a call or of a function's parameters stay."""
        if kept[-1][1] == "," and matches(self.words, after, ")"):
            kept = kept[:-1]
        end = after + matches(self.words, after, ",)")
        if made and at and self.words[at - 1][1] == "(" == made[-1][1] and matches(self.words, end, ")"):
            before = made[-2][1][-1] if len(made) > 1 else " "
            is_tuple = made[-1][0] or not (before.isalnum() or before in "_>!")
            if is_tuple and not is_parted(kept):
                return end + 1, [(made.pop()[0], kept[0][1]), *kept[1:]]
        return after, kept

    def without_second(self, at):
        """Returns where a list ends whose only part is of the second rank, such as `a2 ∷ []`, and the empty list; or None."""
        if at and self.words[at - 1][1] not in ("(", "{", "∷"):
            return None
        for close in range(at + 1, min(at + 40, len(self.words) - 2)):
            if self.words[close][1] in ("∷", "≡") and is_balanced(self.words[at:close]):
                two = self.words[at:close]
                is_second = widen.third([(space, widen.BEFORE.get(word, word)) for space, word in two], two)
                return (close + 2, [(two[0][0], "[")]) if is_second and matches(self.words, close, "∷[]") else None
        return None


def one_part(one, two):
    """Returns the words of a piece. The part of a pair is the thing itself, where the counterpart has the other part: `by.0`, with
    `by.1` after it, is `by`."""
    return [it for it, like in zip(one, two) if (it[1], like[1]) != (".0", ".1")]


def is_parted(words):
    """Returns whether words have a comma or a space outside of brackets, so that they are no single thing."""
    return any((word == "," or space and at) and is_balanced(words[:at]) for at, (space, word) in enumerate(words))


def narrowed(words):
    """Returns these words, without those of the second rank."""
    return Pieces(words).narrowed(0, len(words)) if words else []


def without_functions(text):
    """Returns code without the functions and types that are nothing, the impls that are of these or have no other functions, and the arms
    that only call these."""
    block = r"(?ms)^(?:///[^\n]*\n|#\[[^\n]*\n)*((?:pub )?(?:struct|enum|impl)\b[^{;]*)\{.*?^\}\n\n?"
    text = re.sub(block, lambda it: "" if any(map(NOTHING.match, re.findall(r"\w+", it[1]))) else it[0], text)
    text = re.sub(r'(?m)^ *"[\w.]+" => Some\((\w+)\(.*\)\),\n', lambda it: "" if NOTHING.match(it[1]) else it[0], text)
    lines = text.split("\n")
    for it in reversed([it for it in sources.functions(text) if NOTHING.match(it.name)]):
        del lines[it.first - len(it.comment):it.end + (lines[it.end:it.end + 1] == [""])]
    text = re.sub(r"\n\n( *\}\n)", r"\n\1", "\n".join(lines))
    return re.sub(r"\nimpl\b[^{;]*\{\n\}\n", "", text)


def without_definitions(text):
    """Returns specifications or proofs without the definitions of what is nothing."""
    parts = re.split(r"(?<=\n)\n", text)
    name = re.compile(r"(?:^|\n) *(?:abbrev )?(?:pub )?(?:record )?([\w-]+)(?: :| \()")
    return "\n".join(it for it in parts if not (found := name.search(re.sub(r"(?m)^ *--.*\n", "", it))) or not NOTHING.match(found[1]))


def without_imports(text, goes):
    """Returns a text without the imports of those names for which this returns true, given what is before the names and a name."""
    def kept(found):
        names = re.split(r",\s*", found["names"].strip(", \n")) if found["names"] else [found["name"]]
        left = [it for it in names if not goes(found["head"], it.split()[-1])]
        if left == names:
            return found[0]
        parts = left[0] if len(left) == 1 and found["by"] == "::" else "{" + ", ".join(left) + "}"
        return f"{found['head']}{found['by']}{parts}{found['end']}" if left else ""

    return USE.sub(kept, text)


def imported(text):
    """Returns the text without the modules that are nothing, and without what is nothing where it imports it from its own crate."""
    is_own = re.compile(r"(?:ghost |pub )*use (?!std|iddqd_store|Rattle\.(?!iddqd_bi))").match
    text = re.sub(r"(?m)^(?:pub )?(?:pub\(\w+\) )?(?:mod|use) (\w+)(?:::[^;]*)?;?\n", lambda it: "" if NOTHING.match(it[1]) else it[0], text)
    return without_imports(text, lambda head, name: is_own(head) and any(map(NOTHING.match, [*re.findall(r"[\w-]+", head), name])))


def used(text, before):
    """Returns a text without the imports of names that the text had before, and has no more. What code makes public is for other files."""
    rests = [USE.sub("", it) for it in (text, before)]

    def goes(head, name):
        has = [all(re.search(rf"(?<![\w-]){re.escape(part)}(?![\w-])", it) for part in name.split("◌") if part) for it in rests]
        return has[1] and not has[0] and not (head.startswith("pub use") and "use Rattle" not in head)

    return without_imports(text, goes)


def renamed(text, rules=RENAMED):
    """Returns a text, or a path, with the names of the one-key text."""
    for old, new in rules:
        text = re.sub(old, new, text)
    return text


def phrased(text):
    """Returns the text with comments that speak of one key."""
    rules = [(rf"(?<!\w)(?:{old})(?!\w)".replace(" ", f"{widen.SPACE}+"), new) for old, new in PHRASED]
    return widen.unfolded(COMMENT.sub(lambda it: renamed(it[0], rules), widen.folded(text)))


def one_key(text, is_code):
    """Returns the one-key text of a two-key text, which is code or specifications and proofs."""
    before, text = text, imported(without_functions(text) if is_code else without_definitions(text))
    text = renamed(text)
    spellings = numbers(text)
    text = NAME.sub(lambda it: spellings.get(it[0], it[0]), text) if spellings else text
    text = text_of(narrowed(words_of(text)))
    names = {spelling: name for name, spelling in spellings.items()}
    text = NAME.sub(lambda it: names.get(it[0], it[0]), text) if names else text
    return phrased(used(renamed(text, NAMED), before))


def path_of(path):
    """Returns the path of the one-key file of a two-key file, or None if there is none: it is of the second rank, or nothing."""
    first = path.replace("2", "1")
    if first != path and os.path.isfile(first) or any(map(NOTHING.match, re.split(r"[/.]", path))):
        return None
    return renamed(renamed(path, RENAMED[:6]), NAMED[:3])


if __name__ == "__main__":
    for path in sys.argv[1:]:
        sys.stdout.write(one_key(sources.read(path), path.endswith(".rt")))
