#!/usr/bin/env python3
"""Makes the three-key text from the two-key text. `tests/making/widen.py FILE` prints it, and tests/widths compares it with the
three-key file.

It knows the name of no function. First it renames the words that say how many keys there are (RENAMED). Then it searches
for pieces of the text that are followed by their counterpart at the next rank, and adds the third piece after them: a field,
a clause, a statement, a whole function, or a part of a line, such as `item.key1(), item.key2()` or `K1.eq ∷ K2.eq ∷ []`. The
counterpart of a piece has the same words, except for the words of a rank: it has `2` where the piece has `1`, and `second` for `first`.
White space, line breaks and the marks that begin the lines of a comment are no words.

It widens four more forms: pairs in pairs, `(a1, (a2, tt))`; a list with an element of the second rank alone, `a2 ∷ []`; a
statement below the comment `// At each other rank:`, which is written for each rank but that of its function; and some forms
without words of a rank, into which such words are put temporarily (`spelled`).
"""
import re
import sys

RENAMED = [
    (r"\b(iddqd|iddqd_commands|caller|test|test_calls)_bi\b", r"\1_tri"), (r"\bbi_(?=\w)", "tri_"),
    (r"\b(item[./]|kind `)bi\b", r"\1tri"),
    (r"Bi(?=Command|Hash|Item|Reply|Sink)", "Tri"), (r"\bRow2\b", "Row3"), (r"\bUpToTwo\b", "UpToThree"), (r"\bup_to_two\b", "up_to_three"),
    (r"\b([Tt])wo(?=[ _]keys?\b|Keys\b|[ _]ranks\b| at most\b)", r"\1hree"),
    (r"([_-])both\b", r"\1all"), (r"\b(has|have|with|of) both\b", r"\1 all"),
    (r"\bboth(?= (?:keys|searches|name)\b)", "all"), (r"\bBoth(?= (?:keys|searches)\b)", "All"),
    (r"\bthe other key\b", "the other keys"), (r"(?<=rank < )2\b|(?<=<= )2\b|(?<=-le)2\b|(?<=KEYS: usize = )2\b", "3"),
    # What is the same at each rank: types or proofs (if no function returns them), parts of a list, and arguments of a call.
    (r"(?<!-> )\(([\w:]+(?:\(\))?), \1\)", r"(\1, \1, \1)"), (r"\b(\w+) × \1\b", r"\1 × \1 × \1"), (r"\b(ℕ|nat_eq) \1\b", r"\1 \1 \1"),
    (r"\bNone ∷ None(?= ∷)", "None ∷ None ∷ None"), (r"\b_ ∷ _ ∷ \[\]", "_ ∷ _ ∷ _ ∷ []"),
    # The key that is inside of another one.
    (r"\bBy(Made|Pair)<(\w+)((?:, \w+)*), 2>", r"By\1<By\1<\2\3, 3>\3, 2>"),
    # The hash of each key.
    (r"-> \(u64, u64\)", "-> (u64, u64, u64)"),
    # The walks through each other table, and the least of all.
    (r"\(1 ∷ \[\]\)", "(1 ∷ 1 ∷ [])"), (r"\bmin ([\w.]*)first([\w.]*) \1second\2", r"min \1first\2 (min \1second\2 \1third\2)"),
    (r"(?<=, )(None|&nothing),\s+\1(?=,?\s*(?:\)|(?:&mut Meter|meter)\b))", r"\1, \1, \1"),
]
# The words of a rank, in order: numbers, types, names of keys, and the parts of pairs in pairs.
RANKS = ["01234", "KLM", "klm", ("one", "two", "three"), ("first", "second", "third"), ("First", "Second", "Third"),
         (".0", ".1", ".2", ".3"), (".0", ".1.0", ".1.1.0")]
AFTER = {(it[at], it[at + 1]): it[at + 2] for it in RANKS for at in range(len(it) - 2)}
BEFORE = {it[1]: it[0] for it in ["12", "KL", "kl", ("second", "first"), ("Second", "First"), (".1.0", ".0")]}
LIKE = {word: it[0] for it in RANKS for word in it}
# What may be between a piece and its counterpart, by its last word, if it is more than white space.
BETWEEN = {it[-1]: tuple(it) for it in [",", ";", "∷", "→", "×", "|", "&&", ",("]}
# How the line of a comment begins, with the character that replaces it and counts as white space; and the character that ends a comment.
MARKS = {"///": "\ue000", "//!": "\ue001", "//": "\ue002", "--": "\ue003"}
COMMENT_END = "\ue004"
SPACE = r"[\s\ue000-\ue003]"
WORD = re.compile(rf"({SPACE}*)((?:\.\d)+(?!\w)|[^\W\d_]+?(?=\d|_|\b|first|second|third|First|Second|Third)|\S)")
NAME = re.compile(r"(?<![\w-])[^\W\d][\w-]*")
# What code takes at one rank, and what at the others. {0} is the name, and {1} the rank.
ALONE = {"some": ("Some({0})", "None"), "bound": ("{0}{1}", "{0}{1}: _")}
# The marks of the forms that are spelled: such a name with its rank, an arm of a match, the last check of some, and a
# statement for each rank but that of its function, below a comment that says so.
AT_RANK, ARM, CHECK, OTHERS = "\ue005", "\ue006", "\ue007", "\ue008"
OTHER_RANKS = re.compile(r"(?<=// At each other rank:\n)( *)([^;]*;)")
# The counterparts of a piece are looked up by this many words. Those of shorter pieces are tried one by one.
LONG = 8


def folded(text):
    """Returns the text with each comment in one piece: a mark counts as white space where a line goes on, and one ends it."""
    lines, before = [], None
    for line in text.split("\n"):
        found = re.match(r"( *)(///|//!|//|--)(?= |$)", line)
        kind = found[2] if found else None
        if before and kind == before:
            line = found[1] + MARKS[kind] + line[found.end():]
        elif before:
            lines[-1] += COMMENT_END
        lines.append(line)
        before = kind
    return "\n".join(lines)


def unfolded(text):
    """Returns the text that was folded."""
    return text.replace(COMMENT_END, "").translate({ord(mark): begin for begin, mark in MARKS.items()})


def third(one, two, in_list=False):
    """Returns the words at the third rank, from those at the first and the second, or None if these are not alike or have no
    rank. Parts that follow each other, such as `at.0, at.1`, may be any two parts. They have a rank only in a list, or if they
    are in calls that are arguments of a call."""
    found, of_rank = [], False
    for (_, word), (space, like) in zip(one, two):
        if word != like:
            of_rank = of_rank or in_list or like[0] != "." or len(like) > 2
            like = AFTER.get((word, like))
        if like is None:
            return None
        found.append((space, like))
    return found if of_rank and len(one) == len(two) else None


def is_balanced(words):
    """Returns whether these words close each bracket that they open, and no others."""
    depth = 0
    for _, word in words:
        depth += (word in "([{") - (word in ")]}")
        if depth < 0:
            return False
    return depth == 0


def matches(words, at, wanted):
    """Returns whether these words are there, with any white space between them."""
    return [word for _, word in words[at:at + len(wanted)]] == list(wanted)


class Pieces:
    """Words, each with the white space before it, which are searched for pieces that are followed by their counterpart."""

    def __init__(self, words):
        self.words, self.likes, self.places = words, [LIKE.get(word, word) for _, word in words], {}
        for at in range(len(words) - LONG + 1):
            self.places.setdefault(tuple(self.likes[at:at + LONG]), []).append(at)
        # For each word, whether a word of a rank is near enough for a short piece to begin here.
        self.near_rank = [False] * len(words)
        for at in (it for it, (_, word) in enumerate(words) if word in LIKE):
            begin = max(at - LONG, 0)
            self.near_rank[begin:at + 1] = [True] * (at + 1 - begin)

    def is_edge(self, at):
        """Returns whether a piece can begin or end here: not within a name, and not between a name and its part or method."""
        if at in (0, len(self.words)) or self.words[at][0]:
            return True
        before, word = self.words[at - 1][1][0], self.words[at][1]
        if word == "." and (at + 1 == len(self.words) or self.words[at + 1][0]):
            return True
        return not (before.isalnum() or before in "_.") or not (word[0].isalnum() or word[0] in "_.")

    def distances(self, at, end):
        """Returns the distances at which the counterpart of a piece that begins here may begin, the largest first."""
        far = [it - at for it in self.places.get(tuple(self.likes[at:at + LONG]), []) if at + LONG + 1 < it < end]
        near = range(min(LONG + 1, end - at - 1), 0, -1) if self.near_rank[at] else ()
        return far[::-1] + [it for it in near if self.likes[at + it] == self.likes[at]]

    def alike(self, at, begin, end):
        """Returns what is between the piece that begins at the one place and its counterpart, which begins at the other, and the
        piece of the third rank; or None."""
        divider = BETWEEN.get(self.words[begin - 1][1], ())
        for between in ((), divider) if divider else ((),):
            middle = begin - len(between)
            after = begin + middle - at
            if middle <= at or after > end or not (matches(self.words, middle, between) and self.is_edge(after)):
                continue
            one, two = self.words[at:middle], self.words[begin:after]
            is_call = between == (",",) and one[-1][1] == ")"
            three = third(one, two, between == ("∷",) or is_call)
            if three and is_balanced(one) and (between or two[0][0]) and any(word.isalpha() for _, word in one):
                there = matches(self.words, after, [*between, *(word for _, word in three)])
                return None if there else (self.words[middle:begin], three)
        return None

    def spread(self, at, end):
        """Returns where the counterpart of the piece that begins here ends, and both with the third one; or None if it has no counterpart."""
        for far in self.distances(at, end):
            begin = at + far
            found = self.alike(at, begin, end)
            if found:
                between, three = found
                middle, after = begin - len(between), begin + far - len(between)
                made = [*self.widened(at, middle), *between, *self.widened(begin, after), *between, *widened(three)]
                if len(between) < 2 or between[1][1] != "(":
                    return after, made
                closes = (it for it in range(after, end) if is_balanced(self.words[begin - 1:it + 1]))
                close = next(closes, None) if matches(self.words, after, ",") else None
                if close:
                    return close, [*made, *self.words[after:close], ("", ")")]
        return None

    def second_alone(self, at, end):
        """Returns where the only part of a list ends, if it is of the second rank, such as `a2 ∷ []`, and the part with the third
        one; or None."""
        if at and self.words[at - 1][1] not in ("(", "{", "∷"):
            return None
        for close in range(at + 1, min(at + 40, end - 2)):
            if self.words[close][1] in ("∷", "≡") and is_balanced(self.words[at:close]):
                two = self.words[at:close]
                three = third([(space, BEFORE.get(word, word)) for space, word in two], two)
                if three and matches(self.words, close, "∷[]"):
                    return close, [*two, (" ", "∷"), (" ", three[0][1]), *three[1:]]
                return None
        return None

    def widened(self, at, end):
        """Returns the words between these places, with those of the third rank."""
        made = []
        while at < end:
            found = self.is_edge(at) and (self.spread(at, end) or self.second_alone(at, end))
            at, more = found or (at + 1, self.words[at:at + 1])
            made += more
        return made


def widened(words):
    """Returns these words, with those of the third rank."""
    return Pieces(words).widened(0, len(words))


def words_of(text):
    """Returns the words of a text, each with the white space before it. The words of a rank in a name are words too."""
    return [it.groups() for it in WORD.finditer(folded(text))]


def text_of(words):
    """Returns the text of these words."""
    return unfolded("".join(space + word for space, word in words)) + "\n"


def renamed(text):
    """Returns a text, or a path, with the names of the three-key text."""
    for old, new in RENAMED:
        text = re.sub(old, new, text)
    return text


def numbers(text):
    """Returns how to spell names without a number. A check calls what occurs again `name-2`, or `name-in-Some`."""
    names, spellings = set(NAME.findall(text)), {}
    for name in sorted(names):
        for again in re.finditer("-2(?=-|$)|-in-Some(?=-|$)", name):
            front, back = name[:again.start()], name[again.end():]
            if front + back in names and front + back not in spellings:
                if again[0] == "-2":
                    spellings[front + back] = f"{front}-1{back}"
                else:
                    spellings[front + back], spellings[name] = f"{front}-in-Some-0{back}", f"{front}-in-Some-1{back}"
    return spellings


def alone(kind, name, rank, ranks):
    """Returns the code for this many ranks that takes something at this one alone."""
    return ", ".join(ALONE[kind][it != rank].format(name, it) for it in range(1, ranks + 1))


def at_other(text, rank, other):
    """Returns the text, which has the words of the one rank, with those of the other."""
    names = {it[rank - 1]: it[other - 1] for it in RANKS[4:6]}
    return re.sub("|".join(names), lambda it: names[it[0]], text)


def at_others(found):
    """Returns the statement, which has the words of its function's rank, once for each other rank."""
    rank = 1 + next(at for at, name in enumerate(RANKS[4]) if name in found[2])
    return ("\n" + found[1]).join(at_other(found[2], rank, it) for it in (1, 2, 3) if it != rank)


def spelled(text, spellings):
    """Returns the text with words of a rank in the forms that have none: the first of the names that a check numbers; what
    code takes at one rank alone; the last arm of a match on ranks; and the last of some checks, of which the others return."""
    text = NAME.sub(lambda it: spellings.get(it[0], it[0]), text) if spellings else text
    for kind in ALONE:
        for rank in (1, 2):
            form = re.escape(alone(kind, "NAME", rank, 2)).replace(r"\ ", r"\s+")
            form = form.replace("NAME", r"(?P<name>\w+?)", 1).replace("NAME", "(?P=name)")
            text = re.sub(rf"\b{form}(?=,?\s*(?:[)}}]|&mut Meter\b))", rf"\1{AT_RANK}{kind}{rank}", text)
    text = re.sub(r"\b0( => [^,]*,\s+)_(?= =>)", rf"0{ARM}\g<1>1{ARM}", text)
    text = OTHER_RANKS.sub(lambda it: it[1] + OTHERS + at_other(it[2], *((2, 1) if RANKS[4][1] in it[2] else (1, 2))), text)
    checks = r"(\bif [^{}]+ \{\s+return (\w+);\s+\}\s+)([^\s{};][^{};]*)(?=\s+\})"
    return re.sub(checks, rf"\1if \3 {{ return \2; }}{CHECK}", text)


def unspelled(text, spellings):
    """Returns the text with the forms of the code again."""
    text = re.sub(rf"if ([^{{}}]+) \{{\s+return \w+;\s+\}}{CHECK}", r"\1", text)
    text = text.replace(f"2{ARM}", "_").replace(ARM, "")
    # What a proof rewrites by at each rank after the first.
    text = re.sub(r"\brw \(([\w.]*)2([\w.]*)\)", r"rw (\g<1>2\2, \g<1>3\2)", text)
    text = re.sub(rf"(?m)^( *){OTHERS}([^;]*;)", lambda it: it[1] + at_others(it), text)
    text = re.sub(rf"(\w+){AT_RANK}([a-z]+)(\d)", lambda it: alone(it[2], it[1], int(it[3]), 3), text)
    names = {spelling: name for name, spelling in spellings.items()}
    return NAME.sub(lambda it: names.get(it[0], it[0]), text) if names else text


def three_keys(text):
    """Returns the three-key text of a two-key text."""
    text = renamed(text)
    spellings = numbers(text)
    return unspelled(text_of(widened(words_of(spelled(text, spellings)))), spellings)


def third_file(first, second):
    """Returns the three-key text of the third rank, from the two-key texts of the first and the second, or None if they
    are not alike."""
    three = third(*(words_of(three_keys(it)) for it in (first, second)))
    return text_of(three) if three else None


if __name__ == "__main__":
    for path in sys.argv[1:]:
        with open(path, encoding="utf-8") as file:
            sys.stdout.write(three_keys(file.read()))
