"""Makes the figures of README from the tables of docs/SPEED.md and docs/calling/ordered.md, which `bench/page` writes: tests/pages/tables puts them between
the lines `<!-- begin: speed -->` and `<!-- end -->`. So no figure stands on two pages by hand."""
import re

import sources

SPEED, ORDERED = "docs/SPEED.md", "docs/calling/ordered.md"
BLOCK = re.compile(r"(?<=^<!-- begin: speed -->\n)(?:.*\n)*?(?=<!-- end -->$)", re.M)
# The sizes, and the calls: by one of the names that the tables have for it.
SIZES = ("1,000", "100,000")
CALLS = {
    "insert": ("insert without room", "insert"), "look-up": ("look-up, hit",), "look-up that misses": ("look-up, miss",), "removal": ("removal",),
}
# What is compared with what, and where: the page, the mark of its table, the heading of the part, and the other side.
ROWS = (
    ("`IdHashMap`, with std's `HashMap<K, T>`", SPEED, "bench/beside PATH --page", "1 key", "std"),
    ("`BiHashMap`, with the Rust crate's", SPEED, "bench/beside PATH --page", "2 keys", "crate"),
    ("`TriHashMap`, with the Rust crate's", SPEED, "bench/beside PATH --page", "3 keys", "crate"),
    ("`IdOrdMap`, with std's `BTreeMap`", ORDERED, "bench/run --ordered --table", "IdOrdMap", "std"),
    ("`BiHashOrdMap`, with a slab, two `HashMap`s and a `BTreeSet` by hand", SPEED, "bench/run --sorted --table", "BiHashOrdMap", "std"),
)


def block(page, mark):
    """Returns what `bench/page` wrote below a mark."""
    text = sources.read(page)
    return text[(begin := text.index(f"<!-- {mark} -->")):text.index("<!-- end -->", begin)]


def ratios(page, mark, part, side):
    """Returns the ratios of each call beside a side, by size."""
    head, sizes, *lines = re.search(rf"^{part}:( .*\n(?:.+\n)*)", block(page, mark), re.M)[1].split("\n")
    sides = re.findall(r"beside (\w+)", head)
    names = sizes.split()[1:]
    count = len(names) // len(sides)
    at = sides.index(side) * count
    rows = (re.fullmatch(rf"(\S.*?) +(?:\S+)((?: +\S+){{{len(names)}}})", it) for it in lines)
    return {it[1]: dict(zip(names[at:at + count], it[2].split()[at:at + count])) for it in rows if it}


def programs():
    """Yields the cells of each row of each table of whole programs, by what the row is called."""
    for table in re.findall(r"^\|.*\n\|[-|]+\n((?:\|.*\n)+)", block(SPEED, "bench/beside PATH --whole"), re.M):
        yield {name: cells for name, *cells in ([cell.strip() for cell in line.strip("| ").split("|")] for line in table.splitlines())}


def made():
    """Returns the text between the lines."""
    lines = [f"| {' | '.join(['', *CALLS])} |", "|---" * (len(CALLS) + 1) + "|"]
    for name, *where in ROWS:
        of = ratios(*where)
        cells = [next(("; ".join(of[it].get(size, "-").lstrip("~") for size in SIZES) for it in names if it in of), "") for names in CALLS.values()]
        lines.append(f"| {name} | {' | '.join(cells)} |")
    records, book, sessions = programs()
    here, by_hand = records["`BiHashMap`"], records["two `HashMap`s and a `Vec`, with the hasher of `BiHashMap`"]
    held = float(here[-1]) / float(by_hand[-1])
    lines += [
        "", "Whole programs: with a million records under two keys, looked up and written in order, "
        f"`BiHashMap` takes {by_hand[1]} of the time and {held:.2f} of the memory of two `HashMap`s in step. An order book of",
        f"200,000 orders takes {book['`HashMap`, `BTreeSet` of rank, time, number'][1]} of the time of a `HashMap` and a `BTreeSet` in step, and 200,000 sessions that expire, "
        f"under two keys, take {sessions['two `HashMap`s, `BTreeSet`'][1]} of that of two `HashMap`s and a `BTreeSet`.",
    ]
    return "\n".join(lines) + "\n"


def front(text):
    """Returns a text with these lines in it."""
    return BLOCK.sub(lambda _: made(), text)
