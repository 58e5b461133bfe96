"""The definitions of specs/ as tables: the lists `words FILE ..` and `cited FILE ..` of tests/pages/tables, whose head says what they are."""
import collections
import itertools
import re

from sources import crates, files, functions, kind_of, read
import widen

# The pages with lists, in the order in which one reads them.
PAGES = ("docs/DEFINITIONS.md", "docs/words.md")
# The crates whose words and labels are read, the store first, and those of which only one is: what is left out, with the reason.
LEFT_OUT = {"text program": "its contracts cite the words of the commands", **dict.fromkeys(("caller", "test", "example"), "its words are its own")}
# The crates whose words mean what those of the two-key text mean, with one key or three in place of two.
OTHER_WIDTHS = {"iddqd_id", "iddqd_tri", "iddqd_commands_tri"}
SPECS, CRATES = "specs/**/*.antt", crates(left_out=LEFT_OUT)
# A public definition below its comment, up to an empty line or the next comment; and what a module around definitions gives them.
DEFINITION = re.compile(r"(?P<comment>(?:^ *--.*\n)*)^(?P<indent> *)(?P<kind>abbrev pub|pub record|pub data|pub) "
                        r"(?!use|mod)(?P<name>[^\W\d_][\w-]*)(?P<rest>.*(?:\n(?! *--) *\S.*)*)", re.M)
MODULE = re.compile(r"^( *)module _ (.*?) where$", re.M | re.S)
# Arguments that come with the types, keys and builder of a map, for which a table has `..`; and types that it shows without their arguments.
OF_TRAITS = re.compile(r"RattleType|\.Ghosts\b|HashMembers")
LONG_TYPES = re.compile(
    r"(?<![.\w])(Entry|VacantEntry|OccupiedEntry|OccupiedEntryMut|RefMut|IterMut|InsertError|EntryRefusal)( (\w+|\([^()]*\))){3,}")
# What a comment says of a word that the contracts of public functions do not cite; and of one that those of the maps do not.
UNCITED, UNCITED_BY_MAPS = "No public clause cites it.", "No clause of a map cites it."
# A list of a page, and the part of a page that explains labels.
LIST = re.compile(r"^<!-- begin: (words|cited) (.*?) -->\n.*?^<!-- end -->$", re.M | re.S)
LABELS = re.compile(r"^## Labels .*?\n(.*?)^## ", re.M | re.S)
# A clause behind its label: one line, and those that go on with it.
CLAUSE = re.compile(r"^(?:requires|ensures)\*? (\w+) \{(.*(?:\n(?!requires|ensures).*)*)", re.M)
# A definition: its comment without and with what is behind `Example:`, and its name with its arguments and the type of its value.
Word = collections.namedtuple("Word", "file name meaning example shown")
# The words by their files; for each crate its labels with the words of their clauses, and the words that clauses cite, each with its file; and
# the words of the rows of each list, by its page and its head.
Lists = collections.namedtuple("Lists", "words labels cited rows")


def split(text, mark):
    """The parts of a text between marks that are not in brackets."""
    parts, depth = [""], 0
    for it in re.split(rf"([(\[{{)\]}}]|{mark})", text):
        depth += (it in ("(", "[", "{")) - (it in (")", "]", "}"))
        parts = [*parts, ""] if it == mark and not depth else [*parts[:-1], parts[-1] + it]
    return [it.strip() for it in parts if it.strip()]


def shortened(kind):
    """A type as the table shows it."""
    kind = kind[1:-1] if kind[0] == "(" and len(split(kind, " ")) == 1 and " × " not in kind else kind
    kind = re.sub(r"\b[a-z]+\.(?=[A-Z])", "", kind.replace(".Denot", ""))
    return LONG_TYPES.sub(r"\1 ..", kind).replace("(Unit {0})", "()")


def arguments(telescope):
    """The arguments of a telescope that are not in braces, each as its name and its type."""
    groups = filter(None, (re.match(r"\((.*?) : (.*)\)$", it, re.S) for it in split(telescope, " ")))
    return [(name, it[2]) for it in groups for name in it[1].split()]


def given(found, constructors):
    """The arguments of a definition that are not in braces, each as its name and its type, and the type of its value. Where the type has no
    name, equations give one: a name of their own, or else that of the rest of a list."""
    head, *equations = re.sub(rf"\n{found['indent']} {{4,}}", " ", found["rest"]).split("\n")
    if found["kind"] != "abbrev pub":
        return arguments(head.rpartition(" : ")[0]), "Type 0"
    *taken, value = split(head.partition(" : ")[2], "→")
    sides, named = [[it for it in split(side.split(" = ")[0], " ")[1:] if it[0] != "{"] for side in equations], []
    for part in (it for it in taken if it[0] != "{"):
        patterns = "\n".join(it[len(named)] for it in sides if len(named) < len(it))
        plain = [it for it in re.findall(r"^(?:[a-z]\w*|[A-Z])$", patterns, re.M) if it not in constructors]
        named += arguments(part) or [([*plain, *re.findall(r"^\(\w+ ∷ (\w+)\)$", patterns, re.M), "_"][0], part)]
    return named, value


def shown(found, around, constructors, types):
    """A definition as the table shows it: its name, its arguments, and the type of its value, unless it is a proposition. Names that its file
    alone has for types go."""
    named, value = given(found, constructors)
    for name, of in types:
        named, value = [(it, re.sub(rf"\b{name}\b", f"({of})", kind)) for it, kind in named], re.sub(rf"\b{name}\b", of, value)
    kinds = [(name, ".." if OF_TRAITS.search(of) else shortened(of)) for name, of in arguments(around) + named]
    # Arguments of one type are shown together, and each without a name alone.
    groups = itertools.groupby(enumerate(kinds, 1), lambda it: (it[1][1], ".." != it[1][1] and it[1][0] == "_" and it[0]))
    told = [of if of == ".." else f"({of})" if alone else f"({' '.join(it[0] for _, it in group)} : {of})" for (of, alone), group in groups]
    told = " ".join(told + [f": {shortened(value)}"] * (value != "Type 0"))
    return f"`{found['name']}`" + f" `{told}`" * bool(told)


def definitions(path):
    """Yields the public definitions of a file, each with its comment."""
    for it in DEFINITION.finditer(read(path)):
        yield it, " ".join(line.strip()[2:].strip() for line in it["comment"].splitlines())


def words_of(path):
    """The words of a file, in order."""
    text, words = read(path), []
    imported = ", ".join(re.findall(r"^use .*\b(?:Reply|TheVariants|Bag|Prelude)\.\{(.*)\}$", text, re.M)).split(", ")
    constructors = {"refl", "tt", *imported, *re.findall(r"^ +(\w+) :", "".join(re.findall(r"^pub data .*?\n\n", text, re.M | re.S)), re.M)}
    types = re.findall(r"^ *abbrev ([A-Z]\w*) : Type 0\n *\1 = (.*)$", text, re.M)
    for it, comment in definitions(path):
        modules = {module[1]: module[2] for module in MODULE.finditer(text[:it.start()]) if module[1] < it["indent"]}
        meaning, _, example = comment.partition("Example: ")
        words += [Word(path, it["name"], meaning.strip(), example, shown(it, " ".join(modules.values()), constructors, types))] * (it["kind"] != "pub")
    return words


def all_words():
    """The words of these crates, by their files as lists name them."""
    paths = sorted(it for crate in CRATES for it in files(crate, SPECS))
    return {it[len("crates/"):-len(".antt")].replace("/specs/", "/"): words_of(it) for it in paths}


def crate_of(word):
    """The crate of a word."""
    return word.file.split("/")[1]


def others(names, told):
    """Those of these names, in order, that are not told, not even at the first rank, or with the number of that rank."""
    plain = {re.sub(r"1(?=_|$)", "", it) for it in told}
    return [it for it in sorted(names) if not {it, re.sub(r"\d", "1", it)} & told and it not in plain]


def as_label(word):
    """A word as a label has it: `GivesAll` is `gives_all`."""
    return re.sub(r"(?<=[a-z])(?=[A-Z])", "_", word).lower()


def offered(text):
    """The clauses of what callers can call of a text, its impls of traits too, without comments."""
    public = (it for it in functions(text) if it.is_offered or " for " in it.block)
    return "\n".join(it.strip() for one in public for it in one.contract if not it.strip().startswith("//"))


def clauses(crate, paths=None):
    """The labels of the clauses of what callers of a crate can call, each with the words of each of its clauses; and the words of specs/ that
    these clauses cite, each with its file as lists name it."""
    labels, cited = {}, set()
    for text in map(read, files(crate) if paths is None else paths):
        lines = offered(text)
        for label, clause in CLAUSE.findall(lines):
            labels.setdefault(label, []).append({*re.findall(r"[^\W\d]\w*", clause)})
        there = {*re.findall(r"[^\W\d]\w*", lines)}
        for file, names in re.findall(r"ghost use Rattle\.(iddqd_\w+\.specs\.(?![\w.]*declared)[\w.]*)\.\{([^}]*)\}", text):
            cited.update((file.replace(".specs.", "/").replace(".", "/"), it) for it in map(str.strip, names.split(",")) if it in there)
    return labels, cited


def is_told(word, rows):
    """Whether one of these rows says what a word means: one of its name with the same comment, or, for a word at another width, or one without a
    comment, which is that of another rank, one of its name in a text of the same kind."""
    if word.meaning and crate_of(word) not in OTHER_WIDTHS:
        return any(it.name == word.name and it.meaning == word.meaning for it in rows)
    kind = kind_of(crate_of(word))
    return not others([word.name], {it.name for it in rows if kind_of(crate_of(it)) in (kind, "store")})


def needed(words, cited):
    """Of these words those that clauses cite, and those that their rows name: a word of the same crate, or else of the store."""
    of_name = collections.defaultdict(list)
    for it in (it for of in words.values() for it in of):
        of_name[crate_of(it), it.name].append(it)
    found, rest = [], [it for file, of in words.items() for it in of if (file, it.name) in cited]
    while rest:
        it = rest.pop()
        if it not in found:
            found.append(it)
            names = {*re.findall(r"`([^\W\d]\w*)", it.meaning), *re.findall(r"\b[A-Z]\w+", it.shown)} - {it.name}
            rest += [one for name in names for one in of_name[crate_of(it), name] or of_name["iddqd_store", name]]
    return found


def lists():
    """The words and labels of these crates, and the lists of the pages with the words that their rows have to have."""
    words = all_words()
    labels, cited = (dict(zip(CRATES, it)) for it in zip(*map(clauses, CRATES)))
    # The maps hand on files of the store.
    cited = {crate: {(file if file in words else re.sub(r"^\w+", "iddqd_store", file), name) for file, name in of} for crate, of in cited.items()}
    rows, told, wanted = {}, [], needed(words, set().union(*cited.values()))
    for page, kind, head in ((page, *it) for page in PAGES for it in LIST.findall(read(page))):
        begin = len(told)
        for it in (it for name in head.split() for file in words if name in (file, file.split("/")[0]) for it in words[file]):
            if it.meaning and UNCITED not in it.meaning and (kind == "words" or it in wanted and not is_told(it, told)):
                told.append(it)
        rows[page, head] = told[begin:]
    return Lists(words, labels, cited, rows)


def explained(page):
    """The labels that the table of a page explains, in order."""
    return [it for row in re.findall(r"^\| (.*?) \|", LABELS.search(read(page))[1], re.M) for it in re.findall(r"`(\w+)`", row)]


def begun(found):
    """The labels without a row of their own, each with the words of rows that begin with it. Each clause states such a word, or there is none."""
    told, begun = {it.name for of in found.rows.values() for it in of}, {}
    for label in others(set().union(*found.labels.values()), {it for page in PAGES for it in explained(page)}):
        stated = [{it for it in clause if as_label(it).startswith(label) and not others([it], told)}
                  for of in found.labels.values() for clause in of.get(label, ())]
        begun[label] = set().union(*stated) if all(stated) else set()
    return begun


def pages(found):
    """Yields each page with its lists as the sources make them."""
    labels = collections.defaultdict(list)
    for label, name in ((label, name) for label, of in begun(found).items() for name in of):
        labels[name].append(label)
    shown = lambda it: ", ".join([it.shown, *(f"label `{label}`" for label in sorted(labels[it.name]))])
    table = lambda of: ["| Word | Meaning | Example |", "|---|---|---|", *(f"| {shown(it)} | {it.meaning} | {it.example} |" for it in of)]
    for page in PAGES:
        made = lambda it: "\n".join([f"<!-- begin: {it[1]} {it[2]} -->", *table(found.rows[page, it[2]]), "<!-- end -->"])
        yield page, LIST.sub(made, read(page))


def without_row(found):
    """Yields the words that clauses cite, and the labels, that no row of the pages explains."""
    rows = [it for of in found.rows.values() for it in of]
    for crate, file, name in sorted((crate, *it) for crate, of in found.cited.items() for it in of):
        if not all(is_told(it, rows) for it in found.words.get(file, ()) if it.name == name):
            yield f"{name} of {file}, which a contract of {crate} cites, has no row on {' or '.join(PAGES)}"
    yield from (f"the label {it} has no row on {' or '.join(PAGES)}, and in some clause it begins no word that has one" for it, of in begun(found).items() if not of)


def wrong_members():
    """Yields what the public traits give to contracts, such as `stands_for`, where a clause cites it and no row says what it means."""
    texts = [read(path) for crate in CRATES for path in files(crate)]
    asked = {it for text in texts for trait in re.findall(r"^pub trait .*?^}", text, re.M | re.S) for it in re.findall(r"^    ghost (\w+):", trait, re.M)}
    cited = {it for text in texts for it in re.findall(r"(?:\b[A-Z]\w*|⟧)\.(\w+)", offered(text))}
    section = re.search(r"^## What traits give\n(.*?)^## ", read(PAGES[0]), re.M | re.S)[1]
    told = {*re.findall(r"\.(\w+)", "".join(re.findall(r"`[^`]+`", section)))}
    yield from (f"{PAGES[0]} does not say what {it} is, which a trait gives and a contract cites" for it in others(asked & cited, told))


def wrong_labels(found):
    """Yields what is wrong with the tables of labels: a label means the same everywhere, and no table explains one that no clause and no field
    has. At one key, and at ranks after the first, a label stands for that of the first rank."""
    told = [it for page in PAGES for it in explained(page)]
    yield from (f"{' or '.join(PAGES)} explains the label {it} twice" for it in sorted({*told}) if told.count(it) > 1)
    for page in PAGES:
        if re.search(r"\bexceptions?\b|\bbut for\b", LABELS.search(read(page))[1].partition("\n|")[0]):
            yield f"{page} says that a label has two meanings: give one of them another label"
    fields = {it for path in files("iddqd_*", SPECS) for it in re.findall(r"^ +pub (\w+) :", read(path), re.M)}
    for it in sorted({*told} - fields.union(*found.labels.values())):
        yield f"{' or '.join(PAGES)} says what the label {it} means, and no clause has it"


def wrong_shared(found):
    """Yields the words that several crates define and of which docs/words.md does not say whether they mean the same, and those of which it says so without
    need. What maps of other widths define means the same."""
    crates_of = collections.defaultdict(set)
    for it in (it for of in found.words.values() for it in of if it.meaning and crate_of(it) not in OTHER_WIDTHS):
        crates_of[it.name].add(crate_of(it))
    shared = {it for it, of in crates_of.items() if len(of) > 1}
    section = re.search(r"^## Words of several crates\n(.*?)^## ", read(PAGES[1]), re.M | re.S)[1]
    alike, _, apart = section.partition("\n|")
    alike, apart = re.findall(r"`([^`]+)`", alike), re.findall(r"^\| `([^`]+)` \|", "\n|" + apart, re.M)
    for it in sorted({*alike, *apart} ^ shared):
        yield f"{PAGES[1]}, Words of several crates: {it} " + ("is defined in several crates, and is not listed" if it in shared else "is listed, and is not defined in several crates")
    yield from (f"{PAGES[1]}, Words of several crates: {it} is listed twice" for it in sorted({*alike, *apart}) if (alike + apart).count(it) > 1)


def faults(found):
    """Yields what is wrong with the comments of words, with the rows of words and labels, and with what docs/PROVED.md names."""
    for it in (it for of in found.words.values() for it in of):
        if it.meaning and not re.fullmatch("(?:`|[A-Z]).*\\.", it.meaning):
            yield f"{it.file}: the comment of {it.name} is no whole sentence: {it.meaning}"
        if it.example and not it.example.endswith("."):
            yield f"{it.file}: the example of {it.name} has to end with a full stop"
    for crate, file, name in sorted((crate, *it) for crate, of in found.cited.items() for it in of):
        for it in (it for it in found.words.get(file, ()) if it.name == name):
            if UNCITED in it.meaning or UNCITED_BY_MAPS in it.meaning and kind_of(crate) in ("hash map", "ordered map"):
                yield f"{it.file}: the comment of {it.name} says that no clause cites it, and a contract of {crate} does"
    yield from without_row(found)
    yield from wrong_members()
    yield from wrong_labels(found)
    yield from wrong_shared(found)
    name = r"(?:requires|ensures)\*? (\w+) \{|\bfn (\w+)|ghost (\w+)\b|\bpub (?!fn )(?:record |data )?(\w+) |^ *abbrev pub (\w+)"
    there = {word for path in files() + files("*", SPECS) for it in re.findall(name, read(path), re.M) for word in it}
    named = (it for inside in re.findall(r"\(([^()]*`[^()]*)\)", read("docs/PROVED.md")) for it in re.findall(r"`(\w+)`", inside))
    yield from (f"docs/PROVED.md names {it} in brackets, and no contract has it" for it in named if it not in there)
