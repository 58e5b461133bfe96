"""What scripts read of this repository: the functions of the .rt sources with their contracts, crates.txt and tests/counts. A script that
imports this module works at the top of the repository from then on.

Functions are found by the layout that rt fmt writes. Each place in a text is the number of a line, from 0 on.
"""
import dataclasses
import glob
import itertools
import os
import re
import shutil
import subprocess
import sys

# The folder in which the script was begun.
FROM = os.getcwd()
os.chdir(os.path.join(os.path.dirname(os.path.abspath(__file__)), ".."))
# The folders of the modules that scripts share.
sys.path += [os.path.abspath(f"tests/{it}") for it in ("making", "cases", "pages")]
# A script that reads its own arguments says what its head says; argparse says more.
if {"-h", "--help"} & {*sys.argv[1:]} and "argparse" not in sys.modules:
    print(sys.modules["__main__"].__doc__)
    sys.exit()
HEAD = re.compile(r'( *)((?:(?:[a-z]+(?:\([^)]*\))?|"C") )*)fn (\w+)')


def read(path):
    """Returns the text of a file."""
    with open(path, encoding="utf-8") as file:
        return file.read()


def write(path, text):
    """Writes a file, and makes its folder if there is none."""
    os.makedirs(os.path.dirname(path), exist_ok=True)
    with open(path, "w", encoding="utf-8") as file:
        file.write(text)


def script():
    """Returns the name of the script, by its path from the top of the repository."""
    return os.path.relpath(os.path.join(FROM, sys.argv[0]))


def finish(faults, *well):
    """Prints what is wrong, or else what is well, after the script's name, and ends the script with status 1 or 0."""
    for it in faults or well:
        print(f"{script()}: {it}")
    sys.exit(bool(faults))


def counts(kind):
    """Returns how many there are of a kind, by name: tests/counts has a line `KIND NAME NUMBER` for each. A check of the kind compares it."""
    lines = (it.split() for it in read("tests/counts").split("\n") if it.startswith(f"{kind} "))
    return {name: int(number) for _, name, number in lines}


def kit():
    """Returns the folder of the toolchain. The script ends if there is none."""
    found = shutil.which("rt")
    if not found:
        sys.exit(f"{script()}: `rt`, the command of the Rattle toolchain, is not on the path: README says under \"Run it\" what one needs")
    return os.path.dirname(os.path.dirname(os.path.realpath(found)))


def libraries(path="crates.txt"):
    """Returns each crate with the libraries that crates.txt, or a file of its form, names for it."""
    lines = (it for it in read(path).split("\n") if it and not it.startswith("#"))
    return {it.partition(":")[0].split()[0]: it.partition(":")[2].split() for it in lines}


# What each crate of crates.txt is, for the scripts that go by it. A caller, a test and an example have that word in front of their name.
KINDS = {
    "iddqd_store": "store", "iddqd_id": "hash map", "iddqd_bi": "hash map", "iddqd_tri": "hash map", "iddqd_order": "order", "iddqd_ord": "ordered map", "iddqd_sorted": "sorted map",
    "iddqd_commands": "commands", "iddqd_commands_bi": "commands", "iddqd_commands_tri": "commands",
    "iddqd_serde": "serde",
    "iddqd_text": "text program", "iddqd_run": "text program",
}


def kind_of(crate):
    """Returns what a crate is: its kind by KINDS, or the word in front of its name."""
    return KINDS.get(crate) or next((it for it in ("caller", "test", "example") if crate.startswith(f"{it}_")), None)


def crates(*kinds, left_out=None):
    """Returns the crates of crates.txt, in its order: those of these kinds, or else all that a script does not leave out. What it leaves out are
    kinds or crates, each with the reason. The script ends if a crate is of no kind, has no folder, or has a folder and no line in crates.txt, and if
    it leaves out or asks for what is not there: so no crate is passed over because a script does not know it."""
    named, there = [*libraries()], {it.split("/")[1] for it in glob.glob("crates/*/src")}
    known = {*named, *map(kind_of, named)}
    faults = [f"crates.txt has {it}, and KINDS of tests/sources.py does not say what it is" for it in named if not kind_of(it)]
    faults += [f"crates.txt has no line for crates/{it}" for it in sorted(there - {*named})]
    faults += [f"crates.txt has {it}, and there is no crates/{it}/src" for it in named if it not in there]
    faults += [f"KINDS of tests/sources.py has {it}, and crates.txt does not" for it in KINDS if it not in named]
    faults += [f"{it} is named where crates are chosen, and no crate is one, or is called so" for it in (*kinds, *(left_out or ())) if it not in known]
    if faults:
        finish(faults)
    return [it for it in named if (kind_of(it) in kinds if kinds else not {it, kind_of(it)} & {*(left_out or ())})]


def below(crate, named):
    """Returns the libraries of the repository that a crate uses, also by way of others."""
    return {it for dep in named[crate] if dep in named for it in {dep} | below(dep, named)}


def check_words(crate, folder, built):
    """Returns the command that checks the crate whose files are in the folder, with libraries that were built there."""
    named, kit_folder = libraries(), kit()
    of = lambda it: f"{built}/crates/{it}/out/rlib"
    root = "src/main.rt" if os.path.exists(f"{folder}/src/main.rt") else "src/lib.rt"
    words = [f"{kit_folder}/bin/rattle", "check", "--crate-name", crate, root]
    for it in ["std", *named[crate]]:
        words += ["--extern", f"{it}={of(it) if it in named else f'{kit_folder}/rlibs'}/{it}.rlib"]
    for it in [f"{kit_folder}/rlibs", *map(of, sorted(below(crate, named)))]:
        words += ["-L", f"dependency={it}"]
    return [*words, "--antt-project", f"{kit_folder}/rattle/logic/antt-project.json", "--logic-built", f"{kit_folder}/logic_built"]


def files(crate="*", part="src/**/*.rt"):
    """Returns the source files of a crate, or other files of it, in order. The name of the crate may have `*`."""
    return sorted(glob.glob(f"crates/{crate}/{part}", recursive=True))


def files_of_calls(crate):
    """Returns the source files with the calls of a map: those of `src/map`, and of a layer over maps those of its widths too."""
    return files(crate, "src/map/*.rt") + files(crate, "src/widths/*.rt")


def in_maps(places, maps=("id", "bi", "tri")):
    """Returns these places, and in place of one with a `*` those of the maps."""
    return {place.replace("*", of): it for place, it in places.items() for of in maps}


def linked(folder, of, own=()):
    """Makes a folder of links to what another one has, and of these programs with their texts in place of those of their names."""
    for name, text in dict(own).items():
        write(f"{folder}/{name}", text)
        os.chmod(f"{folder}/{name}", 0o755)
    os.makedirs(folder, exist_ok=True)
    for name in set(os.listdir(of)) - set(os.listdir(folder)):
        os.symlink(f"{of}/{name}", f"{folder}/{name}")


def refusing(room):
    """Builds tests/memory/fail_alloc.c in a folder, and returns the words that load it into the program behind them."""
    library, clang = f"{room}/fail_alloc.so", f"{kit()}/toolchain/bin/clang"
    subprocess.run([clang, "-O1", "-shared", "-fPIC", "-nostdlib", "-fuse-ld=lld", "-o", library, "tests/memory/fail_alloc.c"], check=True)
    return ["env", f"LD_PRELOAD={library}"]


def tests(text):
    """Returns how many `#[test]`s a text has."""
    return len(re.findall(r"^ *#\[test\]", text, re.M))


def module_of(path):
    """Returns the module of a source file, for example `map::slots`."""
    return re.sub(r"^crates/\w+/src/|\.rt$", "", path).replace("/", "::")


@dataclasses.dataclass(eq=False)
class Function:
    """A function of a text. Its block is the head of the impl or of the public trait that it is in, as one line, or nothing; the words
    are those before `fn`; its comment has the lines `///` above it; its signature ends before its contract; its contract has
    its clauses, and the comments between them, where a line that continues a clause is indented; its body has the lines
    between its braces. The four places are those of its first attribute or else its head, of its head, of its body, and behind all of it."""

    name: str
    words: str
    indent: str
    block: str
    comment: list
    signature: str
    contract: list
    has_body: bool
    body: list
    first: int
    head: int
    begin: int
    end: int

    @property
    def is_public(self):
        """Whether it is public by its own words."""
        return self.words == "pub "

    @property
    def is_asked(self):
        """Whether a public trait asks for it."""
        return self.block.startswith("pub trait ")

    @property
    def is_offered(self):
        """Whether callers can use it."""
        return self.is_public or self.is_asked


def functions(text):
    """Yields the functions of a text, in order."""
    lines, block = [*text.split("\n"), ""], ""
    for at, line in enumerate(lines):
        found = HEAD.match(line)
        if found:
            yield function_at(lines, at, *found.groups(), block)
        elif line.startswith(("impl", "pub trait ")):
            block = head_at(lines, at)
        elif line == "}":
            block = ""


def head_at(lines, at):
    """Returns the head of the impl or trait that begins in this line, as one line, up to its bounds behind `where`."""
    end = next((it for it in range(at, len(lines)) if "{" in lines[it] or lines[it + 1] == "where"), at)
    return re.sub(r"(?<=<) |,? (?=>)", "", " ".join(it.strip() for it in lines[at : end + 1]))


def function_at(lines, head, indent, words, name, block):
    """Returns the function that has its head in this line. What opens its body has the indent of the head, and other lines in
    between have more, except for those that close a bracket and those of a `where`."""
    first = open_at = head
    while lines[first - 1].startswith(f"{indent}#["):
        first -= 1
    above = itertools.takewhile(lambda it: it.startswith("///"), (it.strip() for it in lines[:first][::-1]))
    opens, goes_on = re.compile(rf"{indent}(?:\S.* )?{{$"), re.compile(rf"{indent}(?:[ )>]|where\b|{{$)")
    while not opens.match(lines[open_at]) and goes_on.match(lines[open_at + 1]):
        open_at += 1
    is_open, begin = bool(opens.match(lines[open_at])), open_at + 1
    close = next((it for it in range(begin, len(lines)) if lines[it] == indent + "}"), len(lines)) if is_open else begin
    # Without a line that has only the brace.
    told = lines[head : begin - (lines[open_at] == indent + "{")]
    clause = re.compile(rf"{indent}    (?:requires|ensures|//)")
    at = next((it for it, line in enumerate(told) if clause.match(line)), len(told))
    contract = [("" if clause.match(it) else "    ") + it.strip() for it in told[at:]]
    if contract and not is_open:
        contract[-1] = contract[-1].removesuffix(";")
    return Function(
        name=name, words=words, indent=indent, block=block if indent else "", comment=[*above][::-1],
        signature=re.sub(r" *(?:\{\}?|;)$", "", "\n".join(told[:at])), contract=contract, has_body=is_open or lines[head].endswith("{}"),
        body=lines[begin:close], first=first, head=head, begin=begin, end=close + is_open)


def impl_of(line):
    """Returns the parameters, the trait and the type of an impl, from its head."""
    rest, depth, own = line[len("impl"):], 0, ""
    for at, letter in enumerate(rest if rest.startswith("<") else ""):
        depth += (letter == "<") - (letter == ">" and rest[at - 1] != "-")
        if not depth:
            own, rest = rest[: at + 1], rest[at + 1 :]
            break
    trait, _, of = rest.strip(" {").rpartition(" for ")
    return own, trait.strip(), of
