"""What `run` and `check` read: the lists of mutants, and the functions of a crate by the names that a check of the toolchain gives them."""
import dataclasses
import glob
import itertools
import os
import re
import sys

sys.dont_write_bytecode = True
sys.path.insert(0, os.path.dirname(os.path.dirname(os.path.abspath(__file__))))
import sources  # noqa: E402
from sources import read  # noqa: E402


@dataclasses.dataclass(eq=False)
class Mutant:
    """A mutant: its target, the labels of the clauses that it breaks, if it names them, and its pairs of an old and a new text."""

    crate: str
    name: str
    target: str
    breaks: list = dataclasses.field(default_factory=list)
    pairs: list = dataclasses.field(default_factory=list)


def crates():
    """Returns the crates that have a list."""
    return sorted(os.path.basename(it).removesuffix(".list") for it in glob.glob("tests/mutants/*.list"))


def lists(crate):
    """Returns the mutants of a crate, in order, and the other lines of its list, each as its kind, its functions and its text."""
    path, found, says = f"tests/mutants/{crate}.list", [], []
    for line in read(path).split("\n") if os.path.isfile(path) else []:
        word, _, text = line.partition(": ")
        if word in ("like", "no mutant"):
            says.append((word, *re.split(" -> |: ", text, maxsplit=1)))
        elif re.match(r"\w+: ", line):
            found.append(Mutant(crate, word, text))
        elif word == "    breaks":
            found[-1].breaks += text.split()
        elif word == "    old":
            found[-1].pairs.append([text])
        elif word == "    new":
            found[-1].pairs[-1].append(text)
        elif line and not line.startswith("#"):
            sys.exit(f"tests/mutants/{crate}.list: no such line: {line}")
    return found, says


def functions(crate):
    """Yields the functions of a crate that have a body, as sources.functions does. Each also has its file; its path, by which a check names
    it, but for the arguments of its type and its trait; whether that is the whole name; its type; and where its text and its body begin and end."""
    texts, homes = {path: read(path) for path in sources.files(crate)}, {}
    modules = {path: [it for it in sources.module_of(path).split("::") if it not in ("lib", "main", "mod")] for path in texts}
    for path, text in texts.items():
        homes.update({it: modules[path] for it in re.findall(r"^(?:pub(?:\([^)]*\))? )?(?:struct|enum) (\w+)", text, re.M)})
    for path, text in texts.items():
        begins = [0, *itertools.accumulate(len(it) + 1 for it in text.split("\n"))]
        for it in (it for it in sources.functions(text) if it.has_body and not it.is_asked):
            trait, it.type, name, is_whole = owner_of(it.block) if it.block else ("", "", "", True)
            module = homes.get(name, modules[path]) if is_whole and trait in ("", "Drop") and name else modules[path]
            it.path = "::".join(it for it in (*module, name + trait.replace("Drop", ""), it.name) if it)
            it.file, it.is_whole = path, is_whole and trait != "Drop"
            it.span, it.body_span = (begins[it.first], begins[it.end]), (begins[it.begin], begins[it.end - 1])
            yield it


def owner_of(block):
    """Returns the trait and the type of an impl, by its head, how a check names the type, and whether that is all that it names: it also names
    arguments that are no parameters of the impl."""
    own, trait, of = sources.impl_of(block)
    of = re.sub(r"'\w+ ", "", of)
    bare = re.sub(r"(?<=\w)<.*", "", of)
    lent = re.match(r"&(?:mut )?(.*)", bare)
    name = "Ref" + {"str": "Str", "[T]": "Slice"}.get(lent[1], lent[1] if len(lent[1]) > 1 else "") if lent else bare
    name = "Tuple2" if name.startswith("(") else "Any" if re.fullmatch("[A-Z]", name) else name.rpartition("::")[2]
    arguments = re.findall(r"(?<!')\b[a-zA-Z]\w*", of.partition("<")[2])
    is_whole = bare[0] not in "&(" and "<" not in trait and all(re.search(rf"[<,] *(?:const )?{it}\b", own) for it in arguments)
    return re.sub(r"<.*", "", trait).rpartition("::")[2], bare, name, is_whole


def target_of(mutant, found):
    """Returns the function of these that a mutant can change and that its target names, or None if there is not exactly one."""
    of = [it for it in found if it.path == re.sub(r"\+\w+", "", mutant.target) and changed(mutant, it)]
    return of[0] if len(of) == 1 else None


def changed(mutant, function):
    """Returns the text of a function with the mutant's body, or None if an old text is not exactly once in it, before any change and in
    its turn."""
    text = was = read(function.file)[slice(*function.span)]
    for pair in mutant.pairs:
        if len(pair) < 2 or {text.count(pair[0]), was.count(pair[0])} != {1}:
            return None
        text = text.replace(*pair)
    return text if mutant.pairs else None
