"""Reads the files of tests/cases/lines. The head of tests/cases/run says what their lines mean."""
import dataclasses
import itertools
import re

import sources


@dataclasses.dataclass
class Case:
    """A case: where it begins, its arguments, the lines of its input, what it has to print, its status, and its calls with their answers."""

    place: str
    words: list
    input: list
    output: list
    errors: list
    status: int
    calls: list


def spread(line):
    """Returns the lines that a line stands for: one, or with `LEAST..MOST` in front one for each number."""
    span = re.match(r"(\d+)\.\.(\d+) (.*)", line)
    put = lambda number: re.sub(r"(?:(\d+)([-+]))?#", lambda it: str(int(it[1] or 0) + (-number if it[2] == "-" else number)), span[3])
    return [put(it) for it in range(int(span[1]), int(span[2]) + 1)] if span else [line]


def each(words):
    """Returns the words once for each part of those that have several, joined by commas."""
    return [*map(" ".join, itertools.product(*(it.split(",") for it in words.split())))]


def calls_of(lines):
    """Returns the calls of lines `= ..`, each with its answer. What goes on with a map follows each of the calls that begin it."""
    groups = []
    for line in lines:
        found = [re.fullmatch(r"= ((?:\d\S* )?(?:!\d+ )?)(.*?): (.*)", it).groups() for it in spread(line)]
        calls = [(begin + it, answer) for begin, words, answer in found for part in words.split(" | ") for it in each(part)]
        if found[0][0][:1].isdigit() or not groups:
            groups.append((calls, []))
        else:
            groups[-1][1].extend(calls)
    return [it for heads, tail in groups for head in heads for it in (head, *tail)]


def cases(name):
    """Yields the cases of a file."""
    text = sources.read(f"tests/cases/lines/{name}")
    if not re.match(r"(?:#.*\n|\n)*(?:\$|$)", text):
        raise ValueError(f"tests/cases/lines/{name}: no case has begun before its first line")
    for begun in re.finditer(r"^\$(.*)\n((?:(?!\$).*\n)*)", text, re.M):
        lines = [it for it in begun[2].split("\n") if it and it[0] != "#"]
        calls = calls_of(it for it in lines if re.match(r"(?:\d+\.\.\d+ )?= ", it))
        taken, output, errors, status, before = [[words] for words, _ in calls], [f"{words}: {answer}" for words, answer in calls], [], 0, ""
        for line in itertools.chain.from_iterable(map(spread, lines)):
            mark, rest = line[0], line[2:]
            if mark in ">|":
                taken += [] if mark == "|" == before else [[]]
                taken[-1].append(rest.partition(" -> ")[0])
                output += [rest.partition(" -> ")[2]] * (" -> " in rest)
            elif mark == "!":
                errors.append(rest)
            elif mark == "?":
                status = int(rest)
            elif mark != "=":
                output.append(line)
            before = mark
        place = f"tests/cases/lines/{name}:{text.count(chr(10), 0, begun.start()) + 1}"
        yield from (Case(place, it.split(), [*way], output, errors, status, calls) for it in each(begun[1]) for way in itertools.product(*taken))
