"""Makes the crates that are built and run without a proof: the programs of tests/programs, and the loops and the program of bench/.

tests/programs/libraries.txt names these crates with their libraries. A text NAME.rattle of such a crate becomes src/NAME.rt, and any other file of
its folder stays as it is. From the texts of THREE and ONE, which are for the map with two keys, tests/making/widen.py and tests/making/narrow.py make the
texts for three keys and for one key. A text by hand goes before one that is made: `width.rattle` has what is otherwise at one key.
"""
import glob
import os
import re
import sys

sys.dont_write_bytecode = True
sys.path.insert(0, os.path.dirname(os.path.dirname(os.path.abspath(__file__))))
import sources  # noqa: E402
import narrow  # noqa: E402
import widen  # noqa: E402
from sources import read  # noqa: E402

LIBRARIES = sources.libraries("tests/programs/libraries.txt")
# The libraries among them, of which others make programs.
USED = {it for of in LIBRARIES.values() for it in of if it in LIBRARIES}
# The folder of each crate that has texts; the others are made from these.
OF_BENCH = {"bench_loops": "bench/loops", "bench_whole": "bench/whole_program", "bench_proved": "bench/proved_program"}
FOLDERS = {it: folder for it in LIBRARIES if os.path.isdir(folder := OF_BENCH.get(it, f"tests/programs/{it}"))}
# How the paths of the texts begin that are written anew at one key, and at three.
ONE = ("test_calls_bi/", "bench_loops/src/two_keys")
THREE = (*ONE, "test_load/src/two_keys")


def texts_of(crate):
    """Returns the files of a crate's folder by their paths below crates/, each with its text."""
    files = [it for it in glob.glob(f"{FOLDERS[crate]}/**", recursive=True) if os.path.isfile(it)]
    paths = {it: re.sub(r"(.*)\.rattle$", r"src/\1.rt", os.path.relpath(it, FOLDERS[crate])) for it in sorted(files)}
    return {f"{crate}/{path}": read(it) for it, path in paths.items()}


def other_widths(texts):
    """Returns the texts at three keys and at one by their paths, from those at two."""
    made = {widen.renamed(path): widen.three_keys(text) for path, text in texts.items() if path.startswith(THREE)}
    one = {narrow.path_of(path): text for path, text in texts.items() if path.startswith(ONE)}
    return {**made, **{path: narrow.one_key(text, True) for path, text in one.items() if path}}


def texts(crates=LIBRARIES):
    """Returns the files of these crates, and of those that they use or that are made from them, by their paths below crates/."""
    by_hand = {}
    for crate in sorted(FOLDERS.keys() & {it for of in crates for it in {of} | sources.below(of, LIBRARIES)}):
        by_hand.update(texts_of(crate))
    return {**other_widths(by_hand), **by_hand}


def make(top, crates=LIBRARIES):
    """Writes these crates below a folder."""
    for path, text in texts(crates).items():
        sources.write(f"{top}/crates/{path}", text)
