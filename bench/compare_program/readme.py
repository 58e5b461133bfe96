#!/usr/bin/env python3
"""Runs the programs of iddqd's page over facetweave::iddqd: readme.py README FOLDER, where FOLDER has a package that depends on facetweave.

Each block of Rust is a program, of which only the `use` lines change. A block that does not compile by itself goes on where an earlier one
ends, or leaves out its `use` line: then the block before it stands before it, or all names of the module are there.
"""
import os
import re
import subprocess
import sys


def program(text):
    text = re.sub(r"^use (iddqd|equivalent)::", "use facetweave::iddqd::", text, flags=re.M)
    return "#![allow(dead_code, unused_imports)]\nfn main() {\n" + text + "\n}\n"


def cargo(folder, name, text, *command):
    with open(f"{folder}/examples/{name}.rs", "w", encoding="utf-8") as file:
        file.write(text)
    return subprocess.run(["cargo", *command, "--quiet", "--offline", "--example", name], cwd=folder, capture_output=True, text=True)


def main():
    readme, folder = sys.argv[1:]
    os.makedirs(f"{folder}/examples", exist_ok=True)
    blocks = re.findall(r"^(`{3,})rust\n(.*?)^\1$", open(readme, encoding="utf-8").read(), flags=re.M | re.S)
    before, failed = "", 0
    for number, (_, block) in enumerate(blocks, 1):
        tries = {"": block, " after the one before": before + block, " with the module's names": "use facetweave::iddqd::*;\n" + block}
        for how, text in tries.items():
            built = cargo(folder, f"block{number}", program(text), "build")
            if built.returncode == 0:
                break
        ran = cargo(folder, f"block{number}", program(text), "run")
        failed += ran.returncode != 0
        print(f"block {number}{how}: " + ("as documented" if ran.returncode == 0 else "fails\n" + ran.stderr))
        before = text + "\n"
    print(f"{len(blocks)} programs of {os.path.basename(readme)}, {failed} fail")
    sys.exit(failed > 0)


if __name__ == "__main__":
    main()
