#!/usr/bin/env python3
"""Spells the repository's own definitions and lemmas as today's Rattle does: `tokenAfter` is `token_after`, `if-else` in specs/ `if_else`.

    python3 tools/port/respell.py            at the top of the repository, once, after /opt/rattle/port/port.py

Two tables say what is written: `lemmas.tsv` has a file, a name and its new one (a lemma that would fall together with a definition
ends in `_lem`), `respelled.tsv` a name and its new one, for every file. Names of src/ stay, and so does what is quoted. The words are
turned by snake.py, a script of the toolchain's, so that the lines of a block stay under one another; then `rt fmt` lays the files out.
It proves nothing.
"""
import glob
import os
import re
import subprocess
import sys

HERE = os.path.dirname(os.path.realpath(__file__))
SNAKE = "/opt/rattle/port/notes/2026-11-18-names-are-in-snake-case/snake.py"


def rows(name):
    with open(os.path.join(HERE, name), encoding="utf-8") as f:
        return [line.rstrip("\n").split("\t") for line in f]


def rename_lemmas():
    """Turns a lemma's name in the files that declare or import it, where no part of a path or a field is meant."""
    for path, old, new in rows("lemmas.tsv"):
        with open(path, encoding="utf-8") as f:
            text = f.read()
        turned = re.sub(r"(?<![\w'.-])" + re.escape(old) + r"(?![\w'-])", new, text)
        with open(path, "w", encoding="utf-8") as f:
            f.write(turned)


def main():
    rename_lemmas()
    table = os.path.join(HERE, "respelled.tsv")
    said = subprocess.run(
        [sys.executable, SNAKE, "--table", table, "--only", "antt,rt", "--prose", "all", "crates"],
        capture_output=True, text=True, check=False,
    )
    print("\n".join(line for line in (said.stdout + said.stderr).splitlines() if not line.startswith("look:")))
    for folder in sorted(glob.glob("crates/*/src")):
        subprocess.run(["rt", "fmt"], cwd=os.path.dirname(folder), capture_output=True, check=False)


if __name__ == "__main__":
    main()
