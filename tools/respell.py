#!/usr/bin/env python3
"""Brings the names of this repository's definitions and lemmas to today's spelling: words in snake case, types and modules in camel case.

usage: python3 tools/respell.py [FOLDER]     once, after port.py, at the top of the repository or of a copy of it in FOLDER

The names are those of respelled.tsv beside this file: an old name and a new one a line. A lemma whose new name would be that of the word
it speaks of has `_lem` behind it. Functions of src/, exported names, strings, inputs and outputs keep their names; comments are not touched.
"""

import glob
import os
import re
import sys

HERE = os.path.dirname(os.path.realpath(__file__))
# A name of antt's, with the dot before it where it is a field or the end of a path.
NAME = re.compile(r"(\.?)([^\s(){}.;,@\"«»\[\]\\:=]+)")
FIELD = re.compile(r"^\s*(?:pub )?([^\s(){}:,.;]+(?: [^\s(){}:,.;]+)*) : ")
# Rattle makes a module of this name, so files of specs/ may not have it.
MODULE, NEW_MODULE = "Contracts", "Promises"


def read(path):
    with open(path, encoding="utf-8") as f:
        return f.read()


def write(path, text):
    with open(path, "w", encoding="utf-8") as f:
        f.write(text)


def fields_of(text):
    """The fields that the records of a file declare."""
    found, indent = set(), None
    for line in text.split("\n"):
        code = line.split("--")[0]
        here = len(code) - len(code.lstrip())
        if re.match(r"\s*(pub )?(record|data) ", code):
            indent = here
        elif indent is not None and code.strip() and here <= indent:
            indent = None
        elif indent is not None and FIELD.match(code):
            found |= set(FIELD.match(code)[1].split())
    return found


def turn(line, mark, table, fields):
    """A line with its names respelled, but for its comment. Behind a dot only a field is one of ours: the others are Rattle's own."""
    code, dash, rest = line.partition(mark)
    code = re.sub(r"(Rattle\.\w+\.specs\.)" + MODULE + r"\b", r"\1" + NEW_MODULE, code)
    code = NAME.sub(lambda m: m[1] + (table.get(m[2], m[2]) if not m[1] or m[2] in fields else m[2]), code)
    return code + dash + rest


def main(root):
    table = dict(line.split("\t") for line in read(os.path.join(HERE, "respelled.tsv")).splitlines())
    files = [f for kind in ("antt", "rt") for f in glob.glob(os.path.join(root, "crates", "*", "*", "**", "*." + kind), recursive=True)]
    files = sorted(f for f in files if not re.search(r"crates/\w+/out/", f))
    fields = set().union(*(fields_of(read(f)) for f in files if f.endswith(".antt")))
    for f in files:
        mark = "--" if f.endswith(".antt") else "//"
        old = read(f)
        new = "\n".join(turn(line, mark, table, fields) for line in old.split("\n"))
        if f.endswith("specs/Lib.antt"):
            new = re.sub(r"(?m)^(pub mod )" + MODULE + "$", r"\1" + NEW_MODULE, new)
        if new != old:
            write(f, new)
    for f in glob.glob(os.path.join(root, "crates", "*", "specs", MODULE + ".antt")):
        os.rename(f, f.replace(MODULE, NEW_MODULE))


if __name__ == "__main__":
    main(sys.argv[1] if len(sys.argv) > 1 else ".")
