#!/usr/bin/env python3
"""Brings the names of this repository's definitions and lemmas to today's spelling: words in snake case, a dash only between two
names, and _lem after a lemma that would have a definition's name. respell.tsv, beside this file, lists the old and new names; the names
that port.py respells by itself are not in it.

usage: python3 tools/respell.py, at the top of the repository, once, after port.py of the Rattle kit

Names of Rattle's own code, exported C names, strings, inputs and outputs keep their names. In proofs/F/Proof.antt a name after a dot is
a step of the code of F, and only the field of a record keeps up with its declaration.
"""

import os
import re

HERE = os.path.dirname(os.path.abspath(__file__))
TOKEN = re.compile(r"[^\s(){}\[\];,.:`\"|]+")
RECORD = re.compile(r"^( *)(?:pub )?record [^\n]*where\n((?:(?:\1 +[^\n]*)?\n)*)", re.M)
FIELD = re.compile(r"^ *(?:pub )?([^\s(){}\[\];,.:]+) :", re.M)
# A name that a new name of this list takes: the file's ending, the old name, the new one.
TAKEN = [
    ("line/specs/Exchanged.antt", "on_line", "on_line_lem"),
    ("line/proofs/Exchanged.antt", "on_line", "on_line_lem"),
    ("line_list/proofs/Listing.antt", "on_line", "on_line_lem"),
    ("line_draw/proofs/walk/enter/Proof.antt", "on_line", "on_line_lem"),
    ("line_draw/proofs/Within.antt", "in_window", "in_window_lem"),
    ("line/proofs/FirstEnd.antt", "long_of", "long_of_lem"),
    ("line/proofs/NearLine.antt", "near_step", "near_step_lem"),
]


def files():
    for top in ("crates", "docs", "README.md"):
        if os.path.isfile(top):
            yield top
        for folder, folders, names in os.walk(top):
            folders[:] = sorted(it for it in folders if it != "out")
            yield from (os.path.join(folder, it) for it in sorted(names) if it.endswith((".rt", ".antt", ".edit", ".md")))


def read(path):
    with open(path, encoding="utf-8", newline="") as f:
        return f.read()


def is_proof(path):
    return path.endswith("/Proof.antt")


def main():
    table = dict(it.split("\t") for it in read(os.path.join(HERE, "respell.tsv")).splitlines())
    paths = list(files())
    fields = set()
    for path in paths:
        if path.endswith(".antt"):
            for record in RECORD.finditer(read(path)):
                fields.update(FIELD.findall(record[2]))
    for path in paths:
        text = read(path)
        taken = {old: new for ending, old, new in TAKEN if path.endswith(ending)}

        def renamed(line):
            is_use = line.lstrip().startswith(("use ", "ghost use "))

            def new_name(it):
                name = it[0]
                if name in taken:
                    return taken[name]
                if name not in table:
                    return name
                dashed = "-" in name
                if dashed and not path.endswith((".antt", ".edit")):
                    return name
                after_dot = it.start() > 0 and line[it.start() - 1] == "."
                if dashed and after_dot and not is_use and is_proof(path) and name not in fields:
                    return name
                return table[name]

            return TOKEN.sub(new_name, line)

        new = "".join(renamed(it) for it in text.splitlines(keepends=True))
        if new != text:
            with open(path, "w", encoding="utf-8", newline="") as f:
                f.write(new)


main()
