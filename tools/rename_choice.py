#!/usr/bin/env python3
"""Gives model's choice by a test the name `choose◌then◌else◌`, so that `if◌then◌else◌` is the library's alone: in clauses, definitions, proofs and
must-fail edits of them. Comments and Rust code keep their words. It can be run again: it then changes nothing.

usage: python3 tools/rename_choice.py     at the top of the repository
"""

import os
import re

OLD, NEW = "if◌then◌else◌", "choose◌then◌else◌"
# `if` as a word of its own: no part of a name, a field or a label
WORD = re.compile(r"(?<![^\s({\[,;])if(?=\s|$)")
# lemmas that have the new word as their name
LEMMA = re.compile(r"(?<![^\s({\[,;])choose(?=\s+(?::|r b bs e))")


def turned(line):
    """A line of antt, up to its comment."""
    code, comment = re.match(r"(.*?)(?=(?:^|(?<=\s))--(?:\s|$)|$)(.*)", line, re.S).groups()
    return WORD.sub("choose", code.replace(OLD, NEW)) + comment


def turned_clause(line):
    """A line of a Rattle file: an import, or a clause with a choice."""
    if line.lstrip().startswith("//"):
        return line
    line = line.replace(OLD, NEW)
    return WORD.sub("choose", line) if re.search(r"(?<![^\s({\[,;])if\s.*\sthen\s.*\selse\s", line) and re.search(r"\b(ensures|requires|ghost|invariant)\b", line) else line


def turned_edit(text):
    """An edit: the texts of antt files, and the clauses of Rattle files."""
    out, path = [], ""
    for line in text.split("\n"):
        if line.startswith("file: "):
            path = line[len("file: ") :].strip()
        if line.startswith(("old: ", "new: ")):
            line = line[:5] + (turned(line[5:]) if path.endswith(".antt") else turned_clause(line[5:]))
        out.append(line)
    return "\n".join(out)


def main():
    changed = 0
    for folder, dirs, names in os.walk("crates"):
        dirs[:] = sorted(d for d in dirs if d != "out")
        for name in sorted(names):
            if not name.endswith((".antt", ".rt", ".edit")):
                continue
            path = os.path.join(folder, name)
            with open(path, encoding="utf-8") as it:
                text = it.read()
            if name.endswith(".edit"):
                new = turned_edit(text)
            elif name.endswith(".rt"):
                new = "\n".join(turned_clause(it) for it in text.split("\n"))
            elif OLD in text:
                new = "\n".join(turned(LEMMA.sub("by_limits", it)) for it in text.split("\n"))
            else:
                new = "\n".join(turned(it) for it in text.split("\n"))
            if new != text:
                with open(path, "w", encoding="utf-8") as it:
                    it.write(new)
                changed += 1
    print(f"{changed} files changed")


main()
