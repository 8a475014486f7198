#!/usr/bin/env python3
"""Turns the names of this repository's definitions, lemmas, fields and constructors to snake case, once: `stateAfterByte` and `json-back` become
`state_after_byte` and `json_back`. Types, modules, Rust names and what Rattle generates keep their spelling.

usage: python3 tools/respell.py [--names]     at the top of the repository; --names prints the table and writes nothing
"""

import collections
import os
import re
import sys

WORD = re.compile(r"[^\s(){}.;,@\"«»`]+")
COMMENT = re.compile(r"--[^\n]*")
HEAD = re.compile(r"^\s*(?:(?:abbrev|unfoldable|pub|infix\w*|opaque)\s+)*([^\s(){}.;,@\"«»:`]+)\s*(?:\{[^}]*\}\s*)?:(?=\s|$)")
DATA = re.compile(r"^\s*(?:pub\s+)?(?:data|record)\s+([^\s(){}.;,@\"«»:`]+)")
SIGNATURE = re.compile(r"^\s*([a-z][^\s(){}.;,@\"«»:`]*)\s*:(?=\s|$)")
IMPORT = re.compile(r"(?:^|\n)\s*(?:pub\s+|ghost\s+)*use\s+([^;\n{}]*?)\.?(?:\{([^}]*)\})?(?:\s+as\s+\S+)?;?(?=\n|$)", re.S)
LOWER = re.compile(r"[a-zα-ωκσ]")
SKIP_WORDS = {"to-do"}
# Parameters that share their name with a Rust field only.
PARAMETERS = {"name-ends", "record-number", "record-target"}
# Lemmas and fields that would have the name of a definition beside them, and have a snake name already.
BY_HAND = {n: n + "_lem" for n in ("all_pass", "has_cells", "in_cell", "is_digit", "one_more", "starts_by", "text_at", "first_byte", "fold_at")}


def crate_names(root):
    return sorted(c for c in os.listdir(os.path.join(root, "crates")) if os.path.isdir(os.path.join(root, "crates", c)))


def files(root, endings):
    for folder, dirs, names in os.walk(os.path.join(root, "crates")):
        dirs[:] = sorted(d for d in dirs if d != "out")
        for n in sorted(names):
            if n.endswith(endings):
                yield os.path.join(folder, n)


def snake(name):
    """The new spelling of one word, its holes and primes kept."""
    def one(part):
        if not part or part == "◌":
            return part
        if part[0].isupper():  # a type or a fact keeps its capital
            return part
        pieces = part.split("-")
        out = pieces[0]
        for before, p in zip(pieces, pieces[1:]):
            joint = "-" if p[:1].isupper() or before[:1].isupper() else "_"
            out += joint + p
        out = re.sub(r"(?<=[a-z0-9])([A-Z])(?=[a-z]|$|[0-9_])", lambda m: "_" + m.group(1).lower(), out) if not re.search(r"-[A-Z]", out) else out
        return out
    return "".join(one(p) for p in re.split(r"(◌)", name))


def is_old(name):
    core = name.replace("◌", "")
    if not core or not core[0].islower() and not name.startswith("◌"):
        return False
    if not re.match(r"^[a-zA-Z0-9_'₁₂₃₀-]+$", core) or not core[0].islower():
        return False
    return snake(name) != name


def split_code(text, is_rt):
    """(kind, piece) with kind code, comment or string."""
    pattern = re.compile(r'//[^\n]*|"(?:[^"\\\n]|\\.)*"' if is_rt else r'(?:(?<=[\s(){}.;,@"«»])|^)--[^\n]*|"(?:[^"\\\n]|\\.)*"', re.M)
    at = 0
    for m in pattern.finditer(text):
        yield "code", text[at:m.start()]
        yield ("string" if m.group().startswith('"') else "comment"), m.group()
        at = m.end()
    yield "code", text[at:]


def declared(root):
    names = set()
    for p in files(root, (".antt",)):
        if p.endswith("/Proof.antt"):
            generated = True
        else:
            generated = False
        text = open(p, encoding="utf-8").read()
        if generated:
            continue
        code = "".join(t if k == "code" else "" for k, t in split_code(text, False))
        for line in code.split("\n"):
            m = HEAD.match(line)
            if m and is_old(m.group(1)):
                names.add(m.group(1))
        # fields and parameters in brackets, and what a let or a lambda binds
        for m in re.finditer(r"[({]([^(){}:.;\"]+?)\s:\s", code):
            for w in m.group(1).split():
                if is_old(w):
                    names.add(w)
        for m in re.finditer(r"\blet\s+([^\s:=]+)\s*[:=]", code):
            if is_old(m.group(1)):
                names.add(m.group(1))
        for m in re.finditer(r"λ\s+([^.]+)\.\s", code):
            for w in m.group(1).split():
                if is_old(w):
                    names.add(w)
        # local functions: a clause head
        for m in re.finditer(r"^\s*([a-z][\w'-]*)\s[^:\n]*=(?:\s|$)", code, re.M):
            if is_old(m.group(1)):
                names.add(m.group(1))
    return names


def fields_of(root):
    """The fields of the records of specs/ and proofs/."""
    out = set()
    for p in files(root, (".antt",)):
        inside = False
        for line in open(p, encoding="utf-8"):
            if re.match(r"\s*(?:pub\s+)?record\s+\S+.*\bwhere\s*$", line):
                inside = True
            elif inside and re.match(r"\S", line):
                inside = False
            m = inside and HEAD.match(line)
            if m:
                out.add(m.group(1))
    return out


def imported_from_outside(text, own):
    """Names that a file takes from modules that are not this repository's."""
    out = set()
    for m in IMPORT.finditer(text):
        path, inner = m.group(1).strip(), m.group(2)
        head = path.split(".")
        if len(head) > 1 and head[0] == "Rattle" and head[1] in own or head[0] in own:
            continue
        if inner:
            for item in inner.split(","):
                w = item.strip().split(" as ")[0].strip()
                out.add(w)
    return out


def main():
    root = os.getcwd()
    own = set(crate_names(root))
    names = declared(root)
    table = {n: snake(n) for n in names}
    # infix words of mixfix names
    for n in list(table):
        if "◌" in n:
            a = [w for w in n.split("◌") if w]
            b = [w for w in table[n].split("◌") if w]
            for x, y in zip(a, b):
                if x != y:
                    table[x] = y
    everything = collections.Counter()
    where = collections.defaultdict(set)
    for p in files(root, (".antt", ".rt")):
        text = open(p, encoding="utf-8").read()
        for kind, t in split_code(text, p.endswith(".rt")):
            if kind == "code":
                for w in WORD.findall(t):
                    everything[w] += 1
                    where[w].add(os.path.relpath(p, root))
    # a lemma that would have the name of a definition in a file that has both gets `_lem`
    definitions = collections.defaultdict(list)
    for d in table:
        if "-" not in d:
            definitions[table[d]].append(d)
    for o in sorted(table):
        if "-" in o:
            if any(where[d] & where[o] for d in definitions[snake(o)]):
                table[o] = snake(o) + "_lem"
            both = {p for p in where[o] & where[snake(o)] if p.endswith(".antt") and not p.endswith("/Proof.antt")}
            if both and o not in PARAMETERS:
                table[o] = snake(o) + "_lem"
    if "--names" in sys.argv:
        for o in sorted(table | BY_HAND):
            print(f"{o}\t{(table | BY_HAND)[o]}")
        return
    fields = fields_of(root)
    for p in files(root, (".antt", ".rt", ".edit")):
        text = open(p, encoding="utf-8").read()
        is_rt = p.endswith(".rt")
        outside = imported_from_outside(text, own)
        walk = p.endswith("/Proof.antt")

        def turn(m):
            w, before = m.group(), m.string[:m.start()]
            if w in outside:
                return w
            if before.endswith("."):  # a part of a path, a step of a proof, or a field
                chain = re.search(r"[^\s(){};,@\"]*$", before).group()
                if chain.startswith("Rattle.") or chain.startswith("tie.") or walk and w not in fields:
                    return w
            if not is_rt and not p.endswith(".edit") and w in BY_HAND:
                return BY_HAND[w]
            return table.get(w, w)

        out = []
        for kind, t in split_code(text, is_rt):
            if kind == "code":
                out.append(WORD.sub(turn, t))
            elif kind == "comment":
                out.append(re.sub(r"(?<![\w-])[a-z]+[A-Z]\w*(?![\w-])", lambda m: table.get(m.group(), m.group()), re.sub(r"`([^`]*)`", lambda m: "`" + WORD.sub(turn, m.group(1)) + "`", t)))
            else:
                out.append(t)
        new = "".join(out)
        if new != text:
            open(p, "w", encoding="utf-8").write(new)


if __name__ == "__main__":
    main()
