#!/usr/bin/env python3
"""Spells the repository's own definitions and lemmas as the kit does: words in snake case, dashes only between the parts of a lemma's name.

usage: tools/spell.py [--dry]     at the top, once, right after the kit's port.py

Names that a file of specs/ declares, and labels and constructors, get underscores throughout; a lemma keeps the dashes between its parts.
A name that would meet another name of some file is in the table APART, with what it becomes. What it cannot tell apart stops it.
"""

import collections
import os
import re
import sys

NAME = r"[^\s(){}.;,@\"«»]+"
TOKEN = re.compile(NAME)
WORDS = r"(?:(?:pub|abbrev|unfoldable|opaque|ruleset) )*"
DECLARED = re.compile(rf"( *){WORDS}({NAME})((?: \{{[^{{}}\n]*\}}| \([^()\n]*\))*) :(?: |$)")
BLOCK = re.compile(rf"( *){WORDS}(record|data) ({NAME})")
SEVERAL = re.compile(rf" +({NAME}(?: {NAME})+) : ")
CAMEL = re.compile(r"(?<=[a-z0-9])[A-Z]")

# Names whose spelling would meet another's in the same file, with what they become: in all files, and in one.
APART = {"xor-and": "xor_with_and", "xor-xor": "xor_with_xor", "T4-after": "T4_after", "T8-further": "T8_further", "T10-one": "T10_one"}
APART_IN = {
    "crates/aig/proofs/Sources.antt": {"not_in": "not_in_lem"},
    "crates/definite_arms/specs/Arms.antt": {"not_None": "not_none"},
    "crates/definite_arms/proofs/Everywhere.antt": {"source_fits": "source_fits_lem"},
    "crates/netlist/proofs/Operands.antt": {"renamed_by": "renamed_by_lem"},
    "crates/normal/proofs/Rules.antt": {"and_xor": "and_xor_lem"},
}


def texts():
    for top, dirs, files in os.walk("crates"):
        dirs[:] = sorted(d for d in dirs if d != "out")
        for f in sorted(files):
            if f.endswith((".antt", ".rt")):
                yield os.path.join(top, f)


def halves(line, mark):
    """The code of a line and its comment."""
    at = re.search(r"(?:^|\s)" + re.escape(mark), line)
    return (line, "") if at is None else (line[: at.start()], line[at.start() :])


def declared(path, text):
    """The names that a file declares, each with whether it is spelled throughout with underscores."""
    block = None
    for line in text.split("\n"):
        code, _ = halves(line, "--")
        b = BLOCK.match(code)
        if b:
            block = len(b[1])
            continue
        if code.strip() and block is not None and len(code) - len(code.lstrip()) <= block:
            block = None
        row = SEVERAL.match(code)
        if row and block is not None:
            for name in row[1].split():
                yield name, True
        d = DECLARED.match(code)
        if d:
            yield d[2], "/specs/" in path or block is not None


def snake(name):
    return CAMEL.sub(lambda m: "_" + m[0].lower(), name)


def unqualified(code, names):
    """The code with names that stand behind no dot changed."""
    return TOKEN.sub(lambda m: m[0] if m.start() and code[m.start() - 1] == "." else names.get(m[0], m[0]), code) if names else code


def main():
    files = {p: open(p, encoding="utf-8").read() for p in texts()}
    whole, known = set(), set()
    for p, t in files.items():
        if p.endswith(".antt"):
            for name, is_whole in declared(p, t):
                known.add(name)
                if is_whole:
                    whole.add(name)
    to = {}
    for p, t in files.items():
        for line in t.split("\n"):
            for name in TOKEN.findall(halves(line, "--" if p.endswith(".antt") else "//")[0]):
                if "-" in name and name in whole and re.match(r"[A-Za-z]", name):
                    to[name] = snake(name).replace("-", "_")
                elif CAMEL.search(name) and (name[0].islower() or name[0] == "◌") and ":" not in name and "'" not in name[:-1]:
                    to[name] = snake(name)
    to.update(APART)
    to = {a: b for a, b in to.items() if a != b}
    bad = 0
    for p, t in files.items():
        mine, here = set(), APART_IN.get(p, {})
        for line in t.split("\n"):
            code = re.sub(r"^use [^{ ]*", "", halves(line, "--" if p.endswith(".antt") else "//")[0])
            mine |= {here.get(m[0], m[0]) for m in TOKEN.finditer(code) if m.start() == 0 or code[m.start() - 1] != "."}
        met = collections.defaultdict(set)
        for n in mine:
            met[to.get(n, n)].add(n)
        for n, olds in met.items():
            if len(olds) > 1 and any(o in to for o in olds) and (p.endswith(".antt")):
                print(f"{p}: {', '.join(sorted(olds))} would all be {n}")
                bad += 1
    camel = {a: b for a, b in to.items() if "-" not in a and a[0] != "◌" and a in known}
    in_prose = re.compile(r"(?<![\w'-])(" + "|".join(sorted(map(re.escape, camel), key=len, reverse=True)) + r")(?![\w'-])")
    camel = camel or {"": ""}
    print(f"{len(to)} names, {bad} meetings")
    if bad or "--dry" in sys.argv:
        return 1 if bad else 0
    for p, t in files.items():
        mark = "--" if p.endswith(".antt") else "//"
        out = []
        for line in t.split("\n"):
            code, prose = halves(line, mark)
            code = TOKEN.sub(lambda m: to.get(m[0], m[0]), unqualified(code, APART_IN.get(p, {})))
            prose = in_prose.sub(lambda m: camel.get(m[0], m[0]), prose)
            out.append(code + prose)
        new = "\n".join(out)
        if new != t:
            open(p, "w", encoding="utf-8").write(new)
    return 0


if __name__ == "__main__":
    raise SystemExit(main())
