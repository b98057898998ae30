#!/usr/bin/env python3
"""Spells this repository's own definitions and lemmas as today's Rattle does: words in snake case.

usage: python3 tools/respell.py [FOLDER]

Run it once, at the top, over what the kit's port.py left. tools/respelt-names.txt has the names, a line each: the old one
and the new one, and in front of the old one a crate and a colon where it is respelt in that crate alone. It reads the
.antt files of specs/ and proofs/, the clauses and `ghost use` lines of src/, and the must-fail edits. Names of functions,
exported names and texts in quotes stay. A name behind a dot is that of a step of a proof, unless a capital tells that it is
one of a definition, or it stands among the fields of specs/.
"""

import os
import re
import sys

TOKEN = re.compile(r"[^\s(){}.;,\[\]\"@`]+")
FIELDS = {"came-too"}


def table(folder):
    everywhere, inside = {}, {}
    with open(os.path.join(folder, "respelt-names.txt"), encoding="utf-8") as f:
        for line in f:
            old, new = line.split()
            crate, _, name = old.rpartition(":")
            if crate:
                inside.setdefault(crate, {})[name] = new
            else:
                everywhere[old] = new
    return everywhere, inside


def is_capital_inside(name):
    return re.search(r"[a-z0-9][A-Z]", name) is not None


def respell(text, names, dashes, walk=False):
    """text with its names respelt: those with a dash only where dashes says so, and in a walk none behind a dot."""

    def one(m):
        word = m.group()
        new = names.get(word)
        if new is None:
            return word
        capital = is_capital_inside(word.split("-")[0])
        behind_dot = m.start() > 0 and text[m.start() - 1] == "."
        if behind_dot and walk and not capital and word not in FIELDS:
            return word
        return new if dashes or capital else word

    return TOKEN.sub(one, text)


def split_comment(line, mark):
    at = line.find(mark)
    return (line, "") if at < 0 else (line[:at], line[at:])


def in_backticks(text, names):
    return re.sub(r"`[^`]*`", lambda m: respell(m.group(), names, True), text)


def antt(text, names, walk):
    out = []
    for line in text.splitlines(keepends=True):
        code, comment = (("", line) if line.lstrip().startswith("--") else split_comment(line, " -- "))
        out.append(respell(code, names, True, walk) + in_backticks(respell(comment, names, False), names))
    return "".join(out)


def rt(text, names):
    out = []
    for line in text.splitlines(keepends=True):
        code, comment = split_comment(line, "//")
        parts = re.split(r'("(?:[^"\\]|\\.)*")', code)
        parts = [p if p.startswith('"') else respell(p, names, False) for p in parts]
        out.append("".join(parts) + in_backticks(respell(comment, names, False), names))
    return "".join(out)


def edit(text, names):
    found = re.search(r"(?m)^file: (\S+)", text)
    dashes = bool(found) and found.group(1).endswith(".antt")
    return respell(text, names, dashes)


def main(argv):
    here = os.path.dirname(os.path.realpath(__file__))
    everywhere, inside = table(here)
    top = os.path.join(argv[0] if argv else ".", "crates")
    changed = 0
    for folder, dirs, files in os.walk(top):
        dirs[:] = sorted(d for d in dirs if d != "out")
        own = inside.get(os.path.relpath(folder, top).split(os.sep)[0], {})
        for f in sorted(files):
            path = os.path.join(folder, f)
            if not f.endswith((".antt", ".rt", ".edit")):
                continue
            with open(path, encoding="utf-8") as it:
                old = it.read()
            new = old
            if f.endswith(".antt"):
                for names in (own, everywhere):
                    new = antt(new, names, f == "Proof.antt")
            elif f.endswith(".rt"):
                new = rt(new, everywhere)
            else:
                new = edit(new, everywhere)
            if new != old:
                changed += 1
                with open(path, "w", encoding="utf-8") as it:
                    it.write(new)
    print(f"respell: {changed} files")


if __name__ == "__main__":
    main(sys.argv[1:])
