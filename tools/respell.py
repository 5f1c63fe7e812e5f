#!/usr/bin/env python3
"""Gives this repository's own definitions and lemmas the spelling of today's Rattle, by the table respell.tsv beside it.

usage: python3 tools/respell.py [FOLDER]      FOLDER has crates/ (the default: the folder above this one)

Words are in snake case, types and facts in camel case. It was run once, after the kit's own script had turned the rest, and is kept so
that an older state can be turned alike and laid beside today's. It turns whole words: in .antt files all code, in .rt files the clauses
and `ghost use` items (a name of the table is never a Rust name), in must-fail edits both texts. Comments turn where a word of camel case
stands, or a word between backquotes. A second run changes nothing.
"""

import os
import re
import sys

HERE = os.path.dirname(os.path.realpath(__file__))
WORD = re.compile(r'[^\s(){}.;,@"«»`]+')
COMMENT = {".antt": re.compile(r'(?<![^\s(){}.;,@"«»])--[^\n]*'), ".rt": re.compile(r"//[^\n]*|\"(?:[^\"\\\n]|\\.)*\""), ".edit": re.compile(r"(?!)")}
# A lemma whose name would fall together with that of a definition it meets, by file.
ALONE = {"crates/law/proofs/Refusals.antt": {"is_live": "is_live_lem"}}


def table():
    with open(os.path.join(HERE, "respell.tsv"), encoding="utf-8") as f:
        return dict(line.rstrip("\n").split("\t") for line in f)


def turned(text, rows):
    return WORD.sub(lambda m: rows.get(m[0], m[0]), text)


def comment(text, rows):
    if text.startswith('"'):
        return text
    text = re.sub(r"`[^`\n]*`", lambda m: turned(m[0], rows), text)
    return re.sub(r"(?<![\w'-])[a-z]\w*[A-Z]\w*(?![\w'-])", lambda m: rows.get(m[0], m[0]), text)


def file(text, kind, rows):
    out, at = [], 0
    for m in COMMENT[kind].finditer(text):
        out += [turned(text[at : m.start()], rows), comment(m[0], rows)]
        at = m.end()
    text = "".join(out + [turned(text[at:], rows)])
    # an import that would now name a word as itself
    return re.sub(r"(?<![^\s{,])(\S+) as \1(?=[,}\s;])", r"\1", text)


def main(argv):
    top = os.path.abspath(argv[0] if argv else os.path.dirname(HERE))
    rows, changed = table(), 0
    for folder, dirs, files in os.walk(os.path.join(top, "crates")):
        dirs[:] = sorted(d for d in dirs if d != "out")
        for name in sorted(files):
            kind = os.path.splitext(name)[1]
            path = os.path.join(folder, name)
            if kind not in COMMENT:
                continue
            with open(path, encoding="utf-8") as f:
                old = f.read()
            alone = ALONE.get(os.path.relpath(path, top), {})
            new = old if not alone or any(w in WORD.findall(old) for w in alone.values()) else turned(old, alone)
            new = file(new, kind, rows)
            if new != old:
                changed += 1
                with open(path, "w", encoding="utf-8") as f:
                    f.write(new)
    print(f"respell: {len(rows)} names; {changed} files changed")


if __name__ == "__main__":
    main(sys.argv[1:])
