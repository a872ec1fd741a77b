#!/usr/bin/env python3
"""Respells the repository's own definitions and lemmas as today's Rattle spells them.

usage: tools/respell.py [--list]     at the top of the repository, once, after the toolchain's own script

A word of antt is in snake case and a type in upper camel case; a dash joins two names in a lemma's name, a type keeps its capital there.
So each part of a name (between dashes) that begins small and has a capital inside turns into snake case, a type that is named by
several words joined by dashes turns into upper camel case, and a constructor or a field with a dash gets an underscore.
Source names, strings and comments of src/ keep their spelling. --list prints the renamings and changes nothing.
"""

import os
import re
import sys

TOKEN = re.compile(r"[0-9A-Za-z_][0-9A-Za-z_']*(?:-[0-9A-Za-z_][0-9A-Za-z_']*)*")
CAMEL = re.compile(r"^[a-z][a-z0-9_]*[a-z0-9][A-Z]|^[a-z][A-Z]")
TYPE = re.compile(r"^(?:abbrev |unfoldable )*(?:pub )?(?:record |data )?([A-Z][A-Za-z0-9]*(?:-[a-z][A-Za-z0-9]*)+)(?: .*)? : .*Type 0(?: where)?$", re.M)
# A field of a record of specs/ whose name has a dash.
FIELD = re.compile(r"^  (?:pub )?([a-z][A-Za-z0-9']*(?:-[A-Za-z0-9']+)+) : ", re.M)
# Definitions of specs/ whose names have a dash.
WORDS = ["first-records", "cut-away", "marker-stays", "block-loaded", "failed-erase", "still-hides", "at-limit", "put-again",
         "copy-keeps-serial", "room-by-files", "call-done", "deed-done"]
# Where two names would fall together, or where a name cites a word that has another name now.
OTHERS = {
    "allCome": "each_comes", "open_is": "open_is_lem", "chunk_back": "chunk_back_lem", "block_back": "block_back_lem",
    "rows_in": "rows_in_lem", "getD-left": "get_or-left", "getD-right": "get_or-right", "getD-bares": "get_or-bares",
}
# The same in single files, where the name means something else elsewhere.
IN_FILES = {
    "crates/rules/proofs/Copies.antt": {"wanted_by": "wanted_by_lem"},
    "crates/table/proofs/Bares.antt": {"wanted_by": "wanted_by_lem"},
}


def snake(part):
    if not CAMEL.match(part):
        return part
    return re.sub(r"(?<=[a-z0-9])([A-Z]+)", lambda m: "_" + m.group(1).lower(), part)


def files(root):
    for folder, dirs, names in os.walk(os.path.join(root, "crates")):
        dirs[:] = sorted(d for d in dirs if d not in ("out", ".git"))
        for f in sorted(names):
            if f.endswith((".rt", ".antt", ".edit")):
                yield os.path.join(folder, f)


def read(path):
    with open(path, encoding="utf-8") as f:
        return f.read()


def main():
    root = os.getcwd()
    paths = list(files(root))
    texts = {p: read(p) for p in paths}
    types = sorted({t for p, s in texts.items() if p.endswith(".antt") for t in TYPE.findall(s)}, key=len, reverse=True)
    fields = {f for p, s in texts.items() if "/specs/" in p and p.endswith(".antt") for f in FIELD.findall(s)}
    new = {}

    def turned(word):
        if word in local:
            return local[word]
        if word in OTHERS:
            return OTHERS[word]
        if word in WORDS or word in fields:
            return "_".join(snake(w) for w in word.split("-"))
        for t in types:
            if word == t or word.startswith(t + "-"):
                head = "".join(w[0].upper() + w[1:] for w in t.split("-"))
                return head + "".join("-" + snake(w) for w in word[len(t) + 1:].split("-") if w)
        return "-".join(snake(w) for w in word.split("-"))

    def turn(m):
        word = m.group(0)
        if word[0].isdigit():
            return word
        to = turned(word)
        if to != word:
            new.setdefault(word, to)
        return to

    def rust(text):
        # strings, characters and comments stay
        parts = re.split(r'("(?:[^"\\\n]|\\.)*"|//[^\n]*)', text)
        return "".join(p if i % 2 else TOKEN.sub(turn, p) for i, p in enumerate(parts))

    after = {}
    for p, s in texts.items():
        local = IN_FILES.get(os.path.relpath(p, root), {})
        after[p] = rust(s) if p.endswith(".rt") else TOKEN.sub(turn, s)
    if "--list" in sys.argv:
        words = {w for s in texts.values() for w in TOKEN.findall(s)}
        for a, b in sorted(new.items()):
            print(a, "->", b, "  FALLS TOGETHER" if b in words else "")
        return
    for p, s in after.items():
        if s != texts[p]:
            with open(p, "w", encoding="utf-8") as f:
                f.write(s)
    print(f"respell: {len(new)} names, {sum(after[p] != texts[p] for p in paths)} files")


if __name__ == "__main__":
    main()
