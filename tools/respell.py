#!/usr/bin/env python3
"""Brings the names of definitions, lemmas, fields and variables to one spelling: words in snake case, types and modules in camel case.

usage: python3 tools/respell.py        at the top of the repository, once

It goes by text over crates/*/*/*.antt and the clauses of crates/*/src/*.rt: a word that begins small and has a capital inside is
turned (`be_bytes` was `beBytes`), also within a name of several words (`length-be_bytes`). Functions, fields, variants and strings of src/
have no such word. A hexadecimal number and a word after a capital are no words of this kind. Where the new name was taken by a
lemma or a field, that lemma or this definition has another name, by the lists below.
"""

import glob
import re

# Before all else: lemmas whose name a definition takes, and what shares its name with a field of a row. FILE '' is every file.
FIRST = [
    ("crates/access/proofs/", "is_read", "is_read-read"),
    ("crates/records/proofs/Topmost.antt", "top_count", "top_count-is"),
    ("crates/flattened/proofs/", "row_read", "row_read-is"),
    ("crates/records/proofs/", "row_read", "row_read-is"),
    ("crates/members/proofs/", "row_read", "row_read-is"),
    ("crates/flattened/proofs/", "word_fits", "word-fits"),
    ("", "namePlace", "place_of_name"),
    ("", "nameLength", "length_of_name"),
    ("crates/descriptor/proofs/header/header/Proof.antt", "inArray", "within_array"),
]

# A byte such as 0x1A, written as one word by what looks for words.
NUMBER = re.compile(r"^x[0-9A-F]+$")
WORD = re.compile(r"(?<![A-Za-z0-9_'])[A-Za-z][A-Za-z0-9_']*")


def turned(match):
    word = match.group(0)
    if not re.match(r"[a-z]", word) or NUMBER.match(word):
        return word
    return re.sub(r"(?<=[a-z0-9])[A-Z]", lambda m: "_" + m.group(0).lower(), word)


def whole(name):
    return re.compile(r"(?<![A-Za-z0-9_'-])" + re.escape(name) + r"(?![A-Za-z0-9_'-])")


def respelled(path, text):
    for where, old, new in FIRST:
        if path.startswith(where):
            text = whole(old).sub(new, text)
    return WORD.sub(turned, text)


# Of a source file only `ghost use` lines and clauses.
CLAUSES = re.compile(r"^ghost use [^;]*;|^\s*(?:requires|ensures|ghost)\b[^{;]*\{.*\}$", re.M)


def main():
    for path in sorted(glob.glob("crates/*/specs/**/*.antt", recursive=True) + glob.glob("crates/*/proofs/**/*.antt", recursive=True)):
        with open(path, encoding="utf-8") as f:
            old = f.read()
        new = respelled(path, old)
        if new != old:
            with open(path, "w", encoding="utf-8") as f:
                f.write(new)
    for path in sorted(glob.glob("crates/*/src/**/*.rt", recursive=True)):
        with open(path, encoding="utf-8") as f:
            old = f.read()
        new = CLAUSES.sub(lambda m: respelled(path, m.group(0)), old)
        if new != old:
            with open(path, "w", encoding="utf-8") as f:
                f.write(new)


main()
