#!/usr/bin/env python3
"""Brings the repository's own definitions and lemmas to today's spelling, after port.py: words in snake case, getD as get_or.

usage: python3 tools/respell.py      at the top of the repository, once, right after port.py

It turns each lower camel word of crates/*/{src,specs,proofs}, strings and characters aside. A lemma that would then have the
name of a definition gets `_lem` first. specs/Contracts.antt becomes specs/Clauses.antt, since Rattle makes a module `specs.contracts`.
"""

import glob
import os
import re
import subprocess

WORD = re.compile(r"(?<![A-Za-z0-9_])[a-z][a-z0-9]*(?:[A-Z][a-z0-9]*)+")
STRING = re.compile(r"b?\"(?:[^\"\\]|\\.)*\"|b?'(?:[^'\\]|\\.)'")
QUOTED = re.compile(r"\"(?:[^\"\\\n]|\\.)*\"")

# The lemma, and the files where it stands or is used.
LEMMAS = [
    ("is_state", "crates/procedure/proofs/ExpandFit.antt"),
    ("row_count", "crates/converter/specs/ConvertCases.antt"),
    ("row_count", "crates/walk/specs/RowCases.antt"),
    ("row_count", "crates/walk/proofs/walk_rows/Proof.antt"),
    ("set_words", "crates/*/**/*.antt"),
    ("walk_rows", "crates/procedure/proofs/Walk.antt"),
    ("right_of", "crates/run/proofs/Kept.antt"),
    ("is_open", "crates/procedure/**/*.antt"),
    ("is_open", "crates/expansion/**/*.antt"),
    ("is_open", "crates/updates/**/*.antt"),
    ("none_in", "crates/updates/specs/ParentCases.antt"),
    ("root_by", "crates/run/specs/FormerLaws.antt"),
    ("same_parts", "crates/decoding/**/*.antt"),
    ("same_parts", "crates/drafts/**/*.antt"),
]


def snake(word):
    word = word.group(0)
    if word == "getD":
        return "get_or"
    return re.sub(r"[A-Z]", lambda m: "_" + m.group(0).lower(), word)


def turned(path, text):
    out, at = "", 0
    for m in (QUOTED if path.endswith(".antt") else STRING).finditer(text):
        out += WORD.sub(snake, text[at : m.start()]) + m.group(0)
        at = m.end()
    return out + WORD.sub(snake, text[at:])


def lemmas(path, text):
    for word, where in LEMMAS:
        if path in glob.glob(where, recursive=True):
            text = re.sub(rf"(?<![\w.'-]){word}(?![\w'-])", word + "_lem", text)
    return text


def main():
    for path in sorted(glob.glob("crates/*/specs/Contracts.antt")):
        subprocess.run(["git", "mv", path, os.path.join(os.path.dirname(path), "Clauses.antt")], check=True)
    for path in sorted(glob.glob("crates/**/*.antt", recursive=True) + glob.glob("crates/**/*.rt", recursive=True)):
        with open(path, encoding="utf-8") as f:
            text = f.read()
        new = turned(path, lemmas(path, text) if path.endswith(".antt") else text)
        new = re.sub(r"(Rattle\.\w+\.specs\.)Contracts\b", r"\1Clauses", new)
        if path.endswith("specs/Lib.antt"):
            new = re.sub(r"(?m)^(pub )?mod Contracts$", r"\1mod Clauses", new)
        if new != text:
            with open(path, "w", encoding="utf-8") as f:
                f.write(new)


if __name__ == "__main__":
    main()
