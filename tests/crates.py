#!/usr/bin/env python3
"""crates.txt and what the files of crates/ name.

    tests/crates.py --check     says whether each crate lists the crates that its files name, and no other; exit status 1 if not

Beside these a crate lists what the checker asks for: a crate that declares a struct which goes through a function of it unnamed.
"""
import pathlib
import re
import sys

ROOT = pathlib.Path(__file__).resolve().parent.parent
ASKED = {"report": {"answers"}}
LISTED = re.compile(r"^(\w+)(?: staticlib)?:(.*)$", re.MULTILINE)
IN_PROOFS = re.compile(r"\bRattle\.([a-z_]+)\.")
IN_CODE = re.compile(r"\b([a-z_]+)::")
COMMENT = re.compile(r"^\s*(//|--).*$", re.MULTILINE)


def named(crate):
    """The words of a crate's files that may name a crate."""
    for part in ("src", "specs", "proofs"):
        for path in (ROOT / "crates" / crate / part).rglob("*"):
            if path.suffix in (".antt", ".rt"):
                text = COMMENT.sub("", path.read_text())
                yield from IN_PROOFS.findall(text)
                if path.suffix == ".rt":
                    yield from IN_CODE.findall(text)


def check():
    """What is wrong with crates.txt, a line each."""
    lists = {crate: rest.split() for crate, rest in LISTED.findall((ROOT / "crates.txt").read_text())}
    known = set(lists).union(*lists.values())
    for crate, listed in lists.items():
        wanted = (set(named(crate)) & known | ASKED.get(crate, set())) - {crate}
        for other in sorted(wanted - set(listed)):
            yield f"crates.txt: {crate} lacks {other}"
        for other in sorted(set(listed) - wanted):
            yield f"crates.txt: {crate} lists {other}, which it does not name"


if sys.argv[1:] != ["--check"]:
    sys.exit(__doc__)
problems = list(check())
for problem in problems:
    print(problem)
sys.exit(1 if problems else 0)
