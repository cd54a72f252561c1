#!/usr/bin/env python3
"""The must-fail edits and their table, docs/EDITS.md.

    tests/edits.py --check      says whether the table has each edit once, and no other; exit status 1 if not
    tests/edits.py LOG          says which edits a log of `rt ci` or `rt must-fail` does not have as plainly refused, and what it says of them

A row of the table has the edit as `crate/name` in its last column, or in the one before the seconds that it took.
"""
import pathlib
import re
import sys

ROOT = pathlib.Path(__file__).resolve().parent.parent
TABLE = ROOT / "docs" / "EDITS.md"
ROW = re.compile(r"^\|.*\| `(\w+/\w+)` \|(?: *\d* *\|)?$", re.MULTILINE)
TRIED = re.compile(r"^rt: must-fail (\w+/\w+)\.edit: (.*)$", re.MULTILINE)
REFUSED = re.compile(r"refused, as it must be(?! \(only)")


def edits():
    """The edits of the tree."""
    return {f"{path.parent.parent.name}/{path.stem}" for path in ROOT.glob("crates/*/must-fail/*.edit")}


def check():
    """What is wrong with the table, a line each."""
    listed = ROW.findall(TABLE.read_text())
    for edit in sorted(edits() - set(listed)):
        yield f"docs/EDITS.md lacks {edit}"
    for edit in sorted(set(listed) - edits()):
        yield f"docs/EDITS.md has {edit}, which is no edit"
    for edit in sorted({edit for edit in listed if listed.count(edit) > 1}):
        yield f"docs/EDITS.md has {edit} twice"


def not_refused(log):
    """The edits that the log does not have as refused by what the prover found of a contract, a line each."""
    tried = dict(TRIED.findall(pathlib.Path(log).read_text()))
    for edit in sorted(edits()):
        said = tried.get(edit, "not in the log")
        if not REFUSED.match(said):
            yield f"{edit}: {said}"


if len(sys.argv) != 2:
    sys.exit(__doc__)
wrong = list(check() if sys.argv[1] == "--check" else not_refused(sys.argv[1]))
print("\n".join(wrong), end="\n" if wrong else "")
sys.exit(1 if wrong else 0)
