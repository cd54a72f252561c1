#!/usr/bin/env python3
"""The sample rule files and drafts, built from the descriptions in described.py, ways.py and kinds.py.

    samples/make.py             writes the .fit and .draft files
    samples/make.py --check     says whether these files and the tables of the pages are what it would write, and whether every
                                sample has a page, with what is printed for it; exit status 1 if not
    samples/make.py --tables    prints the tables of the pages

In order: a sample's bytes; what becomes of a draft; the tables of the pages; what is not as it should be; the commands.

What the program `fit` prints for a file is in the .txt beside it and comes from the program, not from here. What becomes of a draft
is in the .fit beside it and does come from here, so that what the program `convert` writes can be compared with it.

The page of a sample is the .md beside it, written by hand around its tables and what is printed; README.md lists all pages.
"""
import pathlib
import sys

sys.dont_write_bytecode = True  # no folder of Python's own beside the samples
from described import INCLUSION, SAMPLES
from kinds import KIND_SAMPLES
from ways import WAYS_SAMPLES

ALL_SAMPLES = SAMPLES | WAYS_SAMPLES | KIND_SAMPLES

# The most rows, rules and names, and the most bytes of a file (document 01, "The rule file").
MOST, LONGEST = 64, 4096

HERE = pathlib.Path(__file__).resolve().parent


# ---- a sample's bytes: text, rows, rule list, trailer (a draft's are the same)

def place(words, among, what):
    """The number of these words in a list of them."""
    if words not in among:
        sys.exit(f"no {what} is called {words!r}; there are: {', '.join(map(repr, among))}")
    return among.index(words)


def row_number(sample, says):
    return place(says, list(sample.rows), "row")


def role_code(sample, words):
    """2k for role k forwards, 2k + 1 backwards."""
    return place(words, [direction for role in sample.roles for direction in role], "role")


def row_bytes(sample, row):
    """The four bytes of a row; an unused one is zero."""
    kind, role, left, right = row
    role = 0 if role is None else role_code(sample, role)
    if kind in (1, 2):
        left = place(left, sample.names[:MOST], f"name, of {MOST} at most,")
    elif kind == INCLUSION:
        left = role_code(sample, left)
    else:
        left = row_number(sample, left)
    right = 0 if right is None else row_number(sample, right)
    return bytes([kind, role, left, right])


def text(sample):
    """The text part: plain words that name each role, row and rule. A draft's text goes into its result as it is, so it says whose
    numbers these are."""
    of_draft, in_draft = (" of the draft", " in the draft") if any(row[0] > INCLUSION for row in sample.rows.values()) else ("", "")
    lines = [sample.title]
    if sample.tells_names:
        lines += ["Names:"] + [f"{number} {words}" for number, words in enumerate(sample.names)]
    lines += ["Role codes:"] * (sample.roles != [])
    for k, (forwards, backwards) in enumerate(sample.roles):
        lines += [f"{2 * k} {forwards}", f"{2 * k + 1} {backwards}"]
    lines += [f"Rows{of_draft}:"] + [f"{number} {says}" for number, says in enumerate(sample.rows)]
    lines += [f"Rules{of_draft}, each true of every part:"] + [f"{row_number(sample, says)} {says}" for says in sample.rules]
    lines += [f"Wanted{in_draft}:", f"{row_number(sample, sample.wanted)} {sample.wanted}", ""]
    return "\n".join(lines).encode()


def encode(words, rows, rules, wanted):
    if max(len(rows), len(rules)) > MOST or len(words) + 4 * len(rows) + len(rules) + 8 > LONGEST:
        sys.exit(f"{len(rows)} rows, {len(rules)} rules and a text of {len(words)} bytes: {MOST}, {MOST} and {LONGEST} bytes are the most")
    trailer = len(words).to_bytes(2, "little") + bytes([len(rows), len(rules), wanted]) + b"FIT"
    return words + b"".join(rows) + bytes(rules) + trailer


def file_bytes(sample):
    rows = [row_bytes(sample, row) for row in sample.rows.values()]
    rules = [row_number(sample, says) for says in sample.rules]
    file = encode(text(sample), rows, rules, row_number(sample, sample.wanted))
    return sample.added_later.encode() + file


# ---- what becomes of a draft (document 02, [1] and [6])

class Converted:
    """The rows of the result by their bytes, each with the number of the draft's row that it was first written for, and whether for
    its opposite; those of kind 7 first. The drafts here are small: a row is gone through as often as it is named."""

    def __init__(self, sample):
        self.draft = [row_bytes(sample, row) for row in sample.rows.values()]
        self.rows = {row: (number, False) for number, row in enumerate(self.draft) if row[0] == INCLUSION}
        self.rules = [self.write(row_number(sample, says)) for says in sample.rules]
        self.wanted = self.write(row_number(sample, sample.wanted))
        self.bytes = encode(text(sample), list(self.rows), self.rules, self.wanted)

    def write(self, number, opposite=False):
        """The number of the row for a row of the draft, or for its opposite; arguments first, left before right."""
        kind, role, left, right = self.draft[number]
        if kind == 8:
            return self.write(left, not opposite)
        if kind == 9:  # either the opposite of left or right; the opposite: both left and the opposite of right
            made = bytes([3 if opposite else 4, 0, self.write(left, not opposite), self.write(right, opposite)])
        elif kind in (3, 4):
            made = bytes([7 - kind if opposite else kind, 0, self.write(left, opposite), self.write(right, opposite)])
        elif kind in (5, 6):
            made = bytes([11 - kind if opposite else kind, role, self.write(left, opposite), 0])
        else:
            made = bytes([3 - kind if opposite else kind, 0, left, 0])
        self.rows.setdefault(made, (number, opposite))
        return list(self.rows).index(made)


def files(file, sample):
    """The files of a sample with their bytes: of a draft also what becomes of it."""
    if file.endswith(".draft"):
        return {file: file_bytes(sample), file.replace(".draft", ".fit"): Converted(sample).bytes}
    return {file: file_bytes(sample)}


# ---- the tables of the pages

def made_of(row):
    """A row's bytes in words."""
    kind, role, left, right = row
    return {
        1: f"name {left}",
        2: f"not name {left}",
        3: f"{left} and {right}",
        4: f"{left} or {right}",
        5: f"all along {role}: {left}",
        6: f"some along {role}: {left}",
        7: f"{role} within {left}",
        8: f"not {left}",
        9: f"if {left} then {right}",
    }[kind]


def line(number, row, says):
    digits = " ".join(str(byte) for byte in row)
    return f"| {number} | `{digits}` | {made_of(row)} | {says} |"


def uses(rules, wanted):
    """The line below a table; as a column it would be empty nearly everywhere."""
    return f"\nRules: {', '.join(str(rule) for rule in rules) or 'none'}. Wanted: {wanted}."


def table(sample):
    lines = ["| row | bytes | made of | says |", "|---|---|---|---|"]
    lines += [line(number, row_bytes(sample, row), says) for number, (says, row) in enumerate(sample.rows.items())]
    lines.append(uses([row_number(sample, says) for says in sample.rules], row_number(sample, sample.wanted)))
    return "\n".join(lines) + "\n"


def table_converted(sample):
    """The same of what becomes of a draft; a row says what the draft's row says, or not."""
    lines = ["| row | bytes | made of | stands for |", "|---|---|---|---|"]
    converted = Converted(sample)
    for number, (row, (of_draft, opposite)) in enumerate(converted.rows.items()):
        lines.append(line(number, row, f"{'not ' if opposite else ''}{of_draft}"))
    lines.append(uses(converted.rules, converted.wanted))
    return "\n".join(lines) + "\n"


def tables(file, sample):
    if file.endswith(".draft"):
        return {file: table(sample), file.replace(".draft", ".fit"): table_converted(sample)}
    return {file: table(sample)}


def everything(of_sample):
    """The files, or the tables, of all samples."""
    return {file: made for name, sample in ALL_SAMPLES.items() for file, made in of_sample(name, sample).items()}


# ---- what is not as it should be, a line each

def stale():
    for file, made in everything(files).items():
        path = HERE / file
        if not path.exists() or path.read_bytes() != made:
            yield f"{file} is not what make.py builds"
    for path in sorted([*HERE.glob("*.fit"), *HERE.glob("*.draft")]):
        if path.name not in everything(files):
            yield f"{path.name} is described nowhere"
    pages = {path.name: path.read_text() for path in sorted(HERE.glob("*.md"))}
    readme = pages.pop("README.md")
    for file, sample in ALL_SAMPLES.items():
        page = f"{pathlib.Path(file).stem}.md"
        yield from stale_page(file, sample, pages.pop(page)) if page in pages else [f"{file} has no page"]
        if f"]({page})" not in readme:
            yield f"README.md has no link to {page}"
    for page in pages:
        yield f"{page} is the page of no sample"


def stale_page(file, sample, page):
    """What the page of a sample lacks."""
    for of_file, made in tables(file, sample).items():
        if made not in page:
            yield f"the page of {file} lacks the table of {of_file}"
    printed = (HERE / file).with_suffix(".txt")
    if "".join(f"    {shown}\n" for shown in printed.read_text().splitlines()) not in page:
        yield f"the page of {file} lacks what is in {printed.name}"


# ---- the commands

def main():
    if sys.argv[1:] == ["--check"]:
        found = list(stale())
        as_built = f"{len(everything(files))} files and the tables of {len(ALL_SAMPLES)} pages are what make.py builds"
        print("\n".join(found) if found else as_built)
        sys.exit(1 if found else 0)
    if sys.argv[1:] == ["--tables"]:
        for file, made in everything(tables).items():
            print(f"{file}\n\n{made}")
        return
    if sys.argv[1:]:
        sys.exit(__doc__)
    for file, made in everything(files).items():
        (HERE / file).write_bytes(made)


if __name__ == "__main__":
    main()
