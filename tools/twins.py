#!/usr/bin/env python3
"""Lists pairs of functions of crates/*/src whose bodies are alike.

usage: python3 tools/twins.py [FOLDER [SHARE]]      the repository's folder; the least share of tokens in common, 0.75 if none is given

A line for each pair: the share of the tokens of both bodies that are the same, in the same order, then the two functions. Names and
numbers count as they are; comments don't, nor do bodies of fewer than 12 tokens. The last line has how many functions and pairs there are.
"""

import difflib
import glob
import re
import sys

HEAD = re.compile(r"^\s*(?:pub )?(?:extern \"C\" )?fn (\w+)", re.MULTILINE)
OPENING = re.compile(r"^\s*\{|\{\s*$", re.MULTILINE)
LEAST_TOKENS = 12


def line_at(text, place):
    """The line of the text that a place is in."""
    end = text.find("\n", place)
    return text[text.rfind("\n", 0, place) + 1 : len(text) if end < 0 else end]


def body_of(text, start):
    """The body of the function whose head ends at `start`, from its first brace that opens no clause to the brace that closes it."""
    for opening in OPENING.finditer(text, start):
        if not re.search(r"requires|ensures|ghost", line_at(text, opening.start())):
            break
    else:
        return ""
    begin = text.index("{", opening.start())
    depth = 0
    for place in range(begin, len(text)):
        depth += {"{": 1, "}": -1}.get(text[place], 0)
        if depth == 0:
            return text[begin : place + 1]
    return ""


def functions(folder):
    """Each function with the tokens of its body."""
    found = []
    for name in sorted(glob.glob(folder + "/crates/*/src/**/*.rt", recursive=True)):
        with open(name, encoding="utf-8") as file:
            text = re.sub(r"//.*", "", file.read())
        module = name.split("crates/")[1].replace("/src/lib.rt", "").replace("/src/", "/")
        for head in HEAD.finditer(text):
            tokens = re.findall(r"\w+|[^\w\s]", body_of(text, head.end()))
            found.append((f"{module}::{head.group(1)}", tokens))
    return found


def likeness(one, other, share):
    """The share of tokens in common, or 0 where it is below `share` for sure."""
    matcher = difflib.SequenceMatcher(None, one, other, autojunk=False)
    if matcher.real_quick_ratio() < share or matcher.quick_ratio() < share:
        return 0
    return matcher.ratio()


def main():
    folder = sys.argv[1] if len(sys.argv) > 1 else "."
    share = float(sys.argv[2]) if len(sys.argv) > 2 else 0.75
    all_functions = functions(folder)
    pairs = 0
    for place, (name, tokens) in enumerate(all_functions):
        for other, other_tokens in all_functions[:place]:
            if min(len(tokens), len(other_tokens)) < LEAST_TOKENS:
                continue
            same = likeness(other_tokens, tokens, share)
            if same >= share:
                print(f"{same:.2f} {other} {name}")
                pairs += 1
    print(f"{len(all_functions)} functions, {pairs} pairs")


if __name__ == "__main__":
    main()
