#!/usr/bin/env python3
"""The input and the expected output of crates/refusals, from the questions of tests/vectors and from files with texts made here.

    tests/refusals.py            writes crates/refusals/stdin and crates/refusals/stdout
    tests/refusals.py --check    exit status 1 if the two files are not what it would write

A file goes into stdin as its length, 2 bytes, low byte first, and its bytes. Its line in stdout is WORD LENGTH SUM. WORD is the number of
the file check that refuses it, 1 to 8 or 16, or `ok`: a verdict, 11, 13, 14 or 15 comes after the file was accepted. LENGTH is the length of its text and
SUM the sum of the text's bytes modulo 65,536; of a refused file the empty part is handed back, so both are 0.
"""
import pathlib
import sys

ROOT = pathlib.Path(__file__).resolve().parent.parent
VECTORS = ROOT / "tests" / "vectors" / "level-07.txt"
CRATE = ROOT / "crates" / "refusals"
FILE_CHECKS = ["1", "2", "3", "4", "5", "6", "7", "8", "16"]
TRAILER = 8
LONGEST = 4096
# Texts to put before the rows; the last makes a file of 4,096 bytes, one byte more a file that is too long.
TEXTS = [1, 5, 255, 256, 257, 300, 1000, None]
# How many accepted files of the vectors get these texts.
WITH_TEXTS = 6


def vectors():
    """Each file of the questions `fit`, once, with the word of its line."""
    words = {}
    for line in VECTORS.read_text().splitlines():
        question, answer = line.split(" => ")
        word, file, *_ = question.split(" ")
        if word == "fit":
            words.setdefault(b"" if file == "-" else bytes.fromhex(file), refusal(answer))
    return list(words.items())


def refusal(answer):
    """The word of a file with this answer."""
    word, *numbers = answer.split(";")[0].split(" ")
    return numbers[0] if word == "REFUSED" and numbers[0] in FILE_CHECKS else "ok"


def text(file):
    """The text of an accepted file: its trailer begins with the place of the first row."""
    return file[: int.from_bytes(file[-TRAILER:][:2], "little")]


def with_text(file, length):
    """An accepted file with another text, of so many bytes."""
    rest = file[len(text(file)) : -TRAILER]
    made = bytes((7 * k + length) % 256 for k in range(length))
    return made + rest + length.to_bytes(2, "little") + file[-TRAILER + 2 :]


def made(accepted):
    """Files with texts, each also damaged in the mark, and with a text that makes it too long; with the words of their lines."""
    for file in accepted[:: len(accepted) // WITH_TEXTS][:WITH_TEXTS]:
        room = LONGEST - len(file) + len(text(file))
        for length in TEXTS:
            longer = with_text(file, room if length is None else length)
            yield longer, "ok"
            yield longer[:-1] + b"t", "2"
        yield with_text(file, room + 1), "1"


def line(file, word):
    """The line of a file."""
    part = text(file) if word == "ok" else b""
    return f"{word} {len(part)} {sum(part) % 65536}\n"


def main():
    found = vectors()
    found += made([file for file, word in found if word == "ok"])
    files = {
        CRATE / "stdin": b"".join(len(file).to_bytes(2, "little") + file for file, _ in found),
        CRATE / "stdout": "".join(line(file, word) for file, word in found).encode(),
    }
    if sys.argv[1:] == ["--check"]:
        stale = [p for p, data in files.items() if not p.exists() or p.read_bytes() != data]
        for p in stale:
            print(f"{p.relative_to(ROOT)} is not what tests/refusals.py gives")
        sys.exit(1 if stale else 0)
    for p, data in files.items():
        p.write_bytes(data)


if __name__ == "__main__":
    main()
