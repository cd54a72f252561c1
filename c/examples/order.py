#!/usr/bin/env python3
"""The order program of order.c in Python, by ctypes over the shared library: decides a rule file, enlarging what was short, and says the
answer in the words of the file's text. From the root of the repository: python3 c/examples/order.py samples/pump.fit [LIBRARY]
LIBRARY is the path of libgumbyra.so. Without it GUMBYRA_LIBRARY tells the path, and without that it is what ./library lays out.
The status is 0 with a verdict, 1 with a refusal, 2 if reading or writing failed."""
import ctypes
import os
import re
import struct
import sys

# As in gumbyra.h. The areas are nodes, edges, alternatives, elements and links.
VERSION, CAN, EXAMPLE_TOO_LONG, NODES_SHORT, ALTERNATIVES_SHORT = 202, 1, 11, 13, 15
RECORD, USUAL, MOST_RECORDS, LONGEST_FILE = [64, 16, 16, 8, 6], [1024, 4096, 4096, 1024, 8192], 4096, 4096
LAID_OUT = os.path.join(os.path.dirname(os.path.realpath(__file__)), "../../target/library/lib/libgumbyra.so")


class Answer(ctypes.Structure):
    _fields_ = [(name, ctypes.c_uint32) for name in "verdict refusal nodes edges alternatives elements links lent".split()]


def fail(what, why):
    os.write(2, b"order: %s: %s\n" % (os.fsencode(what), os.fsencode(why)))
    sys.exit(2)


def load(path):
    """The library, with what its calls take and give: without that ctypes takes every number for an int."""
    try:
        library = ctypes.CDLL(path)
    except OSError as error:
        fail("libgumbyra", str(error))
    if not hasattr(library, "gumbyra_version"):
        fail("libgumbyra", "it has no gumbyra_version: it is another library, or an older one")
    file, area = [ctypes.c_char_p, ctypes.c_size_t], [ctypes.POINTER(ctypes.c_uint8), ctypes.c_size_t]
    library.gumbyra_version.argtypes, library.gumbyra_version.restype = [], ctypes.c_uint32
    library.gumbyra_sentence.argtypes, library.gumbyra_sentence.restype = [ctypes.c_uint32], ctypes.c_char_p
    library.gumbyra_text.argtypes, library.gumbyra_text.restype = file, ctypes.c_size_t
    library.gumbyra_fit.argtypes, library.gumbyra_fit.restype = file + 5 * area, Answer
    if library.gumbyra_version() // 100 != VERSION // 100:
        fail("libgumbyra", "another version than this program was made for")
    return library


def decide(library, file):
    """Asks until there is a verdict, or no larger area helps: the answer, and the bytes of its elements and links."""
    records = list(USUAL)
    while True:
        lengths = [count * size for count, size in zip(records, RECORD)]
        areas = [(ctypes.c_uint8 * (length + 1))() for length in lengths]  # one byte more: no pointer is null even for no record
        answer = library.gumbyra_fit(file, len(file), *(word for area in zip(areas, lengths) for word in area))
        if answer.refusal == EXAMPLE_TOO_LONG:
            records[3:] = answer.elements, answer.links
        elif NODES_SHORT <= answer.refusal <= ALTERNATIVES_SHORT and answer.lent < MOST_RECORDS:
            records[answer.refusal - NODES_SHORT] = 2 * answer.lent or 1
        else:
            return answer, bytes(areas[3])[:answer.elements * RECORD[3]], bytes(areas[4])[:answer.links * RECORD[4]]


def read_list(text, heading):
    """The words by their numbers in the list below the first line that is just this heading; of two with one number the first counts."""
    lines, words = [line[:-1] if line.endswith(b"\r") else line for line in text.split(b"\n")], {}
    for line in lines[lines.index(heading) + 1:] if heading in lines else []:
        number, space, rest = line.partition(b" ")
        if not (space and re.fullmatch(b"[0-9]+", number) and int(number) <= 255):
            break
        words.setdefault(int(number), re.sub(rb"[\x00-\x1f\x7f]|\xc2[\x80-\x9f]", b"?", rest))  # these might steer a terminal
    return words


def say_example(file, text, elements, links):
    """What each part is, then the links. The rules are left out: they are true of every part."""
    rows, count = file[len(text):], file[-6]
    rules = rows[4 * count:4 * count + file[-5]]
    names, codes, words, wanted = (read_list(text, heading) for heading in (b"Names:", b"Role codes:", b"Rows:", b"Wanted:"))
    # After ./convert a list that was written for a draft would give its words to other rows; order.c says what is looked at.
    is_of_file = {row for row in words if words[row]} == set(range(count)) and list(wanted) == [file[-4]]
    signs = all(bool(re.search(b" (no|not) ", words[row])) == (rows[4 * row] == 2) for row in words if is_of_file and rows[4 * row] <= 2)
    words = words if is_of_file and signs else {}
    for part in range(len(elements) // RECORD[3]):
        holds = int.from_bytes(elements[part * RECORD[3]:(part + 1) * RECORD[3]], "little")
        yield b"part %d:\n" % part
        for row in range(count):
            if holds >> row & 1 and row not in rules:
                name = rows[4 * row] == 1 and names.get(rows[4 * row + 2])
                yield b"  %s\n" % (words.get(row) or name or b"row %d" % row)
    for source, code, target in struct.iter_unpack("<3H", links):
        yield b"part %d %s: part %d\n" % (source, codes.get(code) or b"code %d" % code, target)


def main(path, library_path=os.environ.get("GUMBYRA_LIBRARY", LAID_OUT)):
    library = load(library_path)
    try:
        with open(path, "rb") as opened:
            file = opened.read(LONGEST_FILE + 1)  # one byte more, to see that it is longer
    except OSError as error:
        fail(path, error.strerror)
    answer, elements, links = decide(library, file)
    if answer.refusal:
        lent = b" %d" % answer.lent if NODES_SHORT <= answer.refusal <= ALTERNATIVES_SHORT else b""
        os.write(2, b"REFUSED %d%s: %s\n" % (answer.refusal, lent, library.gumbyra_sentence(answer.refusal)))
        sys.exit(1)
    said = b"The kit cannot exist.\n"
    if answer.verdict == CAN:
        text = file[:library.gumbyra_text(file, len(file))]
        said = b"The kit can exist. An example; part 0 is the one that was wanted:\n" + b"".join(say_example(file, text, elements, links))
    try:
        with open(1, "wb", closefd=False) as output:
            output.write(said)
    except OSError:
        fail("standard output", "can't be written")


if __name__ == "__main__":
    if len(sys.argv) not in (2, 3):
        fail("usage", "order.py FILE [LIBRARY]")
    main(*sys.argv[1:])
