"""The samples in words: what make.py builds the rule files and drafts from. Those with narrower roles are in ways.py, that
with a catalogue page in kinds.py.

In order: the kinds of row; the samples; which file each is in.

A row is called by what it says, and other rows, the rules and the wanted row refer to it by these words. Its number is its place in
the list. Nothing here checks a file: that is the engine's work, and four of the samples here are to be refused by a check. One needs
more nodes than the program `fit` lends.
"""
from dataclasses import dataclass


# ---- the kinds of row: kind, role, left, right (document 01, "The rule file"); `within` is of roles (document 02, [6]), and the last two
# are in drafts only (document 02, [1])

INCLUSION = 7


def name(word):
    return 1, None, word, None


def not_name(word):
    return 2, None, word, None


def both(left, right):
    return 3, None, left, right


def either(left, right):
    return 4, None, left, right


def all_along(role, row):
    return 5, role, row, None


def some_along(role, row):
    return 6, role, row, None


def within(narrower, wider):
    return INCLUSION, narrower, wider, None


def negation(row):
    return 8, None, row, None


def if_then(left, right):
    return 9, None, left, right


# ---- the samples

@dataclass
class Sample:
    """A rule file or a draft in words. A role has its words forwards and its words backwards, as HOLDS below; the words used give the code."""
    title: str
    names: list
    roles: list
    rows: dict
    rules: list
    wanted: str
    tells_names: bool = False  # the text has the names with their numbers, for a program that shows them
    added_later: str = ""  # put before the text when the file was finished, so that its trailer no longer fits


HOLDS = ("holds", "is held by")
FITTED = ("is fitted to", "has fitted to it")
WIRED = ("is wired to", "has wired to it")
DRAWS = ("draws from", "is drawn from by")

BOX_NAMES = ["box", "dosing pump", "flush valve", "controller", "canister"]
BOX_ROLES = [HOLDS, FITTED, WIRED, DRAWS]
BOX_LITERALS = {
    "is a box": name("box"),
    "is a dosing pump": name("dosing pump"),
    "is a flush valve": name("flush valve"),
    "is a controller": name("controller"),
    "is a canister": name("canister"),
    "is no dosing pump": not_name("dosing pump"),
    "is no flush valve": not_name("flush valve"),
}
BOX_NEEDS = {
    "has some flush valve fitted to it": some_along("has fitted to it", "is a flush valve"),
    "is wired to some controller": some_along("is wired to", "is a controller"),
    "draws from some canister": some_along("draws from", "is a canister"),
}
ALL_NEEDS = {
    "has its wire and its canister": both("is wired to some controller", "draws from some canister"),
    "has its flush valve, its wire and its canister": both("has some flush valve fitted to it", "has its wire and its canister"),
}
VALVE_NEED = {"is fitted to some dosing pump": some_along("is fitted to", "is a dosing pump")}
ONE_RULE = {
    "a dosing pump has its flush valve, its wire and its canister":
        either("is no dosing pump", "has its flush valve, its wire and its canister"),
}
THREE_RULES = {
    "a dosing pump has some flush valve fitted to it": either("is no dosing pump", "has some flush valve fitted to it"),
    "a dosing pump is wired to some controller": either("is no dosing pump", "is wired to some controller"),
    "a dosing pump draws from some canister": either("is no dosing pump", "draws from some canister"),
}
OTHER_RULES = {
    "a flush valve is fitted to some dosing pump": either("is no flush valve", "is fitted to some dosing pump"),
    "nothing is both a dosing pump and a flush valve": either("is no dosing pump", "is no flush valve"),
}
BOX_KIT = {
    "holds some dosing pump": some_along("holds", "is a dosing pump"),
    "holds some controller": some_along("holds", "is a controller"),
    "holds no flush valve": all_along("holds", "is no flush valve"),
    "holds some dosing pump and some controller": both("holds some dosing pump", "holds some controller"),
    "holds these two and no flush valve": both("holds some dosing pump and some controller", "holds no flush valve"),
    "is a box that holds these two and no flush valve": both("is a box", "holds these two and no flush valve"),
}

PUMP = Sample(
    title="A box with a dosing pump and its controller. The flush valve is not in the box.",
    names=BOX_NAMES,
    roles=BOX_ROLES,
    rows=BOX_LITERALS | BOX_NEEDS | ALL_NEEDS | VALVE_NEED | ONE_RULE | OTHER_RULES | BOX_KIT,
    rules=[*ONE_RULE, *OTHER_RULES],
    wanted="is a box that holds these two and no flush valve",
)

NEEDS = Sample(
    title="A box with a dosing pump and its controller. Each need of the pump is a rule of its own: more nodes than usual.",
    names=BOX_NAMES,
    roles=BOX_ROLES,
    rows=BOX_LITERALS | BOX_NEEDS | VALVE_NEED | THREE_RULES | OTHER_RULES | BOX_KIT,
    rules=[*THREE_RULES, *OTHER_RULES],
    wanted="is a box that holds these two and no flush valve",
)

THREAD = Sample(
    title="A flush valve on a dosing pump with another thread.",
    names=["flush valve", "dosing pump", "3/8 inch thread", "1/2 inch thread"],
    roles=[FITTED],
    rows={
        "is a flush valve": name("flush valve"),
        "is a dosing pump": name("dosing pump"),
        "has a 3/8 inch thread": name("3/8 inch thread"),
        "has a 1/2 inch thread": name("1/2 inch thread"),
        "is no flush valve": not_name("flush valve"),
        "is no dosing pump": not_name("dosing pump"),
        "has no 3/8 inch thread": not_name("3/8 inch thread"),
        "has no 1/2 inch thread": not_name("1/2 inch thread"),
        "is fitted only to what has a 3/8 inch thread": all_along("is fitted to", "has a 3/8 inch thread"),
        "a flush valve is fitted only to what has a 3/8 inch thread":
            either("is no flush valve", "is fitted only to what has a 3/8 inch thread"),
        "a dosing pump has a 1/2 inch thread": either("is no dosing pump", "has a 1/2 inch thread"),
        "nothing has both threads": either("has no 3/8 inch thread", "has no 1/2 inch thread"),
        "is fitted to some dosing pump": some_along("is fitted to", "is a dosing pump"),
        "is a flush valve fitted to some dosing pump": both("is a flush valve", "is fitted to some dosing pump"),
    },
    rules=[
        "a flush valve is fitted only to what has a 3/8 inch thread",
        "a dosing pump has a 1/2 inch thread",
        "nothing has both threads",
    ],
    wanted="is a flush valve fitted to some dosing pump",
)

ACID_NAMES = ["flush valve", "acid pump", "acid-proof", "rubber seals"]
ACID_ROWS = {
    "is a flush valve": name("flush valve"),
    "is an acid pump": name("acid pump"),
    "is acid-proof": name("acid-proof"),
    "has rubber seals": name("rubber seals"),
    "is no acid pump": not_name("acid pump"),
    "is not acid-proof": not_name("acid-proof"),
    "has no rubber seals": not_name("rubber seals"),
    "has only acid-proof parts fitted to it": all_along("has fitted to it", "is acid-proof"),
    "an acid pump has only acid-proof parts fitted to it": either("is no acid pump", "has only acid-proof parts fitted to it"),
    "what has rubber seals is not acid-proof": either("has no rubber seals", "is not acid-proof"),
}
ACID_FITTED = {
    "is fitted to some acid pump": some_along("is fitted to", "is an acid pump"),
    "is a flush valve fitted to some acid pump": both("is a flush valve", "is fitted to some acid pump"),
}
ACID_RULES = ["an acid pump has only acid-proof parts fitted to it", "what has rubber seals is not acid-proof"]

ACID = Sample(
    title="A flush valve with rubber seals on an acid pump.",
    names=ACID_NAMES,
    roles=[FITTED],
    rows=ACID_ROWS | ACID_FITTED | {
        "is a flush valve with rubber seals fitted to some acid pump":
            both("is a flush valve fitted to some acid pump", "has rubber seals"),
    },
    rules=ACID_RULES,
    wanted="is a flush valve with rubber seals fitted to some acid pump",
)

SEAL = Sample(
    title="A flush valve on an acid pump, its seals left open.",
    names=ACID_NAMES,
    roles=[FITTED],
    rows=ACID_ROWS | ACID_FITTED,
    rules=ACID_RULES,
    wanted="is a flush valve fitted to some acid pump",
)

QUESTIONS = Sample(
    title="A box with a dosing pump. Rows 10 to 14 are questions of the shop staff: no rule and no kit needs them.",
    names=["box", "dosing pump", "flush valve"],
    roles=[HOLDS, FITTED],
    rows={
        "is a box": name("box"),
        "is a dosing pump": name("dosing pump"),
        "is a flush valve": name("flush valve"),
        "is no dosing pump": not_name("dosing pump"),
        "is no flush valve": not_name("flush valve"),
        "has some flush valve fitted to it": some_along("has fitted to it", "is a flush valve"),
        "a dosing pump has some flush valve fitted to it": either("is no dosing pump", "has some flush valve fitted to it"),
        "nothing is both a dosing pump and a flush valve": either("is no dosing pump", "is no flush valve"),
        "holds some dosing pump": some_along("holds", "is a dosing pump"),
        "is a box that holds some dosing pump": both("is a box", "holds some dosing pump"),
        "holds no flush valve": all_along("holds", "is no flush valve"),
        "is in a box": some_along("is held by", "is a box"),
        "is fitted to some dosing pump": some_along("is fitted to", "is a dosing pump"),
        "is fitted only to what is in a box": all_along("is fitted to", "is in a box"),
        "has only parts from a box fitted to it": all_along("has fitted to it", "is in a box"),
    },
    rules=["a dosing pump has some flush valve fitted to it", "nothing is both a dosing pump and a flush valve"],
    wanted="is a box that holds some dosing pump",
)

PAIR_NAMES = ["dosing pump", "flush valve"]
PAIR_LITERALS = {
    "is a dosing pump": name("dosing pump"),
    "is a flush valve": name("flush valve"),
    "is no dosing pump": not_name("dosing pump"),
    "is no flush valve": not_name("flush valve"),
}
PUMP_HAS = {"has some flush valve fitted to it": some_along("has fitted to it", "is a flush valve")}
PUMP_RULE = {"a dosing pump has some flush valve fitted to it": either("is no dosing pump", "has some flush valve fitted to it")}
VALVE_SIDE = {
    "is fitted to some dosing pump": some_along("is fitted to", "is a dosing pump"),
    "a flush valve is fitted to some dosing pump": either("is no flush valve", "is fitted to some dosing pump"),
}
PAIR_RULES = ["a dosing pump has some flush valve fitted to it", "a flush valve is fitted to some dosing pump"]

ORDER = Sample(
    title="A dosing pump and its flush valve. Refused: row 4 names row 5, which isn't lower.",
    names=PAIR_NAMES,
    roles=[FITTED],
    rows=PAIR_LITERALS | PUMP_RULE | PUMP_HAS | VALVE_SIDE,
    rules=PAIR_RULES,
    wanted="is a dosing pump",
)

EDITED = Sample(
    title="A dosing pump and its flush valve.",
    names=PAIR_NAMES,
    roles=[FITTED],
    rows=PAIR_LITERALS | PUMP_HAS | PUMP_RULE | VALVE_SIDE,
    rules=PAIR_RULES,
    wanted="is a dosing pump",
    added_later="Refused: this line was added when the file was finished, and the trailer was left as it was.\n",
)

HOSE = Sample(
    title="A box with a dosing pump. The flush valve is not in the box, and a peristaltic pump needs none.",
    names=["box", "dosing pump", "peristaltic pump", "flush valve"],
    roles=[HOLDS, FITTED],
    rows={
        "is a box": name("box"),
        "is a dosing pump": name("dosing pump"),
        "is a peristaltic pump": name("peristaltic pump"),
        "is a flush valve": name("flush valve"),
        "has some flush valve fitted to it": some_along("has fitted to it", "is a flush valve"),
        "has no flush valve fitted to it": negation("has some flush valve fitted to it"),
        "is a dosing pump without a flush valve": both("is a dosing pump", "has no flush valve fitted to it"),
        "if it is a peristaltic pump, it is a dosing pump without a flush valve":
            if_then("is a peristaltic pump", "is a dosing pump without a flush valve"),
        "is no peristaltic pump": negation("is a peristaltic pump"),
        "is a dosing pump but no peristaltic pump": both("is a dosing pump", "is no peristaltic pump"),
        "if it is a dosing pump but no peristaltic pump, it has some flush valve fitted to it":
            if_then("is a dosing pump but no peristaltic pump", "has some flush valve fitted to it"),
        "holds some dosing pump": some_along("holds", "is a dosing pump"),
        "holds some flush valve": some_along("holds", "is a flush valve"),
        "holds no flush valve": negation("holds some flush valve"),
        "holds some dosing pump and no flush valve": both("holds some dosing pump", "holds no flush valve"),
        "is a box that holds some dosing pump and no flush valve":
            both("is a box", "holds some dosing pump and no flush valve"),
    },
    rules=[
        "if it is a peristaltic pump, it is a dosing pump without a flush valve",
        "if it is a dosing pump but no peristaltic pump, it has some flush valve fitted to it",
    ],
    wanted="is a box that holds some dosing pump and no flush valve",
)

CLAIM = Sample(
    title="Is what is fitted to a peristaltic pump never a flush valve? Asked by the opposite.",
    names=["dosing pump", "peristaltic pump", "flush valve"],
    roles=[FITTED],
    rows={
        "is a dosing pump": name("dosing pump"),
        "is a peristaltic pump": name("peristaltic pump"),
        "is a flush valve": name("flush valve"),
        "has some flush valve fitted to it": some_along("has fitted to it", "is a flush valve"),
        "has no flush valve fitted to it": negation("has some flush valve fitted to it"),
        "is a dosing pump without a flush valve": both("is a dosing pump", "has no flush valve fitted to it"),
        "if it is a peristaltic pump, it is a dosing pump without a flush valve":
            if_then("is a peristaltic pump", "is a dosing pump without a flush valve"),
        "is fitted to some peristaltic pump": some_along("is fitted to", "is a peristaltic pump"),
        "is no flush valve": negation("is a flush valve"),
        "if it is fitted to some peristaltic pump, it is no flush valve":
            if_then("is fitted to some peristaltic pump", "is no flush valve"),
        "the claim is not true of it": negation("if it is fitted to some peristaltic pump, it is no flush valve"),
    },
    rules=["if it is a peristaltic pump, it is a dosing pump without a flush valve"],
    wanted="the claim is not true of it",
)

NAMELESS = Sample(
    title="A kit in terms of itself: no row says which kind of part. Refused: row 0 names row 1.",
    names=[],
    roles=[HOLDS, FITTED],
    rows={
        "holds some part that is fitted to such a part": some_along("holds", "is fitted to some part that holds such a part"),
        "is fitted to some part that holds such a part": some_along("is fitted to", "holds some part that is fitted to such a part"),
    },
    rules=[],
    wanted="holds some part that is fitted to such a part",
)

UNCONVERTED = Sample(
    title="A draft that was not converted. Refused: rows 2 and 3 have kinds 9 and 8.",
    names=["peristaltic pump", "dosing pump"],
    roles=[],
    rows={
        "is a peristaltic pump": name("peristaltic pump"),
        "is a dosing pump": name("dosing pump"),
        "if it is a peristaltic pump, it is a dosing pump": if_then("is a peristaltic pump", "is a dosing pump"),
        "is no peristaltic pump": negation("is a peristaltic pump"),
    },
    rules=["if it is a peristaltic pump, it is a dosing pump"],
    wanted="is no peristaltic pump",
)

SAMPLES = {
    "pump.fit": PUMP,
    "thread.fit": THREAD,
    "acid.fit": ACID,
    "seal.fit": SEAL,
    "questions.fit": QUESTIONS,
    "needs.fit": NEEDS,
    "order.fit": ORDER,
    "nameless.fit": NAMELESS,
    "edited.fit": EDITED,
    "unconverted.fit": UNCONVERTED,
    "hose.draft": HOSE,
    "claim.draft": CLAIM,
}
