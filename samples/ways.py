"""The samples with narrower roles (document 02, [6]), in words as in described.py: "screwed to" and "glued to" are ways of "fitted to".

In order: the roles and what is said of them; the samples, one of which is to be refused by a check; which file each is in.
"""
from described import ACID_NAMES, ACID_ROWS, ACID_RULES, FITTED, Sample
from described import all_along, both, either, if_then, name, negation, some_along, within

SCREWED = ("is screwed to", "has screwed to it")
GLUED = ("is glued to", "has glued to it")
WAYS = {
    "what is screwed to something is fitted to it": within("is screwed to", "is fitted to"),
    "what is glued to something is fitted to it": within("is glued to", "is fitted to"),
}

SCREWED_VALVE = Sample(
    title="A flush valve with rubber seals screwed to an acid pump. The rule speaks of what is fitted.",
    names=ACID_NAMES,
    roles=[FITTED, SCREWED, GLUED],
    rows=WAYS | ACID_ROWS | {
        "is screwed to some acid pump": some_along("is screwed to", "is an acid pump"),
        "is a flush valve screwed to some acid pump": both("is a flush valve", "is screwed to some acid pump"),
        "is a flush valve with rubber seals screwed to some acid pump":
            both("is a flush valve screwed to some acid pump", "has rubber seals"),
    },
    rules=ACID_RULES,
    wanted="is a flush valve with rubber seals screwed to some acid pump",
)

GLUED_VALVE = Sample(
    title="A flush valve glued to an acid pump, its seals left open. Rows 14 to 17 are questions: no rule and no kit needs them.",
    names=ACID_NAMES,
    roles=[FITTED, SCREWED, GLUED],
    rows=WAYS | ACID_ROWS | {
        "is glued to some acid pump": some_along("is glued to", "is an acid pump"),
        "is a flush valve glued to some acid pump": both("is a flush valve", "is glued to some acid pump"),
        "is fitted to some acid pump": some_along("is fitted to", "is an acid pump"),
        "is screwed to some acid pump": some_along("is screwed to", "is an acid pump"),
        "has some flush valve fitted to it": some_along("has fitted to it", "is a flush valve"),
        "has only acid pumps fitted to it": all_along("has fitted to it", "is an acid pump"),
    },
    rules=ACID_RULES,
    wanted="is a flush valve glued to some acid pump",
)

LISTED = Sample(
    title="A part screwed to an acid pump. Refused: row 0 is of kind 7 and stands in the list of rules.",
    names=["acid pump"],
    roles=[FITTED, SCREWED],
    rows={
        "what is screwed to something is fitted to it": within("is screwed to", "is fitted to"),
        "is an acid pump": name("acid pump"),
        "is screwed to some acid pump": some_along("is screwed to", "is an acid pump"),
        "is fitted to some acid pump": some_along("is fitted to", "is an acid pump"),
    },
    rules=["what is screwed to something is fitted to it"],
    wanted="is screwed to some acid pump",
)

WAYS_DRAFT = Sample(
    title="Has what is screwed or glued to an acid pump never rubber seals? Asked by the opposite.",
    names=["acid pump", "acid-proof", "rubber seals"],
    roles=[FITTED, SCREWED, GLUED],
    rows={
        "is an acid pump": name("acid pump"),
        "is acid-proof": name("acid-proof"),
        "has rubber seals": name("rubber seals"),
        "has only acid-proof parts fitted to it": all_along("has fitted to it", "is acid-proof"),
        "if it is an acid pump, it has only acid-proof parts fitted to it":
            if_then("is an acid pump", "has only acid-proof parts fitted to it"),
        "is not acid-proof": negation("is acid-proof"),
        "if it has rubber seals, it is not acid-proof": if_then("has rubber seals", "is not acid-proof"),
        **WAYS,
        "is screwed to some acid pump": some_along("is screwed to", "is an acid pump"),
        "is glued to some acid pump": some_along("is glued to", "is an acid pump"),
        "is screwed or glued to some acid pump": either("is screwed to some acid pump", "is glued to some acid pump"),
        "has no rubber seals": negation("has rubber seals"),
        "if it is screwed or glued to some acid pump, it has no rubber seals":
            if_then("is screwed or glued to some acid pump", "has no rubber seals"),
        "the claim is not true of it": negation("if it is screwed or glued to some acid pump, it has no rubber seals"),
    },
    rules=[
        "if it is an acid pump, it has only acid-proof parts fitted to it",
        "if it has rubber seals, it is not acid-proof",
    ],
    wanted="the claim is not true of it",
)

WAYS_SAMPLES = {
    "screwed.fit": SCREWED_VALVE,
    "glued.fit": GLUED_VALVE,
    "listed.fit": LISTED,
    "ways.draft": WAYS_DRAFT,
}
