"""The sample with a catalogue page (document 02, [7]), in words as in described.py: which kinds of pump and head are which."""
from described import FITTED, Sample, all_along, both, either, name, not_name, some_along
from ways import SCREWED, WAYS

SCREWED_IS_FITTED = "what is screwed to something is fitted to it"

# Each with its opposite, so that the catalogue lists it.
KINDS = ["pump", "dosing pump", "peristaltic pump", "circulation pump", "dosing head", "roller head", "roller circulation pump"]

LITERALS = {words: row for kind in KINDS for words, row in [(f"is a {kind}", name(kind)), (f"is no {kind}", not_name(kind))]}
FITTED_HEADS = {
    "has some roller head screwed to it": some_along("has screwed to it", "is a roller head"),
    "has some roller head fitted to it": some_along("has fitted to it", "is a roller head"),
    "has no dosing head fitted to it": all_along("has fitted to it", "is no dosing head"),
}
DESCRIBED = {
    "is a pump with some roller head screwed to it": both("is a pump", "has some roller head screwed to it"),
    "is a pump with no dosing head fitted to it": both("is a pump", "has no dosing head fitted to it"),
    "is a circulation pump with some roller head fitted to it": both("is a circulation pump", "has some roller head fitted to it"),
    "has no dosing head fitted to it, or is a dosing pump": either("has no dosing head fitted to it", "is a dosing pump"),
}
RULES = {
    "a peristaltic pump is a pump with some roller head screwed to it":
        either("is no peristaltic pump", "is a pump with some roller head screwed to it"),
    "a roller head is a dosing head": either("is no roller head", "is a dosing head"),
    "a pump with some dosing head fitted to it is a dosing pump":
        either("is no pump", "has no dosing head fitted to it, or is a dosing pump"),
    "a dosing pump is a pump": either("is no dosing pump", "is a pump"),
    "a circulation pump is a pump with no dosing head fitted to it":
        either("is no circulation pump", "is a pump with no dosing head fitted to it"),
    "a roller circulation pump is a circulation pump with some roller head fitted to it":
        either("is no roller circulation pump", "is a circulation pump with some roller head fitted to it"),
}

CATALOGUE = Sample(
    title="Kinds of pump and of head for a catalogue page. No rule says that a peristaltic pump is a dosing pump.",
    names=KINDS,
    roles=[FITTED, SCREWED],
    rows={SCREWED_IS_FITTED: WAYS[SCREWED_IS_FITTED]} | LITERALS | FITTED_HEADS | DESCRIBED | RULES,
    rules=list(RULES),
    wanted="is a peristaltic pump",
    tells_names=True,
)

KIND_SAMPLES = {"kinds.fit": CATALOGUE}
