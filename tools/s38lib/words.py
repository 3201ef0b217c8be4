"""The words of a deck: names, literals, attributes, and what may be written at an operand's place."""
import difflib
import functools
import re

from . import pages

NAME = r"[A-Z][A-Z0-9]{0,29}"
OBJECT = r"[A-Z0-9]{1,30}"
NUMBER = r"-?[0-9]+(\.[0-9]+)?"
WHOLE = r"0|[1-9][0-9]*"
TEXT = r"'[A-Z0-9 ]*'|X'([0-9A-F]{2})*'"
ATTRIBUTE = rf"PTR|BIN:[24]|CHAR:({WHOLE})|(PKD|ZND):({WHOLE}):({WHOLE})"
ATTRIBUTES = rf"({ATTRIBUTE})(\+({ATTRIBUTE}))*"
CODE = "[0-9A-F]{4}"
LINES = ["PROGRAM", "DCL", "LABEL", "END", "STAGE", "JOB"]
ITEMS = "nNcCBpPxXYZUHa"


def is_a(pattern, word):
    return re.fullmatch(pattern, word) is not None


def near(word, known):
    """What a word may have been meant as, in words."""
    found = difflib.get_close_matches(word, list(known), 1, 0.6)
    return f"; was {found[0]} meant?" if found else ""


def is_number(word):
    return is_a(NUMBER, word) and digits(word) <= 31


def digits(word):
    return len(re.sub("[^0-9]", "", word))


def is_identification(word):
    kind, _, rest = word.partition("/")
    return kind in pages.kinds().values() and is_a(rf"[0-9A-F]{{2}}/{OBJECT}", rest)


def is_rights(word):
    """A word of rights: one name, or several in the order of their bits, but not all of them."""
    if word in ("ALL", "NONE"):
        return True
    order, parts = list(pages.rights()), word.split("+")
    return len(parts) < len(order) and all(part in order for part in parts) and parts == sorted(set(parts), key=order.index)


def has_form(word):
    """Whether a word may be the operand of some instruction."""
    plain = is_a(NAME, word) or is_number(word) or is_a(TEXT, word) or is_identification(word) or is_a(ATTRIBUTES, word)
    return plain or is_rights(word) or word in pages.words()["s"] or is_a(r"\*(NONE|MACHINE|LIST|PUBLIC)", word) or is_a(CODE, word)


@functools.lru_cache(maxsize=None)
def is_parsed(letter, word):
    """Whether a word may be written at a letter; else the cause is 2A04."""
    if letter in "BXYZU" and word in pages.words()[letter]:
        return True
    if letter == "N" or letter in "CB":
        return is_a(NAME, word) or (is_number(word) if letter == "N" else is_a(TEXT, word))
    if letter in ITEMS or letter in "LGJ":
        return is_a(NAME, word)
    if letter == "t":
        return word in pages.words()["T"]
    forms = {"I": is_identification, "R": is_rights, "A": lambda text: is_a(ATTRIBUTE, text),
             "F": lambda text: is_a(ATTRIBUTES, text), "e": lambda text: is_a(CODE, text),
             "K": lambda text: is_a(WHOLE, text), "k": lambda text: is_a(rf"-?({WHOLE})", text) and digits(text) <= 31}
    return forms[letter](word) if letter in forms else word in pages.words()[letter]


# ---- attributes

def sizes(attribute):
    return [int(size) for size in attribute.split(":")[1:]]


def length_of(attribute):
    """How many bytes an attribute has."""
    kind, *size = attribute.split(":")
    if kind == "PKD":
        return int(size[0]) // 2 + 1
    return 16 if kind == "PTR" else int(size[0])


def is_numeric(attribute):
    return attribute.startswith(("PKD", "ZND", "BIN"))


def digits_of(attribute):
    """The digits of a number, and those after its point."""
    kind, *size = attribute.split(":")
    return ({"2": 5, "4": 10}[size[0]], 0) if kind == "BIN" else (int(size[0]), int(size[1]))


def is_bounded(attribute):
    kind, *size = attribute.split(":")
    if kind == "CHAR":
        return 1 <= int(size[0]) <= 4096
    return kind not in ("PKD", "ZND") or 1 <= int(size[0]) <= 31 and int(size[1]) <= int(size[0])


def literal_attribute(word):
    """The attribute of a literal."""
    if is_number(word):
        front, _, back = word.lstrip("-").partition(".")
        return f"PKD:{len(front) + len(back)}:{len(back)}"
    return f"CHAR:{len(word[2:-1]) // 2 if word.startswith('X') else len(word) - 2}"


def holds(attribute, literal):
    """Whether a variable of an attribute may begin with a literal."""
    kind, *size = attribute.split(":")
    if not is_number(literal):
        return kind == "CHAR" and sizes(literal_attribute(literal))[0] <= int(size[0])
    if not is_numeric(attribute):
        return False
    front, _, back = literal.lstrip("-").partition(".")
    fraction = digits_of(attribute)[1]
    if back[fraction:].strip("0"):
        return False
    units = int(front + back[:fraction].ljust(fraction, "0"))
    if kind != "BIN":
        return units < 10 ** int(size[0])
    most = 256 ** int(size[0]) // 2
    return units <= most if literal.startswith("-") else units < most
