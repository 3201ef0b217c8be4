"""The tables that the tools need, as docs/CODES.md, docs/REFERENCE.md and docs/FORMATS.md have them."""
import functools
import pathlib
import re

TOP = pathlib.Path(__file__).resolve().parent.parent.parent
DOCS = TOP / "docs"

# A mnemonic with its operands in words, and after it the letters of these operands.
HEAD = re.compile(r"`([A-Z]+)( [^`]*)?`(?:\*\*)? \((?:`([^`]*)`|no operands)\)")
ENTRY = re.compile(
    r"^### (\w+) (.+)\n\n(.+)\n\n(?:- Signalled by: (.+)\n)?- Usual cause: (.+)\n- Cure: (.+)$", re.M)


@functools.lru_cache(maxsize=None)
def page(name):
    return (DOCS / name).read_text(encoding="utf-8")


def prose(text):
    """A page without its blocks."""
    return re.sub(r"^```.*?^```$", "", text, flags=re.M | re.S)


@functools.lru_cache(maxsize=None)
def section(name, head):
    """What a page has under a head of the second level."""
    return page(name).split(f"\n## {head}\n", 1)[1].split("\n## ", 1)[0]


# ---- codes

class Code:
    """What docs/CODES.md says of a code."""

    def __init__(self, name, meaning, signalled, usual, cure):
        self.name, self.meaning, self.signalled, self.usual, self.cure = name, meaning, signalled, usual, cure


@functools.lru_cache(maxsize=None)
def codes():
    """Each code of docs/CODES.md that is printed today."""
    return {code: Code(*said) for code, *said in ENTRY.findall(page("CODES.md"))}


# ---- instructions

@functools.lru_cache(maxsize=None)
def heads():
    """Each mnemonic of docs/REFERENCE.md: its operands in words, and their letters."""
    text = prose(page("REFERENCE.md"))
    return {name: (spelled.strip().replace("\\|", "|"), letters) for name, spelled, letters in HEAD.findall(text)}


@functools.lru_cache(maxsize=None)
def rows():
    """Each mnemonic of docs/REFERENCE.md with a letter for each operand."""
    return {name: letters.replace("..", "").rstrip(",").replace(",", "") for name, (_, letters) in heads().items()}


def most_operands(mnemonic):
    """How many operands it has at most, and how many at least."""
    row = rows()[mnemonic]
    return (17, 1) if row.endswith("a") else (len(row), len(row))


def letter_at(mnemonic, place):
    """The letter at a place, counted from 0; None after the last."""
    row = rows()[mnemonic]
    if row.endswith("a"):
        return "P" if place == 0 else "a" if place < 17 else None
    return row[place] if place < len(row) else None


@functools.lru_cache(maxsize=None)
def letters():
    """Each letter of a form: how it is spelled, and what may be written there."""
    rows_of = re.findall(r"^\| (\w) \| ([^|\n]*(?:\\\|[^|\n]*)*) \| ([^|\n]+) \| [^|\n]* ?\|$",
                         section("REFERENCE.md", "Operands"), re.M)
    return {letter: (spelled.replace("\\|", "|").replace("`", "").strip(), word.replace("`", ""))
            for letter, spelled, word in rows_of}


@functools.lru_cache(maxsize=None)
def families():
    """The families of mnemonics, each with its mnemonics."""
    rows_of = re.findall(r"^\| ([\w ]+) \| ([A-Z]+(?: [A-Z]+)*) \|$", section("REFERENCE.md", "All mnemonics"), re.M)
    return {family: names.split(" ") for family, names in rows_of}


@functools.lru_cache(maxsize=None)
def rounded():
    """The mnemonics at which (R) may be written."""
    said = re.search(r"It may (?:stand|be written) at ([A-Z, and]+)", section("REFERENCE.md", "Words"))[1]
    return set(re.findall("[A-Z]+", said))


# ---- words

@functools.lru_cache(maxsize=None)
def words():
    """The words that may be written at a letter."""
    found = {}
    for said, places in re.findall(r"^\| ((?:`[^`]+` ?)+)\| ([\w, ]+) \|", section("REFERENCE.md", "Words"), re.M):
        for letter in re.findall(r"\b\w\b", places):
            found.setdefault(letter, []).extend(re.findall("`([^`]+)`", said))
    return found


@functools.lru_cache(maxsize=None)
def rights():
    """Each right with its bit, in the order of the table."""
    found = re.findall(r"^\| ([A-Z]+) \| ([0-9A-F]{2}) \|", section("REFERENCE.md", "Rights"), re.M)
    return {name: int(bit, 16) for name, bit in found}


@functools.lru_cache(maxsize=None)
def kinds():
    """The kinds of objects by their numbers."""
    said = re.search(r"Kinds by number: (.+?)\.", page("FORMATS.md"))[1]
    return {int(number): kind for number, kind in re.findall(r"(\d+) ([A-Z]+)", said)}


@functools.lru_cache(maxsize=None)
def lock_states():
    """The states of locks by their numbers."""
    return dict(enumerate(words()["S"]))
