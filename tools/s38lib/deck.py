"""A deck: its lines, its templates and its jobs. It is read whole, also after a line that is bad."""
from . import pages
from .words import NAME, WHOLE, is_a

MOST_BYTES, MOST_LINE = 4_194_304, 255
MOST = {"PROGRAM": 1024, "JOB": 256, "DCL": 1024, "act": 16_384}


class Template:
    """A template of the deck: its lines by number, as creation counts them."""

    def __init__(self, name, line, words=()):
        self.name, self.line, self.end = name, line, line
        self.adopts, self.propagates = "ADOPT" in words, "PROPAGATE" in words
        self.declarations, self.instructions, self.labels = [], [], {}
        self.code = []  # instructions and labels in their order: line, text

    def moved(self, name, by):
        """The same by another name, with lines that are counted on from others."""
        made = Template(name, self.line + by)
        made.end, made.adopts, made.propagates, made.labels = self.end + by, self.adopts, self.propagates, self.labels
        made.declarations, made.instructions, made.code = ([(line + by, text) for line, text in lines]
                                                           for lines in (self.declarations, self.instructions, self.code))
        return made

    def declared(self):
        """Each name, with its first line and the words after it."""
        names = {}
        for line, text in self.declarations:
            words = text.split(" ")
            names.setdefault("".join(words[1:2]), (line, words[2:]))
        return names

    def attribute(self, name):
        """The attribute of a name; None if it has none or is not declared."""
        found = self.declared().get(name)
        return attribute_of(found[1]) if found else None

    def at(self, code, number):
        """The line that creation counts so for this code, or nothing."""
        counted = self.declarations if code in ("2A02", "2A03") else self.instructions
        return counted[number - 1] if 1 <= number <= len(counted) else None


class Job:
    """A job of the deck, by the words of its line."""

    def __init__(self, line, stage, text):
        words = text.split(" ")
        words += [""] * (6 - len(words))
        self.line, self.stage, self.name, self.user, self.template = line, stage, words[1], words[3], words[5]
        terms = words[6:]
        self.contexts = terms[terms.index("CONTEXTS") + 1:] if "CONTEXTS" in terms else []
        self.budget = 1_000_000
        if terms[:1] == ["BUDGET"] and is_a(WHOLE, "".join(terms[1:2])) and len(terms[1]) < 12:
            self.budget = int(terms[1])


class Deck:
    """The lines of a deck, and what they say. Reading it refuses nothing: `faults` of the module faults does."""

    def __init__(self, text):
        self.size = len(text)
        self.ends = text.endswith(b"\n") or not text
        self.raw = text.split(b"\n")[:-1] if self.ends else text.split(b"\n")
        self.lines = [line.decode("latin-1") for line in self.raw]
        self.templates, self.jobs = {}, []
        self.read()

    def line(self, number):
        return self.lines[number - 1] if 1 <= number <= len(self.lines) else None

    def spoken(self, end=None):
        """The lines before this one that say something, with their numbers."""
        for number, text in enumerate(self.lines if end is None else self.lines[:end - 1], 1):
            if text and not text.startswith("*"):
                yield number, text

    def read(self):
        """Takes the templates and the jobs."""
        template, stage = None, 0
        for number, text in self.spoken():
            word, _, rest = text.partition(" ")
            if word == "PROGRAM":
                template = Template(rest.split(" ")[0], number, rest.split(" ")[1:])
                self.templates.setdefault(template.name, template)
            elif word == "JOB":
                template = None
                self.jobs.append(Job(number, stage, text))
            elif word == "STAGE":
                template, stage = None, stage + 1
            elif template:
                take(template, number, text, word, rest)
                template = None if text == "END" else template

    def job(self, number):
        """The job of a number, counted from 1."""
        return self.jobs[number - 1] if 1 <= number <= len(self.jobs) else None


def take(template, number, text, word, rest):
    """Gives a template one more line."""
    template.end = number
    if word == "DCL":
        template.declarations.append((number, text))
    elif word == "LABEL":
        template.labels.setdefault(rest, number)
        template.code.append((number, text))
    elif word != "END":
        template.instructions.append((number, text))
        template.code.append((number, text))


def attribute_of(words):
    """The attribute after a declared name; EXCM for a description, and None if there is none."""
    if words[:1] == ["EXCM"]:
        return "EXCM"
    place = {"PARM": 2, "BASED": 3}.get("".join(words[:1]), 0)
    return words[place] if place < len(words) and words[place] else None


def split_act(text):
    """A line's mnemonic, whether (R) is after it, and its operands."""
    mnemonic, _, rest = text.partition(" ")
    rounds = rest == "(R)" or rest.startswith("(R) ")
    rest = rest[4:] if rounds else rest
    return mnemonic, rounds, rest.split(",") if rest else []


def columns(text):
    """The column at which each operand of an instruction begins, counted from 1."""
    mnemonic, rounds, operands = split_act(text)
    column = len(mnemonic) + 2 + (4 if rounds else 0)
    found = []
    for word in operands:
        found.append(column)
        column += len(word) + 1
    return found


def named_operands(text):
    """The operands of an instruction that name items, with their places from 1 on and their letters."""
    mnemonic, _, operands = split_act(text)
    if mnemonic not in pages.rows():
        return
    for place, word in enumerate(operands):
        letter = pages.letter_at(mnemonic, place)
        if letter and letter in "nNcCBpPxXYZUHa" and is_a(NAME, word):
            yield place + 1, letter, word


# The kind that a row makes.
MADE = {"CRTQ": "QUEUE", "CRTINX": "INDEX", "CRTDS": "DATASPACE", "CRTCR": "CURSOR", "CRTS": "SPACE",
        "CRTPG": "PROGRAM", "CRTCTX": "CONTEXT", "CRTUP": "PROFILE", "CRTJS": "JSPACE", "CRTJP": "JPORT",
        "CRTCB": "CBLOCK"}
