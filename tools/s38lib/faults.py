"""What is wrong about the lines of a deck: the codes 1 to 8 of BAD DECK, each with its column and a hint."""
import re

from . import pages
from .deck import MOST, MOST_BYTES, MOST_LINE, columns, split_act
from .layout import line_of
from .words import ATTRIBUTE, CODE, LINES, NAME, NUMBER, TEXT, WHOLE, digits, has_form, is_a, is_number, near


class Fault:
    """A fault: its line and column, its code, and a hint."""

    def __init__(self, line, column, code, hint, template=None, number=None):
        self.line, self.column, self.code, self.hint = line, column, code, hint
        self.template, self.number = template, number  # of creation: the template, and the number that creation counts


# ---- code 1: bytes of a line

def bytes_fault(raw, ends):
    """The column and the hint of a line with bytes that a line may not have, or nothing."""
    if raw.startswith((b"\xef\xbb\xbf", b"\xff\xfe", b"\xfe\xff")):
        return 1, "a byte-order mark is before the line; save the deck as plain ASCII text without one"
    if raw.endswith(b"\r"):
        return len(raw), "a Windows line end (carriage return and line feed); save the deck with line feeds alone"
    odd = [place for place, byte in enumerate(raw, 1) if not 0x20 <= byte <= 0x7E]
    if odd and raw[odd[0] - 1] == 9:
        return odd[0], f"a tab at place {odd[0]}; words are parted by one blank"
    if odd:
        return odd[0], f"the byte {raw[odd[0] - 1]:02X} at place {odd[0]}; a letter, a dash or a quote that is not ASCII"
    if len(raw) > MOST_LINE:
        return MOST_LINE + 1, f"the line has {len(raw)} bytes, and {MOST_LINE} are the most"
    return None if ends else (len(raw) + 1, "no line feed is after the last line")


# ---- code 2: the form of a line

def blank_fault(text):
    bare = re.sub(r"'[^']*'", lambda found: "'" * len(found[0]), text)
    if text.startswith(" "):
        return 1, "a blank before the first word"
    if text.endswith(" "):
        return len(text), "a trailing blank"
    if "  " in bare:
        return bare.index("  ") + 1, f"a double blank at place {bare.index('  ') + 1}; words are parted by one blank"
    found = re.search(" ,|, ", bare)
    return (found.start() + 1, "a blank beside a comma; operands are parted by a comma alone") if found else None


def case_fault(text):
    found = re.search("[a-z]", text)
    if not found:
        return None
    if "'" in text[:found.start()] and not re.search("[a-z]", re.sub("'[^']*'?", "", text)):
        return found.start() + 1, ("lower case in a text literal; it has A to Z, 0 to 9 and blanks, else write its bytes as "
                                   "X'..'")
    return found.start() + 1, "lower case; a deck is written in upper case"


def name_fault(name, starts):
    """Why a word is no name; if it has to start with a letter, that counts."""
    if not name:
        return "a name is left out"
    odd = re.search("[^A-Z0-9]", name)
    if odd:
        return f"the name {name} has {'a blank' if odd[0] == ' ' else odd[0]}; names have A to Z and 0 to 9 alone"
    if len(name) > 30:
        return f"the name {name} has {len(name)} characters, and 30 are the most"
    return f"the name {name} begins with a digit" if starts and name[0].isdigit() else None


def literal_fault(word):
    if word.count("'") == 1:
        return f"{word} has one quote; a text literal has no comma and no quote inside, else write its bytes as X'..'"
    if word.startswith("X"):
        return f"{word} is no even number of upper-case hexadecimal digits in quotes"
    odd = re.search("[^A-Z0-9 ]", word[1:-1])
    return f"the text literal {word} has {odd[0] if odd else 'a quote'}; it has A to Z, 0 to 9 and blanks, else X'..'"


def identification_fault(word):
    kind, *rest = word.split("/")
    said = f"{word} is no identification KIND/ss/NAME"
    if kind not in pages.kinds().values():
        return said + near(kind, pages.kinds().values())
    if len(rest) != 2 or not is_a("[0-9A-F]{2}", rest[0]):
        return f"{said}; ss is two upper-case hexadecimal digits, as 00"
    return f"{said}; the name has 1 to 30 characters of A to Z and 0 to 9"


def word_fault(word):
    """Why a word is the operand of no instruction."""
    if not word:
        return "an operand is empty: two commas, or a comma at the end"
    if "'" in word:
        return literal_fault(word)
    if is_a(NUMBER, word) and digits(word) > 31:
        return f"the number {word} has more than 31 digits"
    if "/" in word:
        return identification_fault(word)
    if word.startswith("*"):
        return f"{word} is no word{near(word, ['*NONE', '*MACHINE', '*LIST', '*PUBLIC'])}"
    if "+" in word:
        return f"{word} is no word of rights; they are in the order {'+'.join(pages.rights())}, and ALL is all eight"
    if re.match(r"[-+.]?[0-9][-+.0-9]*$|[-+.]", word):
        return f"{word} is no number: digits, perhaps with a minus before and a point between them"
    return name_fault(word, True) or f"{word} is no operand"


def act_fault(text):
    mnemonic, rounds, operands = split_act(text)
    behind = len(mnemonic) + 2
    if rounds and mnemonic not in pages.rounded():
        return behind, f"(R) can't come after {mnemonic}"
    if "(R)" in re.sub("'[^']*'", "", text) and not rounds:
        return text.index("(R)") + 1, "(R) is a word of its own after the mnemonic"
    column = behind + (4 if rounds else 0)
    if text.endswith((mnemonic + " ", " (R) ")):
        return len(text), "a trailing blank"
    for word in operands:
        if not has_form(word):
            return column, word_fault(word)
        column += len(word) + 1
    return None


# Words of COBOL and CL with which a beginner's line may begin.
FOREIGN = set("MOVE ADD SUBTRACT MULTIPLY DIVIDE COMPUTE IF GO GOTO PERFORM READ WRITE OPEN CLOSE DISPLAY CALL STOP DO "
              "MONMSG CHGVAR SNDPGMMSG RETURN PGM ENDPGM CRTLIB ALCOBJ DLCOBJ".split())

DECLARATIONS = ("after DCL and the name comes an attribute, perhaps with INIT and a literal; or PARM, a number and an "
                "attribute; or BASED, a pointer, an offset and an attribute; or EXCM, a code and a label")


def place_of(words, place):
    """The column of a word of a line, counted from 0."""
    return sum(len(word) + 1 for word in words[:place]) + 1


def attribute_fault(word):
    return f"{word or 'nothing'} is no attribute: PKD:d:f, ZND:d:f, BIN:2, BIN:4, CHAR:n or PTR"


def declaration_fault(text):
    """The column and the hint of a declaration that has no form, or nothing."""
    words = text.split(" ")
    padded = words + [""] * 7
    kind = padded[2]
    if not is_a(NAME, padded[1]):
        return 5, name_fault(padded[1], True)
    if kind == "EXCM":
        return description_fault(words, padded)
    behind = {"PARM": 4, "BASED": 5}.get(kind, 2)
    if kind == "BASED" and not is_a(NAME, padded[3]):
        return place_of(padded, 3), name_fault(padded[3], True)
    if kind in ("PARM", "BASED") and not is_a(WHOLE, padded[behind - 1]):
        said = padded[behind - 1] or "nothing"
        return place_of(padded, behind - 1), f"{said} is written, and a whole number without a leading zero is wanted"
    if not is_a(ATTRIBUTE, padded[behind]):
        return place_of(padded, behind), attribute_fault(padded[behind])
    if behind > 2:
        odd = "INIT" in words and f"a {kind} has no INIT" or DECLARATIONS
        return (place_of(words, behind + 1), odd) if len(words) > behind + 1 else None
    return initial_fault(text, words)


def description_fault(words, padded):
    if not is_a(rf"\*|{CODE}", padded[3]):
        return place_of(padded, 3), f"{padded[3] or 'nothing'} is no code: four hexadecimal digits, or *"
    if not is_a(NAME, padded[4]):
        return place_of(padded, 4), name_fault(padded[4], True)
    return (place_of(words, 5), DECLARATIONS) if len(words) > 5 else None


def initial_fault(text, words):
    """Of a variable: what is wrong after its attribute."""
    if len(words) == 3:
        return None
    if words[3] != "INIT" or len(words) == 4:
        return place_of(words, 3), DECLARATIONS
    literal = text.split(" ", 4)[4]
    if is_number(literal) or is_a(TEXT, literal):
        return None
    return place_of(words, 4), word_fault(literal)


def job_fault(text):
    """The column and the hint of a line JOB that has no form, or nothing."""
    words = text.split(" ")
    padded = words + [""] * 8
    for place, word in ((2, "USER"), (4, "RUN")):
        if padded[place] != word:
            return place_of(padded, place), f"word {place + 1} of the line is not {word}: JOB name USER name RUN template"
    for place, starts in ((1, True), (3, False), (5, True)):
        fault = name_fault(padded[place], starts)
        if fault:
            return place_of(padded, place), fault
    rest = 6
    if padded[6] == "BUDGET":
        if not is_a(WHOLE, padded[7]):
            return place_of(padded, 7), "after BUDGET is no whole number without a leading zero"
        rest = 8
    names = words[rest + 1:]
    if len(words) > rest and (words[rest] != "CONTEXTS" or not names):
        return place_of(padded, rest), "after the template may come BUDGET n, and then CONTEXTS with names; nothing else"
    bad = [place for place, name in enumerate(names, rest + 1) if name_fault(name, False)]
    return (place_of(words, bad[0]), name_fault(words[bad[0]], False)) if bad else None


def head_fault(text):
    """The same of PROGRAM and LABEL."""
    words = text.split(" ")
    fault = name_fault("".join(words[1:2]), True)
    if fault:
        return len(words[0]) + 2, fault
    if words[0] == "LABEL":
        return (place_of(words, 2), "after the label is another word") if words[2:] else None
    if words[2:] in ([], ["ADOPT"], ["PROPAGATE"], ["ADOPT", "PROPAGATE"]):
        return None
    return place_of(words, 2), "after the template's name may come ADOPT, and then PROPAGATE; nothing else"


def form_fault(text):
    """The column and the hint of a line that has no form at all, or nothing."""
    word = text.split(" ")[0]
    known = [*LINES, *pages.rows()]
    if word in ("END", "STAGE"):
        fault = None if text == word else (len(word) + 1, f"after {word} is another word")
    elif word not in known:
        meant = near(word, known) or "; docs/TUTORIAL.md has the words of COBOL and CL" * (word in FOREIGN)
        fault = 1, f"there is no mnemonic {word}{meant}"
    else:
        own = {"DCL": declaration_fault, "JOB": job_fault, "PROGRAM": head_fault, "LABEL": head_fault}
        fault = own.get(word, act_fault)(text)
    return fault and (blank_fault(text) or case_fault(text) or fault)


def bare_faults(text):
    """The faults of a line that has no blank and no letter too many: of an instruction each bad operand."""
    word = text.split(" ")[0]
    first = form_fault(text)
    if first:
        yield first
    _, _, operands = split_act(text)
    for column, operand in zip(columns(text), operands) if first and word in pages.rows() else ():
        if operand and not has_form(operand):
            yield column, word_fault(operand)


def column_in(text, exact, column):
    """The column in a text of what is at a column of its exact line."""
    found = re.match(r"[^, ]+", exact[column - 1:])
    if not found:
        return min(column, len(text) + 1)
    whole = rf"(?<![A-Z0-9]){re.escape(found[0].upper())}(?![A-Z0-9])"
    before = len(re.findall(whole, exact[:column - 1].upper()))
    places = [one.start() + 1 for one in re.finditer(whole, text.upper())]
    return places[before] if before < len(places) else min(column, len(text) + 1)


def form_faults(text):
    """Each cause for which a line has no form, the first as the program would have it."""
    first, exact = form_fault(text), line_of(text)
    if not first:
        return
    yield first
    if case_fault(text) and exact != text and case_fault(text) != first and not case_fault(text)[1].startswith("lower case in a text"):
        yield case_fault(text)
    for column, hint in dict.fromkeys(bare_faults(exact)):
        place = column if exact == text else column_in(text, exact, column)
        if (place, hint) != first:
            yield place, hint


# ---- the place of a line, and codes 3 to 8

class Reading:
    """Where the reader of a deck is, and what was there before."""

    def __init__(self):
        self.place, self.since = "between", 0
        self.templates, self.labels, self.jobs = {}, {}, {}
        self.count = dict.fromkeys(MOST, 0)
        self.size = 0

    def place_fault(self, word):
        """Why a line that begins with this word may not be here."""
        place, since = self.place, self.since
        inside = word not in ("PROGRAM", "STAGE", "JOB")
        if place in ("declaring", "acting"):
            if not inside:
                return f"END is missing: the template before has not ended when {word} comes"
            late = place == "acting" and word == "DCL"
            return f"a DCL after an instruction or a label (line {since}); all DCL come first in a template" if late else None
        if place == "between" and word == "JOB":
            return "STAGE is missing before the first JOB"
        if place == "between" and inside:
            return "it is outside a template: PROGRAM is missing, or an END came too early"
        if place == "begun" and word != "JOB":
            return f"after STAGE (line {since}) comes no JOB"
        if place == "staged" and (inside or word == "PROGRAM"):
            return "templates come before the first STAGE; after it come jobs and further stages"
        return None

    def seen_fault(self, text):
        """A name that was there before."""
        word, _, rest = text.partition(" ")
        names = {"PROGRAM": self.templates, "LABEL": self.labels, "JOB": self.jobs}.get(word)
        name = rest.split(" ")[0]
        return f"the name is in line {names[name]} already" if names is not None and name in names else None

    def room_fault(self, word):
        what = word if word in MOST else None if word in ("LABEL", "END", "STAGE") else "act"
        if what is None or self.count[what] < MOST[what]:
            return None
        said = {"PROGRAM": "templates", "JOB": "jobs", "DCL": "declarations in a template", "act": "instructions in a template"}
        return f"with it there are more than {MOST[what]} {said[what]}"

    def go(self, number, text):
        """Takes a line, also a bad one as far as its first word says what it is meant as."""
        word, _, rest = text.partition(" ")
        name = rest.split(" ")[0]
        if word == "PROGRAM":
            self.place, self.since, self.labels = "declaring", number, {}
            self.templates.setdefault(name, number)
            self.count.update({"DCL": 0, "act": 0, "PROGRAM": self.count["PROGRAM"] + 1})
        elif word in ("END", "STAGE"):
            self.place, self.since = "between" if word == "END" else "begun", number
        elif word == "JOB":
            self.place, self.since = "staged", number
            self.jobs.setdefault(name, number)
            self.count["JOB"] += 1
        elif word == "DCL":
            self.count["DCL"] += 1
            self.place = "declaring" if self.place == "between" else self.place
        else:
            if word == "LABEL":
                self.labels.setdefault(name, number)
            else:
                self.count["act"] += 1
            if self.place not in ("acting", "begun", "staged"):
                self.place, self.since = "acting", number


def range_fault(text):
    """The column and the hint of a whole number out of its range, or nothing."""
    words = text.split(" ")
    at = {"JOB": (7, 10_000_000, 1), "PARM": (3, 16, 1), "BASED": (4, 16_777_216, 0)}
    key = words[0] if words[0] == "JOB" else "".join(words[2:3]) if words[0] == "DCL" else ""
    if key not in at or key == "JOB" and words[6:7] != ["BUDGET"]:
        return None
    place, most, least = at[key]
    if len(words[place]) < 20 and least <= int(words[place]) <= most:
        return None
    said = {"JOB": f"{words[place]} after BUDGET is not 1 to 10000000", "PARM": f"{words[place]} after PARM is not 1 to 16",
            "BASED": f"the offset {words[place]} is not 0 to 16777216"}
    return place_of(words, place), said[key]


def line_faults(reading, raw, ends):
    """Why a line is bad, each cause with its code, its column and a hint; the first is what the program says."""
    fault = bytes_fault(raw, ends)
    text = raw.decode("latin-1")
    if fault:
        yield "1", *fault
        text = line_of(text)
        if bytes_fault(text.encode("utf-8"), True):
            return
    too_long = reading.size > MOST_BYTES
    if not text or text.startswith("*"):
        if too_long:
            yield "6", 1, f"with it the deck is longer than {MOST_BYTES} bytes"
        return
    word = text.split(" ")[0]
    forms = list(form_faults(text))
    if forms and word not in (*LINES, *pages.rows()):
        yield from (("2", *form) for form in forms)
        return
    place = reading.place_fault(word)
    if place:
        yield "2", 1, place
    yield from (("2", *form) for form in forms)
    if not forms:
        yield from named_faults(reading, text, word, too_long)


def named_faults(reading, text, word, too_long):
    """The same of a line that has a form: the codes 3 to 8."""
    seen, out, room = reading.seen_fault(text), range_fault(text), reading.room_fault(word)
    if seen:
        yield "3", len(word) + 2, seen
    if out:
        yield "4", *out
    if too_long:
        yield "6", 1, f"with it the deck is longer than {MOST_BYTES} bytes"
    if room:
        yield "7", 1, room
    name = text.split(" ")[5] if word == "JOB" else None
    if name is not None and name not in reading.templates:
        yield "8", place_of(text.split(" "), 5), f"there is no template {name}{near(name, reading.templates)}"


def end_fault(reading):
    if reading.place == "begun":
        return f"no JOB is after STAGE (line {reading.since})"
    return "END is missing after the last template" if reading.place in ("declaring", "acting") else None


def deck_faults(deck, each=False):
    """Every line that is bad, with the code that the program would give it, were it the first; or each cause of such a line."""
    reading, found = Reading(), []
    for number, raw in enumerate(deck.raw, 1):
        ends = deck.ends or number < len(deck.raw)
        reading.size += len(raw) + 1
        causes = list(line_faults(reading, raw, ends))
        for code, column, hint in causes if each else causes[:1]:
            found.append(Fault(number, column, code, hint))
        text = raw.decode("latin-1")
        if text.strip() and not text.startswith("*"):
            reading.go(number, text.strip().upper())
    fault = end_fault(reading)
    if fault:
        found.append(Fault(len(deck.raw) + 1, 1, "5", fault))
    return found
