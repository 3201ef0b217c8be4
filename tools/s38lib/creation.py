"""What creation refuses of a template: the causes 2A02 to 2A08, each with its column and a hint."""
from . import pages
from .deck import MADE, attribute_of, columns, named_operands, split_act
from .faults import Fault, place_of
from .words import (digits_of, holds, is_bounded, is_number, is_numeric, is_parsed, length_of,
                    literal_attribute, near, sizes)

# What a row asks of its operands together, in words.
TOGETHER = {
    **dict.fromkeys(["AND", "OR", "XOR", "NOT", "CPYBWP"], "its operands are not equally long"),
    "XLATE": "operands 3 and 4 are not equally long", "CPYBLAP": "operand 3 is not one byte",
    "CVTHC": "operand 1 is not twice as long as operand 2", "CVTCH": "operand 2 is not twice as long as operand 1",
    "RETEXCPD": "operand 1 is no CHAR:2 variable", "XCTL": "an argument is no parameter of this program",
    "CRTQ": "the length of keys is not 1 to 120 with KEYED, or not 0 without, or the longest message is not 1 to 4096",
    "CRTINX": "the longest entry is not 1 to 120", "TESTAU": "operand 1 is no BIN:2",
}


# ---- declarations

def bounds_hint(attribute):
    if attribute.startswith("CHAR"):
        return f"{attribute}: 1 to 4096 bytes"
    return f"{attribute}: 1 to 31 digits, of them at most all after the point"


class Names:
    """The names of a template that were declared so far."""

    def __init__(self, template):
        self.template, self.all = template, template.declared()
        self.seen, self.parameters = {}, 0

    def fault(self, line, text):
        """The cause, the column and the hint of a declaration, or nothing."""
        words = text.split(" ")
        attribute = attribute_of(words[2:])
        if attribute != "EXCM" and not is_bounded(attribute):
            return "2A02", place_of(words, words.index(attribute, 2)), bounds_hint(attribute)
        if words[3:4] == ["INIT"] and words[2] not in ("PARM", "BASED", "EXCM"):
            literal = text.split(" ", 4)[4]
            if not holds(attribute, literal):
                return "2A02", place_of(words, 4), f"{attribute} does not hold {literal} exactly"
        return self.name_fault(words)

    def name_fault(self, words):
        name, kind = words[1], words[2]
        fault = None
        if kind == "BASED":
            fault = self.base_fault(words[3])
        elif kind == "EXCM" and words[4] not in self.template.labels:
            fault = f"there is no label {words[4]} in {self.template.name}{near(words[4], self.template.labels)}"
        elif kind == "PARM" and int(words[3]) != self.parameters + 1:
            fault = "PARMs are numbered 1, 2, 3 in the order of their declarations"
        if fault:
            return "2A03", place_of(words, 4 if kind == "EXCM" else 3), fault
        if name in self.seen:
            return "2A03", 5, f"{name} was declared before, in line {self.seen[name][0]}"
        return None

    def base_fault(self, base):
        if base not in self.seen:
            later = " before it; it is declared after it" if base in self.all else near(base, self.seen)
            return f"the pointer {base} is not declared{later}"
        words = self.seen[base][1]
        return None if attribute_of(words) == "PTR" and words[0] != "BASED" else f"{base} is no PTR, or lies in a space itself"

    def take(self, line, text):
        words = text.split(" ")
        self.seen.setdefault("".join(words[1:2]), (line, words[2:]))
        self.parameters += words[2:3] == ["PARM"]


# ---- instructions

def operands_fault(text):
    """2A04: the operands are not those of the row."""
    mnemonic, rounds, operands = split_act(text)
    if mnemonic not in pages.rows():  # a line that is no instruction, of a deck that is refused
        return 1, f"there is no mnemonic {mnemonic}"
    most, least = pages.most_operands(mnemonic)
    if not least <= len(operands) <= most:
        column = columns(text)[most] if len(operands) > most else len(text) + 1
        spelled = pages.heads()[mnemonic][0]
        said = f"{most} operand{'' if most == 1 else 's'}" + (f" ({spelled})" if spelled else "")
        return column, f"{mnemonic} has {said}, and the line has {len(operands)}"
    for place, word in enumerate(operands):
        letter = pages.letter_at(mnemonic, place)
        if not is_parsed(letter, word):
            return columns(text)[place], f"operand {place + 1}: {wanted(letter)} is wanted, but {word} is written"
    return None


def wanted(letter):
    """What may be written at a letter, in words."""
    said = {"n": "a number item", "N": "a number item or a number", "c": "an item of bytes",
            "C": "an item or a text in quotes", "B": "an item, a text in quotes or *NONE", "p": "a PTR", "P": "a PTR",
            "x": "a PTR, or a CHAR of whole cells in a space", "X": "a PTR or *MACHINE", "Z": "a PTR or *NONE",
            "Y": "a PTR, *MACHINE or *LIST", "U": "a PTR to a profile or *PUBLIC", "I": "KIND/ss/NAME",
            "R": "a word of rights", "A": "an attribute", "F": "attributes joined by +", "k": "a whole number",
            "K": "a whole number", "G": "a template's name", "J": "a job's name", "L": "a label", "e": "four digits",
            "H": "an EXCM", "a": "a variable or a parameter"}
    if letter in said:
        return said[letter]
    *first, last = dict.fromkeys(pages.words()[letter])
    return f"{', '.join(first)} or {last}"


def undeclared_fault(template, names, text):
    """2A07: an operand's name is not declared."""
    for place, _, word in named_operands(text):
        if word not in names:
            return columns(text)[place - 1], (f"{word} (operand {place}) is not declared in {template.name}"
                                              f"{near(word, names)}")
    return None


def item_suits(letter, words):
    """Whether an item with these words after its name may be at this letter."""
    attribute = attribute_of(words)
    based, parameter = words[0] == "BASED", words[0] == "PARM"
    if letter in "nN":
        return is_numeric(attribute)
    if letter in "pPXYZU":
        return attribute == "PTR"
    if letter == "H":
        return attribute == "EXCM"
    if letter == "x":
        cells = attribute.startswith("CHAR") and sizes(attribute)[0] % 16 == 0
        return attribute == "PTR" or based and cells
    if letter == "a":
        return attribute != "EXCM" and (parameter or not based)
    return attribute not in ("EXCM", "PTR")


def word_suits(letter, word):
    """The same of a word that names no item."""
    if letter == "K":
        return len(word) < 12 and int(word) <= 4_294_967_295
    if letter == "k":
        return abs(int(word)) <= 31
    if letter == "t":
        return word in pages.words()["t"]
    if letter not in "AF":
        return True
    fields = word.split("+")
    scalars = all(field != "PTR" and is_bounded(field) for field in fields)
    return scalars and len(fields) <= 256 and sum(map(length_of, fields)) <= 4096


def bad_word(letter, word):
    said = {"K": f"{word} is above 4294967295", "k": f"the power {word} is not -31 to 31",
            "t": f"{word} is no relation of a comparison: {wanted('t')}",
            "A": "the attribute is PTR or out of its bounds",
            "F": "a field is PTR or out of its bounds, or an entry would have more than 4096 bytes"}
    return said[letter]


def lengths(names, operands):
    """How many bytes each operand has, 0 if it has no attribute."""
    found = []
    for word in operands:
        attribute = attribute_of(names[word][1]) if word in names else None
        literal = not attribute and (is_number(word) or word.endswith("'"))
        found.append(length_of(attribute or literal_attribute(word)) if literal or attribute not in (None, "EXCM") else 0)
    return found


def keeps_together(mnemonic, names, operands):
    """Whether the operands keep what the row asks of them together."""
    size = lengths(names, operands)
    first = names.get(operands[0], (0, ["?"]))[1] if operands else []
    if mnemonic == "CRTQ":
        key, longest = int(operands[5]), int(operands[6])
        return (1 <= key <= 120 if operands[4] == "KEYED" else key == 0) and 1 <= longest <= 4096
    rules = {
        **dict.fromkeys(["AND", "OR", "XOR", "NOT", "CPYBWP"], lambda: len(set(size)) == 1),
        "XLATE": lambda: size[2] == size[3], "CPYBLAP": lambda: size[2] == 1,
        "CVTHC": lambda: size[0] == 2 * size[1], "CVTCH": lambda: size[1] == 2 * size[0],
        "RETEXCPD": lambda: first[0] == "CHAR:2", "TESTAU": lambda: attribute_of(first) == "BIN:2",
        "XCTL": lambda: all(names[word][1][0] == "PARM" for word in operands[1:]),
        "CRTINX": lambda: 1 <= int(operands[4]) <= 120}
    return rules.get(mnemonic, lambda: True)()


def attributes_fault(names, text):
    """2A05: the attributes, or a word's range, are not those of the row."""
    mnemonic, _, operands = split_act(text)
    at = columns(text)
    items = {place for place, _, _ in named_operands(text)}
    for place, word in enumerate(operands, 1):
        letter = pages.letter_at(mnemonic, place - 1)
        if place in items and not item_suits(letter, names[word][1]):
            return at[place - 1], f"operand {place}: {wanted(letter)} is wanted, but {word} is {described(names[word][1])}"
        if place not in items and not word_suits(letter, word):
            return at[place - 1], f"operand {place}: {bad_word(letter, word)}"
    made, place = MADE.get(mnemonic), pages.rows()[mnemonic].find("I")
    if made and not operands[place].startswith(made + "/"):
        a = "an" if made == "INDEX" else "a"
        return at[place], f"{mnemonic} makes {a} {made}, and operand {place + 1} is {operands[place]}"
    if mnemonic == "DEQ" and operands[2] in ("FIRST", "LAST"):
        return at[2], "a message is not asked for by FIRST or LAST"
    return None if keeps_together(mnemonic, names, operands) else (at[0], TOGETHER[mnemonic])


def described(words):
    """What an item is, in words."""
    return f"{attribute_of(words)} in a space" if words[0] == "BASED" else attribute_of(words)


def digits_needed(mnemonic, names, operands):
    """How many digits a computation needs, by the table of docs/REFERENCE.md."""
    def number(word):
        return digits_of(attribute_of(names[word][1]) if word in names else literal_attribute(word))
    if mnemonic == "CMPNVB":
        (d1, f1), (d2, f2) = number(operands[0]), number(operands[1])
        return max(d1 - f1, d2 - f2) + max(f1, f2)
    if mnemonic not in ("ADDN", "SUBN", "MULT", "DIV", "REM", "NEG", "CPYNV", "SCALE"):
        return 0
    _, f1 = number(operands[0])
    d2, f2 = number(operands[1])
    if mnemonic in ("NEG", "CPYNV"):
        return d2 - f2 + max(f1, f2)
    if mnemonic == "SCALE":
        power = int(operands[2])
        return d2 - f2 + max(power, 0) + max(f1, f2 - min(power, 0))
    d3, f3 = number(operands[2])
    needs = {"MULT": d2 - f2 + d3 - f3 + max(f1, f2 + f3),
             "DIV": max(d2 + max(0, f1 + f3 - f2), d3 + max(0, f2 - f1 - f3)),
             "REM": max(d2 - f2, d3 - f3) + max(f1, f2, f3)}
    return needs.get(mnemonic, max(d2 - f2, d3 - f3) + 1 + max(f1, f2, f3))


def act_fault(template, names, text):
    """The first cause of an instruction, with its column and a hint, or nothing."""
    fault = operands_fault(text)
    if fault:
        return "2A04", *fault
    fault = undeclared_fault(template, names, text)
    if fault:
        return "2A07", *fault
    fault = attributes_fault(names, text)
    if fault:
        return "2A05", *fault
    mnemonic, _, operands = split_act(text)
    need = digits_needed(mnemonic, names, operands)
    if need > 38:
        return "2A06", 1, f"the computation needs {need} digits, and 38 are the most"
    for place, word in enumerate(operands):
        if pages.letter_at(mnemonic, place) == "L" and word not in template.labels:
            return "2A08", columns(text)[place], f"there is no label {word} in {template.name}{near(word, template.labels)}"
    return None


# ---- a template

def template_faults(template, bad=()):
    """Each declaration and instruction that creation would refuse, were it the first; lines that are bad are left out."""
    names, found = Names(template), []
    for number, (line, text) in enumerate(template.declarations, 1):
        fault = None if line in bad else names.fault(line, text)
        if fault:
            found.append(Fault(line, fault[1], fault[0], fault[2], template, number))
        names.take(line, text)
    odd = {text.split(" ")[1] for line, text in template.declarations if line in bad and " " in text}
    for number, (line, text) in enumerate(template.instructions, 1):
        if line in bad or any(word in odd for _, _, word in named_operands(text)):
            continue
        fault = act_fault(template, names.seen, text)
        if fault:
            found.append(Fault(line, fault[1], fault[0], fault[2], template, number))
    return found


def creation_fault(template, code, number):
    """What is known of the fault that creation named so, or nothing."""
    return next((fault for fault in template_faults(template) if (fault.code, fault.number) == (code, number)), None)
