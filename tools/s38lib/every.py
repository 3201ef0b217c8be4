"""All faults of a deck in one pass, each once: what tools/lint says. A line that has no form is taken as it was meant, where
tools/fmt can make it exact, so that its other faults are found too."""
from . import pages
from .creation import (MADE, Names, TOGETHER, bad_word, described, digits_needed, item_suits, keeps_together, operands_fault, wanted,
                       word_suits)
from .deck import Deck, columns, named_operands, split_act
from .faults import Fault, bytes_fault, column_in, deck_faults, form_fault
from .layout import line_of
from .words import NAME, is_a, is_parsed, near

SHOWN = 5  # how many further lines of one cause are named


def meant(deck):
    """The deck as it was meant, and the lines of which nobody knows how."""
    lines, unknown = [], set()
    for number, text in enumerate(deck.lines, 1):
        exact = line_of(text)
        bad = bytes_fault(deck.raw[number - 1], True) or text and not text.startswith("*") and form_fault(text)
        if bad and (bytes_fault(exact.encode("utf-8"), True) or exact and not exact.startswith("*") and form_fault(exact)):
            unknown.add(number)
        lines.append(exact if bad and number not in unknown else text)
    return Deck("".join(line + "\n" for line in lines).encode("latin-1", "replace")), unknown


class Template:
    """A template with what is known of its names."""

    def __init__(self, template, unknown):
        self.template, self.unknown, self.names = template, unknown, Names(template)
        self.odd, self.missing = set(), {}

    def faults(self):
        """Each fault of the declarations, and then of the instructions."""
        for number, (line, text) in enumerate(self.template.declarations, 1):
            words = text.split(" ")
            if line in self.unknown:
                self.odd.update(words[1:2])
                continue
            fault = self.names.fault(line, text)
            if fault and "EXCM" not in words[2:3]:
                self.odd.update(words[1:2] if words[1] not in self.names.seen else [])
            if fault:
                yield Fault(line, fault[1], fault[0], fault[2], self.template, number)
            self.names.take(line, text)
        for number, (line, text) in enumerate(self.template.instructions, 1):
            for code, column, hint in self.act_faults(line, text) if line not in self.unknown else ():
                yield Fault(line, column, code, hint, self.template, number)
        yield from self.undeclared()

    def undeclared(self):
        """The names that are not declared, each once."""
        for word, (line, column, place, others) in self.missing.items():
            more = f"; also in line{'s' * (len(others) > 1)} {', '.join(map(str, others[:SHOWN]))}{', ..' if others[SHOWN:] else ''}" if others else ""
            yield Fault(line, column, "2A07", f"{word} (operand {place}) is not declared in {self.template.name}"
                        f"{near(word, self.names.seen)}{more}", self.template)

    def act_faults(self, line, text):
        """Each fault of an instruction but names that are not declared, which are noted."""
        mnemonic, _, operands = split_act(text)
        at, most = columns(text), pages.most_operands(mnemonic)
        found = []
        if not most[1] <= len(operands) <= most[0]:
            found.append(("2A04", *operands_fault(text)))
        named = {place: word for place, _, word in named_operands(text)}
        for place, word in enumerate(operands, 1):
            letter = pages.letter_at(mnemonic, place - 1)
            fault = letter and self.operand_fault(letter, word, place, named)
            if fault:
                found.append((fault[0], at[place - 1], fault[1]))
            if place in named and word not in self.names.seen and word not in self.odd:
                self.note(word, line, at[place - 1], place)
            if letter == "L" and is_a(NAME, word) and word not in self.template.labels:
                found.append(("2A08", at[place - 1], f"there is no label {word} in {self.template.name}{near(word, self.template.labels)}"))
        known = all(word in self.names.seen and word not in self.odd for word in named.values())
        return found or (self.whole_faults(mnemonic, operands, at) if known else [])

    def note(self, word, line, column, place):
        if word not in self.missing:
            self.missing[word] = (line, column, place, [])
        elif line not in (self.missing[word][0], *self.missing[word][3]):
            self.missing[word][3].append(line)

    def operand_fault(self, letter, word, place, named):
        """What is wrong about one operand by itself, or nothing."""
        if not is_parsed(letter, word):
            return "2A04", f"operand {place}: {wanted(letter)} is wanted, but {word} is written"
        if place not in named:
            return None if word_suits(letter, word) else ("2A05", f"operand {place}: {bad_word(letter, word)}")
        if word in self.odd or word not in self.names.seen:
            return None
        words = self.names.seen[word][1]
        if item_suits(letter, words):
            return None
        return "2A05", f"operand {place}: {wanted(letter)} is wanted, but {word} is {described(words)}"

    def whole_faults(self, mnemonic, operands, at):
        """What is wrong about operands together that are good by themselves."""
        names, found = self.names.seen, []
        made, place = MADE.get(mnemonic), pages.rows()[mnemonic].find("I")
        if made and not operands[place].startswith(made + "/"):
            found.append(("2A05", at[place], f"{mnemonic} makes a{'n' * (made == 'INDEX')} {made}, and operand {place + 1} is {operands[place]}"))
        if mnemonic == "DEQ" and operands[2] in ("FIRST", "LAST"):
            found.append(("2A05", at[2], "a message is not asked for by FIRST or LAST"))
        if not keeps_together(mnemonic, names, operands):
            found.append(("2A05", at[0], TOGETHER[mnemonic]))
        need = digits_needed(mnemonic, names, operands)
        return [*found, ("2A06", 1, f"the computation needs {need} digits, and 38 are the most")] if need > 38 else found


def faults_of(deck):
    """The faults of a deck in the order of its lines, each once."""
    found = deck_faults(deck, True)
    exact, unknown = meant(deck)
    for template in exact.templates.values():
        for fault in Template(template, unknown).faults():
            text, made = deck.line(fault.line), exact.line(fault.line)
            fault.column = fault.column if text == made else column_in(text, made, fault.column)
            found.append(fault)
    return sorted(found, key=lambda fault: (fault.line, fault.column))
