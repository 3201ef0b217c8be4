"""The bodies of objects as a store has them (docs/FORMATS.md, Images): what each kind of object holds, read whole."""
import re

from .creation import template_faults
from .deck import Deck
from .faults import deck_faults
from .values import packed, zoned
from .words import is_bounded, length_of

KINDS = dict(enumerate("CONTEXT PROGRAM PROFILE SPACE QUEUE INDEX DATASPACE CURSOR JPORT JSPACE CBLOCK".split(), 1))
ORDERS = ("FIFO", "LIFO", "KEYED")
ATTRIBUTES = {1: "PKD", 2: "ZND", 3: "BIN", 4: "CHAR"}
CELL, HEAD = 16, 41
ENTRY_KINDS = {1: "insert", 2: "update", 3: "delete", 4: "commit", 5: "decommit"}


class NoBody(Exception):
    """A body that leaves the form of its kind."""


def number(data):
    return int.from_bytes(data, "big")


def is_name(letters):
    return re.fullmatch(rb"[A-Z0-9]{1,30}", letters) is not None


class Reader:
    """The bytes of a body, taken from the front."""

    def __init__(self, data):
        self.data, self.at = data, 0

    def take(self, count):
        if self.at + count > len(self.data):
            raise NoBody(f"its body ends too early, at byte {len(self.data)}")
        self.at += count
        return self.data[self.at - count:self.at]

    def number(self, size):
        return number(self.take(size))

    def end(self):
        if self.at != len(self.data):
            raise NoBody(f"its body has {len(self.data) - self.at} bytes too many")


class Body:
    """What an object holds, as attributes by the kind of the object."""

    def __init__(self, **has):
        self.__dict__.update(has)


def want(good, why):
    if not good:
        raise NoBody(why)


# ---- each kind

def context(data, tags):
    want(not data, "a context has no body, and this one has")
    return Body()


def program(data, tags):
    text = data.decode("latin-1")
    deck = Deck(data)
    exact = not deck_faults(deck) and len(deck.templates) == 1 and not deck.jobs
    want(exact and all(line and not line.startswith("*") for line in deck.lines), "its text is no template as the machine prints one")
    template = next(iter(deck.templates.values()))
    want(not template_faults(template), "its template is one that creation refuses")
    return Body(text=text, template=template)


def profile(data, tags):
    reader = Reader(data)
    specials, limit = reader.number(1), reader.number(4)
    reader.end()
    want(not specials & 0x3F, f"its special authorities are {specials:02X}, and only the bits 80 and 40 may be set")
    return Body(specials=specials, limit=limit)


def space(data, tags):
    want(data and len(data) % CELL == 0, "a space has whole cells of 16 bytes, and one at least")
    found = [page * 32 + bit for page, word in enumerate(tags) for bit in range(32) if word >> bit & 1]
    want(all(cell < len(data) // CELL for cell in found), "a tag is set past its last cell")
    return Body(data=data, pointers={cell * CELL: pointer(data[cell * CELL:(cell + 1) * CELL]) for cell in found})


def attribute(kind, data):
    """The attribute of three bytes."""
    name = ATTRIBUTES.get(kind)
    want(name is not None, f"there is no attribute of the kind {kind}")
    if name in ("PKD", "ZND"):
        said = f"{name}:{data[0]}:{data[1]}"
    elif name == "BIN":
        want(data[0] == 0 and data[1] in (2, 4), "a binary number has 2 or 4 bytes")
        said = f"BIN:{data[1]}"
    else:
        said = f"CHAR:{number(data)}"
    want(is_bounded(said), f"the attribute {said} is out of its bounds")
    return said


def pointer(cell):
    """A pointer image: its kind, the object, and its rights, its offset or its attribute."""
    kind, mark, more, offset, at = cell[0], cell[1], cell[2:4], number(cell[4:8]), number(cell[8:16])
    want(kind in (1, 2, 3), f"a pointer has the kind {kind}, and 1 to 3 can be")
    if kind == 1:
        want(not any(more) and not offset, "a system pointer has bytes where zeros have to be")
        return Body(kind="system", rights=mark, number=at)
    want(offset <= 16_777_216, f"a pointer has the offset {offset}")
    if kind == 2:
        want(not mark and not any(more), "a space pointer has bytes where zeros have to be")
        return Body(kind="space", offset=offset, number=at)
    return Body(kind="data", attribute=attribute(mark, more), offset=offset, number=at)


def queue(data, tags):
    reader = Reader(data)
    order, key, longest, count = reader.number(1), reader.number(1), reader.number(2), reader.number(4)
    want(order <= 2 and 1 <= longest <= 4096, "the order or the longest message of the queue is out of its bounds")
    want(1 <= key <= 120 if order == 2 else key == 0, f"its keys are of {key} bytes, and it is {ORDERS[order]}")
    messages = []
    for _ in range(count):
        letters = reader.take(key)
        size = reader.number(2)
        want(size <= longest, f"a message has {size} bytes, and the queue takes {longest}")
        messages.append((letters, reader.take(size)))
    reader.end()
    return Body(order=ORDERS[order], key=key, longest=longest, messages=messages)


def index(data, tags):
    reader = Reader(data)
    longest, count = reader.number(1), reader.number(4)
    want(1 <= longest <= 120, f"its longest entry is of {longest} bytes, and 1 to 120 can be")
    entries = []
    for _ in range(count):
        size = reader.number(1)
        want(size <= longest, f"an entry has {size} bytes, and the index takes {longest}")
        entries.append(reader.take(size))
        want(len(entries) < 2 or entries[-2] < entries[-1], "its entries do not rise")
    reader.end()
    return Body(longest=longest, entries=entries)


def has_value(said, data):
    """Whether bytes have a value by a numeric attribute; all bytes are good for other ones."""
    kind, *sizes = said.split(":")
    if kind == "PKD":
        return packed(data, int(sizes[1])) is not None and (int(sizes[0]) % 2 or data[0] < 16)
    return kind != "ZND" or zoned(data, int(sizes[1])) is not None


def entry_size(fields):
    return sum(map(length_of, fields))


def image_size(fields, ordinals):
    """How long the image of a data space of so many ordinals is."""
    return 22 + 3 * len(fields) + ordinals * (1 + entry_size(fields))


def fields_of(fields, data):
    """The bytes of each field of an entry."""
    found, at = [], 0
    for said in fields:
        found.append(data[at:at + length_of(said)])
        at += length_of(said)
    return found


def dataspace(data, tags):
    reader = Reader(data)
    port, sequence, count = reader.number(8), reader.number(8), reader.number(2)
    want(port or not sequence, "it counts journal entries, and has no port")
    want(1 <= count <= 256, f"it has {count} fields, and 1 to 256 can be")
    fields = [attribute(reader.number(1), reader.take(2)) for _ in range(count)]
    size = sum(map(length_of, fields))
    want(size <= 4096, f"its entries would have {size} bytes, and 4,096 are the most")
    entries = []
    for _ in range(reader.number(4)):
        there, entry = reader.number(1), reader.take(size)
        want(there in (0, 1) and (there or not any(entry)), "an entry is neither there nor deleted")
        want(not there or all(map(has_value, fields, fields_of(fields, entry))), "a number in an entry has no value")
        entries.append(entry if there else None)
    reader.end()
    return Body(port=port, sequence=sequence, fields=fields, entries=entries)


def cursor(data, tags):
    reader = Reader(data)
    found = Body(space=reader.number(8), block=reader.number(8), position=reader.number(4))
    reader.end()
    return found


def port(data, tags):
    reader = Reader(data)
    found = Body(journal=reader.number(8))
    reader.end()
    return found


def block(data, tags):
    reader = Reader(data)
    found = Body(port=reader.number(8))
    reader.end()
    return found


def journal_entry(data):
    """An entry of a journal from its first byte on."""
    before, after = number(data[37:39]), number(data[39:41])
    return Body(sequence=number(data[4:12]), unit=number(data[12:20]), process=number(data[20:24]),
                kind=ENTRY_KINDS.get(data[24]), object=number(data[25:33]), ordinal=number(data[33:37]),
                before=data[HEAD:HEAD + before], after=data[HEAD + before:HEAD + before + after], raw=data)


def journal(data, tags):
    reader, entries = Reader(data), []
    while reader.at < len(data):
        size = number(data[reader.at:reader.at + 4])
        want(size >= HEAD, f"journal entry {len(entries) + 1} says that it has {size} bytes")
        entry = journal_entry(reader.take(size))
        want(entry.sequence == len(entries) + 1, f"journal entry {len(entries) + 1} says that it is the entry {entry.sequence}")
        want(entry.kind is not None and entry.unit <= entry.sequence, f"journal entry {entry.sequence} has no kind, or a later unit")
        want(HEAD + len(entry.before) + len(entry.after) == size, f"the lengths of journal entry {entry.sequence} do not agree")
        want(entry.kind not in ("commit", "decommit") or not entry.object and not entry.ordinal,
             f"journal entry {entry.sequence} ends a unit, and names an object")
        entries.append(entry)
    return Body(entries=entries)


READERS = {"CONTEXT": context, "PROGRAM": program, "PROFILE": profile, "SPACE": space, "QUEUE": queue, "INDEX": index,
           "DATASPACE": dataspace, "CURSOR": cursor, "JPORT": port, "JSPACE": journal, "CBLOCK": block}


def read(kind, data, tags):
    """The body of an object of a kind."""
    return READERS[kind](data, tags)
