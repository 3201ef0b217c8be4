"""The one reader of stores: from the bytes of a store's file to its objects, by the formats of docs/FORMATS.md (Images, Stores
on a disk). A log whose gate is up is done again in memory, and the file is never written. What the program would refuse is
found here too, in the same order and with the same last line."""
import pathlib
import stat

from . import bodies
from .stores import BLOCK, CEILING, CEILING_NUMBER, FIRST_HOME, HEADER, LABEL, PAGE

GATE, LOG, UP = 1, 2, 0x4F
BLOCKS, MOST_HOMES, PLACES_A_BLOCK = 131_072, 2_286, 132
ROWS_PART, BODY_PART, ROW = 1, 128, 9
MOST_ROWS, MOST_BODY, MOST_JOURNAL = 4_096, 1_048_576, 16_777_216
MOST_CEILING = 2 ** 62 + 64
MACHINE, OFFICER = 1, 2
NOTHING = bytes(BLOCK)


class NoStore(Exception):
    """A file that the program would refuse as a store: the last line that it would print, and what is known besides."""

    def __init__(self, line, more=""):
        super().__init__(f"{line}{': ' if more else ''}{more}")
        self.line, self.more = line, more


def number(data):
    return int.from_bytes(data, "big")


# ---- the blocks of a disk

class Part:
    """A page of an object, with the block that has it."""

    def __init__(self, tags, page, block):
        self.tags, self.page, self.block = tags, page, block


class Disk:
    """The blocks of a file. What is past its end reads as zeros."""

    def __init__(self, data):
        self.data, self.redone = data, {}

    def block(self, at):
        if at in self.redone:
            return self.redone[at]
        data = self.data[at * BLOCK:(at + 1) * BLOCK]
        return data if len(data) == BLOCK else data + bytes(BLOCK - len(data))

    def count(self):
        """How many blocks have to be looked at."""
        return min(BLOCKS, max(-(-len(self.data) // BLOCK), max(self.redone, default=0) + 1))

    @property
    def gate_is_up(self):
        return self.block(GATE)[0] == UP

    def logged(self):
        """The homes of the log, in its order; a log that is damaged is refused."""
        count = number(self.block(LOG)[:4])
        if not 1 <= count <= MOST_HOMES:
            raise NoStore(f"LOG DAMAGED {LOG}", f"the gate is up, and its log says that it has {count:,} blocks; 1 to {MOST_HOMES:,} can be")
        homes, seen = [], set()
        for place in range(1, count + 1):
            block, at = LOG + place // PLACES_A_BLOCK, place % PLACES_A_BLOCK * 4
            home = number(self.block(block)[at:at + 4])
            if not FIRST_HOME <= home < BLOCKS or home in seen:
                odd = "twice" if home in seen else "and it is no home"
                raise NoStore(f"LOG DAMAGED {block}", f"the gate is up, and its log names the block {home:,} {odd}")
            seen.add(home)
            homes.append(home)
        return homes

    def redo(self):
        """Does the log again, in memory."""
        homes = self.logged()
        first = LOG + len(homes) // PLACES_A_BLOCK + 1
        self.redone = {home: self.block(first + place) for place, home in enumerate(homes)}

    def homes(self):
        """Each home that has a part: its block, and what it has."""
        for block in range(FIRST_HOME, self.count()):
            data = self.block(block)
            if any(data[:8]):
                yield block, data


def parts_in(disk):
    """The parts of a disk by object and part; two homes of one part are refused."""
    found, firsts = {}, {}
    for block, data in disk.homes():
        key = number(data[:8]), number(data[8:12])
        if key in found:
            raise NoStore(f"TWO BLOCKS {found[key].block} {block}", f"both are part {key[1]} of the object {key[0]}")
        found[key] = Part(number(data[12:16]), data[16:16 + PAGE], block)
    return found


def raw_parts(data):
    """What the homes of a store have as it lies in its file: tags and page by number and part, as bytes."""
    return {block[:12]: block[12:] for _, block in Disk(data).homes()}


# ---- objects

class Damaged(Exception):
    """A part of an object that leaves its form: its number, and why."""

    def __init__(self, part, why):
        super().__init__(why)
        self.part, self.why = part, why


class Object:
    """An object of a store: what its header says, its rows, and its body by its kind."""

    def __init__(self, at, kind, subtype, name):
        self.number, self.kind, self.subtype, self.name = at, kind, subtype, name
        self.context = self.owner = self.public = self.row_count = self.length = 0
        self.rows, self.body, self.parts = {}, None, 0

    @property
    def identification(self):
        return f"{self.kind}/{self.subtype:02X}/{self.name}"


def read_header(at, part):
    """The object that a header page says."""
    page = part.page
    if page[:4] != HEADER or part.tags:
        raise Damaged(0, "its header does not begin with S38H" if page[:4] != HEADER else "its header has tags")
    kind, size, name = bodies.KINDS.get(page[4]), number(page[6:8]), page[8:38]
    letters = name[:size]
    if kind is None:
        raise Damaged(0, f"its header says the kind {page[4]}, and there are the kinds 1 to 11")
    if not 1 <= size <= 30 or any(name[size:]) or not bodies.is_name(letters):
        raise Damaged(0, f"the name in its header is none: {name.rstrip(bytes(1))!r} of {size} letters")
    one = Object(at, kind, page[5], letters.decode("ascii"))
    one.context, one.owner, one.public = number(page[38:46]), number(page[46:54]), page[54]
    one.row_count, one.length = number(page[56:60]), number(page[60:64])
    if page[55] or any(page[64:]):
        raise Damaged(0, "its header has bytes where zeros have to be")
    if one.row_count > MOST_ROWS or one.length > (MOST_JOURNAL if kind == "JSPACE" else MOST_BODY):
        raise Damaged(0, f"its header says {one.row_count:,} rows and {one.length:,} bytes, which is above the limits")
    return one


def stream(pages, first, length):
    """The bytes and the tags of a stream of pages."""
    count = -(-length // PAGE)
    missing = next((first + place for place in range(count) if first + place not in pages), None)
    if missing is not None:
        raise Damaged(missing, f"its part {missing} is missing")
    parts = [pages[first + place] for place in range(count)]
    data = b"".join(part.page for part in parts)
    return data[:length], [part.tags for part in parts], any(data[length:])


def read_rows(one, data):
    """The private rows: rights by the number of the user."""
    rows, last = {}, -1
    for at in range(0, len(data), ROW):
        user, rights = number(data[at:at + 8]), data[at + 8]
        if user <= last or not rights:
            raise Damaged(ROWS_PART, "its private rows are out of order, or one is without rights")
        rows[user], last = rights, user
    return rows


def read_object(at, pages):
    """An object of its pages, by part. A page that has no place in it is a fault of the rows or of the body."""
    one = read_header(at, pages[0])
    row_pages, body_pages = -(-one.row_count * ROW // PAGE), -(-one.length // PAGE)
    rows, row_tags, row_rest = stream(pages, ROWS_PART, one.row_count * ROW)
    body, body_tags, body_rest = stream(pages, BODY_PART, one.length)
    if any(ROWS_PART + row_pages <= part < BODY_PART for part in pages):
        raise Damaged(ROWS_PART, "it has a page past the end of its rows")
    if any(row_tags) or row_rest:
        raise Damaged(ROWS_PART, "its rows have tags, or bytes past their end")
    one.rows = read_rows(one, rows)
    if any(part >= BODY_PART + body_pages for part in pages):
        raise Damaged(BODY_PART, "it has a page past the end of its body")
    if body_rest or one.kind != "SPACE" and any(body_tags):
        raise Damaged(BODY_PART, "its body has bytes past its end, or tags")
    try:
        one.body = bodies.read(one.kind, body, body_tags)
    except bodies.NoBody as fault:
        raise Damaged(BODY_PART, str(fault)) from None
    one.parts = len(pages)
    return one


def redo(entries, fields, entry):
    """Does a journal entry again on the entries of a data space, where it can be done."""
    at = entry.ordinal
    good = len(entry.after) == bodies.entry_size(fields) and all(map(bodies.has_value, fields, bodies.fields_of(fields, entry.after)))
    if entry.kind == "insert" and good and at >= 1 and bodies.image_size(fields, at) <= MOST_BODY:
        entries.extend([None] * (at - len(entries)))
        entries[at - 1] = entry.after
    elif entry.kind == "update" and good and 1 <= at <= len(entries) and entries[at - 1] is not None:
        entries[at - 1] = entry.after
    elif entry.kind == "delete" and 1 <= at <= len(entries):
        entries[at - 1] = None


# ---- a store

def read_ceiling(parts):
    """The ceiling of numbers; nothing where it is missing or damaged."""
    part = parts.get((CEILING_NUMBER, 0))
    if part is None or part.page[:4] != CEILING or part.tags or any(part.page[4:8]) or any(part.page[16:]):
        return None
    ceiling = number(part.page[8:16])
    return ceiling if ceiling <= MOST_CEILING else None


class Store:
    """What a store has. `faults` has what is wrong with its objects, by their numbers, and `fault` the one that the program
    would name."""

    def __init__(self, data):
        self.size, self.disk = len(data), Disk(data)
        if self.disk.block(0)[:8] != LABEL:
            raise NoStore("NOT INSTALLED")
        self.was_up = self.disk.gate_is_up
        if self.was_up:
            self.disk.redo()
        self.parts = parts_in(self.disk)
        self.ceiling = read_ceiling(self.parts)
        self.pages = {}
        for (at, part), found in self.parts.items():
            if at != CEILING_NUMBER:
                self.pages.setdefault(at, {})[part] = found
        self.headers, self.objects, self.faults = {}, {}, {}
        self.read()
        self.fault = self.first_fault()

    def read(self):
        """Reads each object that has a header."""
        for at in sorted(at for at, pages in self.pages.items() if 0 in pages):
            try:
                self.headers[at] = read_header(at, self.pages[at][0])
                self.objects[at] = read_object(at, self.pages[at])
            except Damaged as fault:
                self.faults[at] = (fault.part, fault.why)
        firsts = {}  # the least object of each name in each context
        for one in self.headers.values():
            firsts.setdefault((one.context, one.identification), one.number)
        for at, one in self.headers.items():
            why = self.header_fault(one, firsts[one.context, one.identification])
            if why:
                self.faults[at] = (0, why)
        for at, one in self.objects.items():
            why = at not in self.faults and self.body_fault(one)
            if why:
                self.faults[at] = (BODY_PART, why)

    def kind_of(self, at):
        return self.headers[at].kind if at in self.headers else None

    def is_there(self, at):
        return 0 in self.pages.get(at, {})

    def header_fault(self, one, twin):
        """What is wrong with a header beside the other objects, of which one is the first of its name and context."""
        top = self.ceiling or 0
        if one.number > top:
            return f"its number is above the ceiling of numbers, {top}"
        if self.kind_of(one.owner) != "PROFILE":
            return f"its owner, the object {one.owner}, is no user profile of the store"
        if twin != one.number and self.is_there(one.context):
            return f"the object {twin} has the same name in the same context"
        if one.kind in ("CONTEXT", "PROFILE") and one.context != MACHINE:
            return f"a {one.kind} has to be in the machine context, and it is in {one.context}"
        if one.context > top or self.is_there(one.context) and self.kind_of(one.context) not in (None, "CONTEXT"):
            return f"its context, the object {one.context}, is none"
        return None

    def body_fault(self, one):
        """What is wrong with a body beside the other objects."""
        top = self.ceiling or 0
        if one.kind == "JPORT" and one.body.journal > top:
            return f"its journal space, the object {one.body.journal}, is above the ceiling of numbers"
        if one.kind != "DATASPACE":
            return None
        if one.body.port > top:
            return f"its journal port, the object {one.body.port}, is above the ceiling of numbers"
        journal = self.journal_of(one)
        if journal and one.body.sequence > len(journal.body.entries):
            return f"it counts {one.body.sequence} journal entries, and its journal has {len(journal.body.entries)}"
        return None

    def sound(self, at, kind):
        """An object of a kind without a fault of its own, or nothing."""
        one = self.objects.get(at)
        return one if one and one.kind == kind and self.faults.get(at, (BODY_PART,))[0] == BODY_PART else None

    def journal_of(self, space):
        """The journal space to which a data space is journaled, or nothing."""
        port = self.sound(space.body.port, "JPORT")
        return self.sound(port.body.journal, "JSPACE") if port else None

    def entries_now(self, space):
        """The entries of a data space as the next run finds them: those of its image, and what its journal has since: what no unit
        changed, and each unit whose COMMIT came since, whole."""
        entries, journal = list(space.body.entries), self.journal_of(space)
        since = [entry for entry in journal.body.entries if entry.sequence > space.body.sequence] if journal else []
        if not since:
            return entries
        committed = {entry.unit for entry in since if entry.kind == "commit"}
        for entry in journal.body.entries:
            counts = entry.unit in committed if entry.unit else entry.sequence > space.body.sequence
            if counts and entry.object == space.number:
                redo(entries, space.body.fields, entry)
        return entries

    def first_fault(self):
        """The object and the part that the program would name, and why; nothing where the store is good."""
        if self.ceiling is None:
            return CEILING_NUMBER, 0, "the ceiling of numbers is missing or damaged"
        if not self.is_there(MACHINE):
            return MACHINE, 0, "the machine context is missing"
        if not self.is_there(OFFICER) or self.kind_of(OFFICER) not in (None, "PROFILE"):
            return OFFICER, 0, "the security officer is missing, or no user profile"
        return next(((at, *self.faults[at]) for at in sorted(self.faults)), None)

    def check(self):
        """Refuses a store that the program would refuse."""
        if self.fault:
            raise NoStore("BAD IMAGE {} {}".format(*self.fault), self.fault[2])
        return self

    # ---- what is asked of it

    def free(self):
        """How many parts are free."""
        return BLOCKS - FIRST_HOME - len(self.parts)

    def name(self, at):
        """The name of an object, short where it is a context or a profile."""
        if at not in self.headers:
            return f"object {at}"
        one = self.headers[at]
        return one.name if one.kind in ("CONTEXT", "PROFILE") else one.identification

    def find(self, word):
        """The objects that a word names: a number, KIND/ss/NAME, a name, or CONTEXT:NAME."""
        if word.isascii() and word.isdigit():
            return [self.headers[int(word)]] if int(word) in self.headers else []
        context, _, rest = word.rpartition(":")
        return [one for one in self.headers.values() if rest in (one.name, one.identification)
                and (not context or self.name(one.context) == context)]


# ---- files

def bytes_of(path):
    """The bytes of a regular file, as far as a store goes."""
    path = pathlib.Path(path)
    with open(path, "rb") as file:
        if not stat.S_ISREG(path.stat().st_mode):
            raise NoStore("DISK FAULT", f"{path} is no regular file")
        return file.read(BLOCKS * BLOCK)


def read_store(path):
    """The store of a file, good or not."""
    return Store(bytes_of(path))


def is_label(path):
    """Whether a file begins as a store does."""
    with open(path, "rb") as file:
        return file.read(len(LABEL)) == LABEL
