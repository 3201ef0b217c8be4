"""What is said of the ends of a run: of each exit status, and of each last line, with the store at hand where there is one."""
import errno
import os
import pathlib
import re

from . import reading
from .looks import looks, missing
from .reading import BODY_PART, NoStore, ROWS_PART, read_store

try:
    import fcntl
except ImportError:  # no such locks here
    fcntl = None

COMMANDS = ("install", "list", "serial", "run", "check", "demo")
BACK = "go back to a backup (docs/KEEPING.md), and keep the damaged file to look at"


def named(path):
    return f"the file {path}" if path else "the file"


# ---- what is at hand

def is_held(path):
    """Whether another run has the file of a store."""
    if fcntl is None:
        return False
    try:
        with open(path, "rb") as file:
            fcntl.flock(file, fcntl.LOCK_SH | fcntl.LOCK_NB)
            fcntl.flock(file, fcntl.LOCK_UN)
    except OSError as fault:
        return fault.errno in (errno.EWOULDBLOCK, errno.EACCES) and os.access(path, os.R_OK)
    return False


def disk_cause(path):
    """Why the file of a store may not have served."""
    path = pathlib.Path(path)
    if not path.exists():
        return f"{missing(path)}, and it could not be made"
    if not path.is_file():
        return f"{path} is {looks(path)}, and a store is a regular file"
    if not os.access(path, os.R_OK | os.W_OK):
        return f"{path} may not be {'written' if os.access(path, os.R_OK) else 'read'} by you (chmod, or another user)"
    if is_held(path):
        return f"another run has {path}; try again when it has ended"
    try:
        room = os.statvfs(path)
        if room.f_bavail * room.f_frsize < 1 << 16:
            return f"the file system of {path} is full"
    except (OSError, AttributeError):
        pass
    return f"a call on {path} failed: it could not be opened, read, written or synced, or it may not grow (ulimit -f)"


def store_at(path):
    """The store of a file and nothing, or nothing and what is wrong with it."""
    if not path:
        return None, "no store"
    try:
        return read_store(path), None
    except NoStore as fault:
        return None, fault.more or fault.line
    except OSError as fault:
        return None, fault.strerror


# ---- last lines of a store

def object_told(store, at):
    """An object in words, by its number."""
    if at == reading.CEILING_NUMBER:
        return "the ceiling of numbers"
    one = store and store.headers.get(at)
    return f"{one.identification} (object {at})" if one else f"the object {at}"


def part_told(part):
    """What a part of an object is."""
    if part == 0:
        return "the header"
    if part < BODY_PART:
        return f"page {part - ROWS_PART + 1} of its private rows"
    return f"page {part - BODY_PART + 1} of its body"


def bad_image(path, at, part):
    store, _ = store_at(path)
    lines = [f"the store is damaged: {part_told(part)} of {object_told(store, at)} has not its form, and nothing was run"]
    if store and store.fault and store.fault[:2] == (at, part):
        lines.append(f"what is wrong: {store.fault[2]}")
        found = store.pages.get(at, {}).get(part)
        lines += [f"it is in block {found.block}, from byte {found.block * reading.BLOCK:,} of the file on"] if found else []
        others = len(store.faults) - 1
        lines += [f"{others} more object{'s are' if others > 1 else ' is'} at fault: tools/show {path} lists them"] if others > 0 else []
    elif store:
        lines.append("the store at hand has no such fault: is it the one of this run?")
    return [*lines, BACK]


def block_told(data):
    """What a block says that it is, in words."""
    at, part = reading.number(data[:8]), reading.number(data[8:12])
    if not at:
        return "is free"
    page = data[16:]
    said = f"has {part_told(part)} of the object {at}" if at != reading.CEILING_NUMBER else "has the ceiling of numbers"
    if part == 0 and page[:4] == reading.HEADER:
        said += f", which names it {page[8:38].rstrip(bytes(1)).decode('ascii', 'replace')}"
    return said


def disk_at(path):
    """The blocks of a file, its log done again; nothing where it can't be read."""
    try:
        disk = reading.Disk(reading.bytes_of(path))
        if disk.gate_is_up:
            disk.redo()
        return disk
    except (OSError, NoStore, TypeError):
        return None


def two_blocks(path, first, second):
    lines = ["the store is damaged: two of its blocks have one part of one object, and nothing was run"]
    disk = disk_at(path) if path else None
    for at in (first, second) if disk else ():
        lines.append(f"block {at} (from byte {at * reading.BLOCK:,} on) {block_told(disk.block(at))}")
    if disk:
        same = disk.block(first) == disk.block(second)
        lines.append("both are the same, byte for byte" if same else "they differ; no order of blocks tells which is the right one")
    return [*lines, BACK]


def log_damaged(path, block):
    lines = ["the store is damaged: a crash left a put to be done again, and its log is damaged, first in this block; nothing was run"]
    try:
        disk = reading.Disk(reading.bytes_of(path))
        disk.logged()
        lines.append("the log of the store at hand is good: is it the one of this run?")
    except NoStore as fault:
        lines.append(f"what is wrong: {fault.more}")
    except (OSError, TypeError):
        pass
    return [*lines, BACK]


def store_full(path, needed, free):
    lines = [f"one object of the run needs {needed:,} new parts, and {free:,} were free then; the objects before it are kept, and of the "
             "others what was durable: destroy objects, or let one run make fewer"]
    store, _ = store_at(path)
    if store:
        lines.append(f"the store has {len(store.parts):,} parts now, and {store.free():,} are free; the largest objects are")
        largest = sorted(store.objects.values(), key=lambda one: -one.parts)[:5]
        lines += [f"  {object_told(store, one.number)}: {one.parts:,} parts" for one in largest]
    return lines


def not_installed(path):
    if path and not pathlib.Path(path).exists():
        return [f"{missing(path)}; ./s38 {path} install makes a store, and tools/first-store {path} one for the decks of the pages"]
    said = f"{named(path)} has no store"
    try:
        how = looks(path) if path else None
    except OSError:
        how = None
    if how == "empty" or how is None:
        return [f"{said}{': it is empty' if how else ''}; ./s38 {path or 'STORE'} install makes one, and tools/first-store "
                f"{path or 'STORE'} one for the decks of the pages"]
    return [f"{said}: it looks like {how}; name the file of your store, or another one for ./s38 NEW.store install"]


def ending(line, path=None):
    """What is said of the last line of a log that names no job, sentence by sentence; nothing where it needs no word."""
    words = line.split(" ")
    numbers = [int(word) for word in words if re.fullmatch("[0-9]{1,20}", word)]
    told = {"NOT INSTALLED": lambda: not_installed(path),
            "ALREADY INSTALLED": lambda: [f"{named(path)} has a store, which stays as it was; for a new one name another file"],
            "STORE TOO SMALL": lambda: ["the device has too few blocks for a store; a file always has enough"],
            "LOG DAMAGED": lambda: log_damaged(path, *numbers), "TWO BLOCKS": lambda: two_blocks(path, *numbers),
            "BAD IMAGE": lambda: bad_image(path, *numbers), "STORE FULL": lambda: store_full(path, *numbers),
            "DISK FAULT": lambda: [f"{disk_cause(path)}; what the jobs did may be kept in part, or not at all" if path else
                                   "the file of the store could not be opened, read or written; what the jobs did may be kept in part, "
                                   "or not at all"],
            "DECK FAULT": lambda: ["the input could not be read, and nothing was run: ./s38 STORE serial < DECK"],
            "NO MEMORY": lambda: ["memory was refused; ./s38 STORE list shows whether what the jobs did is kept"],
            "BAD WORDS": lambda: ["the words of the command were wrong: ./s38 STORE serial < DECK, perhaps with --pick n after serial, run in its "
                                  "place, or ./s38 STORE check < DECK, ./s38 STORE install, ./s38 STORE list, or ./s38 STORE demo n with n of 1 "
                                  "to 200"]}
    first = next((words for words in told if line.startswith(words)), None)
    return told[first]() if first else []


# ---- statuses, where the last line is not at hand

def found_line(path):
    """The last line that a store gives with status 3; nothing where it is good."""
    try:
        read_store(path).check()
    except NoStore as fault:
        return fault.line
    except OSError:
        return "NOT INSTALLED"
    return None


def refused_store(path, command):
    """The sentences of status 3."""
    if command == "install" and reading.pathlib.Path(path).is_file() and found_line(path) != "NOT INSTALLED":
        return [*ending("ALREADY INSTALLED", path), f"./s38 {path} list shows what is in it"]
    line = found_line(path)
    if line is None:
        return [f"the store {path} was refused, and is good now; try the command again"]
    said = ending(line, path)
    if line == "NOT INSTALLED":
        return said
    return [f"{line}: {said[0]}", f"next: tools/why \"{line}\" --store {path}; or {BACK}"]


def near_command(words):
    """The command that a mistyped word may have meant."""
    import difflib
    for word in words:
        found = difflib.get_close_matches(word.lower(), COMMANDS, 1, 0.6)
        if word not in COMMANDS and found:
            return f" (did you mean {found[0]}?)"
    return ""


def deck_name():
    """The name of the file that is the deck, as the script ./s38 tells it, or DECK."""
    name = os.environ.get("S38_DECK", "")
    return os.path.relpath(name) if name.startswith("/") and os.path.isfile(name) else "DECK"


def status_said(status, path, words):
    """The sentences of a status of the program."""
    path, command = path or "STORE", next((word for word in words if word in COMMANDS), "")
    if status == 3:
        return refused_store(path, command)
    deck = deck_name() if status == 2 else "DECK"
    said = {1: [f"these words are no command{near_command(words)}; next: ./s38 {path} serial < DECK, or ./s38 --help"],
            2: [f"the deck is refused at the line that is named, nothing was run, and the store is as it was; next: tools/lint {deck}"],
            4: [f"{disk_cause(path)}; next: ./s38 {os.path.join(path, 'my.store') if os.path.isdir(path) else path} list"],
            5: [f"the deck can't be read, and nothing was run; next: ./s38 {path} {command or 'serial'} < DECK"],
            6: ["the output can't be written: the disk is full, or the reader has gone; what the jobs did is kept all the same, if they ran; "
                f"next: ./s38 {path} list"],
            7: [f"memory was refused; ./s38 {path} list shows whether what the jobs did is kept; next: give more memory (ulimit -v), or cut the "
                "deck"],
            8: [f"the store {path} is full: what fits is kept; next: tools/show {path} lists what takes room, and docs/CODES.md (Stores) says "
                "what is there now"]}
    return said.get(status, [f"the program ended with status {status}" + (", killed by a signal" if status > 128 else "")])
