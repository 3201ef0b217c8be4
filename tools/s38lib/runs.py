"""Runs of the program over stores, each write and sync of them, and the states that a store may have at each moment.

The states that are allowed stand in one place, `Run.allowed`: those of the prefixes of a run that a store may have at a moment.
A put has ended with the sync behind the write that takes the gate down. Up to its end a store may have what it had before or
what it has then, and from there on the latter alone."""
import pathlib
import re
import subprocess

from . import demo, stores
from .log import LISTED
from .program import PROGRAM
from .reading import raw_parts as parts_in

SECONDS = 60
BLOCK = stores.BLOCK
GATE, UP = 1, 0x4F
FIRST_STORE_GAVE = 5
PROBE = "PROGRAM P\nDCL Q PTR\nCRTQ Q,*NONE,QUEUE/00/NEW,NONE,FIFO,0,8\nRTX\nEND\nSTAGE\nJOB A USER QSECOFR RUN P\n"
CALLS = "pwrite64,write,fdatasync,fsync,ftruncate"
WROTE = re.compile(r'^\S*\s*pwrite64\((\d+), "((?:\\x[0-9a-f]{2})*)", (\d+), (\d+)\)\s+= (\d+)$')
SYNCED = re.compile(r"^\S*\s*f(?:data)?sync\((\d+)\)\s+= 0$")
TOLD = re.compile(r"^\S*\s*write\(1, ")
GIVEN = re.compile(r"^\d+ CRT\w+ OK S(\d+)/", re.M)


class Odd(Exception):
    """What may not be."""


def call(path, words, deck=""):
    """What a run writes; a status other than 0 is odd."""
    run = subprocess.run([PROGRAM, path, *words], input=deck.encode(), stdout=subprocess.PIPE, stderr=subprocess.PIPE,
                         timeout=SECONDS)
    if run.returncode or run.stderr:
        raise Odd(f"{words[0]}: {run.returncode} {run.stdout[-60:]!r} {run.stderr[:200]!r}")
    return run.stdout.decode("latin-1")


def parts_of(path):
    """What the homes of a store have: tags and page by number and part."""
    return parts_in(pathlib.Path(path).read_bytes())


def given_in(log):
    """The numbers that objects were given, as a log tells them."""
    return [int(number) for number in GIVEN.findall(log)]


# ---- states

class State:
    """What a store has: what `list` prints, its parts, and what a run makes of it that makes an object. And the greatest
    number that was given before."""

    def __init__(self, path, given):
        self.listing, self.parts, self.given = call(path, ["list"]), parts_of(path), given
        self.probe, self.probed = call(path, ["serial"], PROBE), parts_of(path)

    def numbers(self):
        return [int(number) for number, _ in LISTED.findall(self.listing)]

    def fault(self, path, told=""):
        """What is odd about a store that has its parts, or nothing, where a text was told of the run."""
        text, given = call(path, ["serial"], PROBE), max([self.given, *given_in(told)])
        if max(given_in(text), default=0) <= given:
            return f"a number is given again, of 1 to {given}: {text!r}"
        if text != self.probe or parts_of(path) != self.probed:
            return f"a run over it leaves something else than over such a store: {text!r}"
        return None


# ---- runs

def settled_by(image, pending):
    """A store on which all that was written is on disk."""
    whole = bytearray(image)
    for block, data in pending.items():
        put(whole, block, data)
    return bytes(whole)


def put(image, block, data):
    """Puts a block into an image."""
    at = block * BLOCK
    if len(image) < at + BLOCK:
        image.extend(bytes(at + BLOCK - len(image)))
    image[at:at + BLOCK] = data


class Run:
    """A run over a store: its moments, each with the place of what is on disk in `settled`, and the blocks that were written
    since; and the states of its prefixes, each with the moment from which on it is settled."""

    def __init__(self, name, store, calls, log):
        self.name, self.settled, self.moments, self.puts, self.log = name, [store], [(0, {})], [], log
        pending, lowered = {}, False
        for moment, one in enumerate(calls, 1):
            if one is None:
                self.settled.append(settled_by(self.settled[-1], pending))
                self.puts += [(moment, len(self.settled) - 1)] if lowered else []
                pending, lowered = {}, False
            else:
                pending = {**pending, one[0]: one[1]}
                lowered = lowered or one[0] == GATE and one[1][0] != UP
            self.moments.append((len(self.settled) - 1, pending))
        self.states = []

    def find_states(self, path, given):
        """The states of the prefixes, where so many numbers were given before the run."""
        places = [(0, 0), *self.puts]
        for moment, settled in places:
            path.write_bytes(self.settled[settled])
            state = State(path, given)
            self.states.append((moment, state))
            given = max([given, *state.numbers()])
        self.states[-1][1].given = max([given, *given_in(self.log)])
        for (_, state), (_, later) in zip(self.states, self.states[1:]):
            if max(given_in(state.probe)) <= max(later.numbers()):
                raise Odd(f"{self.name}: what was given before a put is given again")

    def allowed(self, moment):
        """The states that a store may have after a crash at a moment."""
        now = max(place for place, (begins, _) in enumerate(self.states) if begins <= moment)
        return [state for _, state in self.states[now:now + 2]]

    def behind(self):
        return self.settled[-1]

    def raised(self):
        """The store behind whose gate the log of the first put is to be done, and the numbers that were given then; nothing
        where the run has no put."""
        ups = [store for store in self.settled if store[GATE * BLOCK] == UP]
        return (ups[0], self.states[1][1].given) if self.puts else None


def calls_of(path, words, deck, room):
    """The writes and syncs of a run over a store, in order, a block and its bytes, or None for a sync; and what it wrote."""
    trace = room / "trace"
    noted = ["strace", "--seccomp-bpf", "-f", "-xx", "-s", str(2 * BLOCK), "-e", f"trace={CALLS}", "-o", trace]
    run = subprocess.run([*noted, PROGRAM, path, *words], input=deck, stdout=subprocess.PIPE, timeout=SECONDS)
    calls, told = [], False
    for line in trace.read_text(encoding="ascii").splitlines():
        wrote, synced = WROTE.match(line), SYNCED.match(line)
        if told and (wrote or synced):
            raise Odd("something is kept after the log was written")
        told = told or bool(TOLD.match(line))
        if wrote:
            data, length, place, done = bytes.fromhex(wrote[2].replace("\\x", "")), *map(int, wrote.group(3, 4, 5))
            if length != len(data) or done != length or place % BLOCK or length % BLOCK:
                raise Odd(f"a write that is no whole blocks: {line[-60:]}")
            calls += [(place // BLOCK + k, data[k * BLOCK:(k + 1) * BLOCK]) for k in range(length // BLOCK)]
        elif synced:
            calls.append(None)
    text = run.stdout.decode("latin-1")
    if not re.search(r"^DONE [0-9]+$", text, re.M):
        raise Odd(f"{words}: {text[-80:]!r}")
    return calls, text


def run_of(name, room, store, words, deck):
    """A run over a store of these bytes."""
    path = room / "store"
    path.write_bytes(store)
    calls, text = calls_of(path, words, deck, room)
    run = Run(name, store, calls, text)
    left = parts_of(path)
    path.write_bytes(run.behind())
    if parts_of(path) != left:
        raise Odd(f"{name}: a write was not seen")
    return run


def runs_of(name, room, deck, words):
    """The runs of a deck: over a first store, over what that run left, and the log done again."""
    path = room / "store"
    path.unlink(missing_ok=True)
    stores.write_first(path)
    first = run_of(name, room, path.read_bytes(), words, deck)
    first.find_states(path, FIRST_STORE_GAVE)
    again = run_of(f"{name}, once more", room, first.behind(), words, deck)
    again.find_states(path, first.states[-1][1].given)
    runs = [first, again]
    if again.raised():
        raised, given = again.raised()
        redone = run_of(f"{name}, its log done again", room, raised, ["list"], b"")
        redone.find_states(path, given)
        runs.append(redone)
    return runs


def decks_of(words, size):
    """Each deck: its name, its text, and the words with which it is run."""
    if size is not None:
        yield f"the deck of demo {size}", demo.deck_of(size).encode(), ["serial", "--pick", str(size)]
    for word in words:
        yield word, pathlib.Path(word).read_bytes(), ["serial"]
