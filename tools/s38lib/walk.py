"""Which line of the deck each entry of a log is of: the templates are walked beside the log.

What a process does among its own variables has no entry, so after a comparison both ways are walked, unless the log told
what is compared; and a computation may go on or signal. A way stays where the rest of the job's entries can be made on
it."""
import collections
import fractions
import functools

from . import pages
from .creation import template_faults
from .deck import attribute_of, split_act
from .values import scalar
from .words import is_a, is_number, length_of

# A frame of the stack: the template, the place in its code, the places to come back to, the descriptions that are off,
# for each parameter the variable that it is, and the number of its program, 0 for the job's own template and nothing where it is
# not known.
Frame = collections.namedtuple("Frame", "template at calls off homes program")
# A state: the frames, and what the log told of variables, by depth and name: the number of the object of a pointer, or
# bytes in hexadecimal.
State = collections.namedtuple("State", "frames known")

MOST_STATES, MOST_STEPS = 300, 6000
GIVES = "ncpx"


class Lost(Exception):
    """There are too many ways."""


class Code:
    """A template prepared for walking."""

    def __init__(self, template):
        self.name, self.template = template.name, template
        self.items = [(line, text, *split_act(text)) for line, text in template.code]
        self.labels = {text[6:]: at for at, (_, text, *_) in enumerate(self.items) if text.startswith("LABEL ")}
        self.declared = {name: words for name, (_, words) in template.declared().items()}
        self.handlers = [(name, words[1], words[2]) for name, words in self.declared.items()
                         if words[:1] == ["EXCM"] and len(words) > 2]
        self.parameters = [name for name, words in self.declared.items() if words[:1] == ["PARM"]]
        self.logged = [self.is_logged(item) for item in self.items]

    def is_based(self, name):
        return self.declared.get(name, [""])[:1] == ["BASED"]

    def is_logged(self, item):
        """Whether the machine does the instruction, so that the log has an entry of it."""
        mnemonic, operands = item[2], item[4]
        family = family_of().get(mnemonic)
        if family is None or family == "branching":
            return False
        return family != "computing" or any(self.is_based(word) for word in operands)

    def receiver(self, at):
        """The item that an instruction gives something, and its attribute; nothing if it gives none."""
        mnemonic, operands = self.items[at][2], self.items[at][4]
        if not operands or mnemonic not in pages.rows() or pages.rows()[mnemonic][:1] not in tuple(GIVES):
            return None, None
        words = self.declared.get(operands[0])
        return operands[0], attribute_of(words) if words else None


@functools.lru_cache(maxsize=None)
def family_of():
    """The family of each mnemonic."""
    return {name: family for family, names in pages.families().items() for name in names}


class Walker:
    """The templates of a deck, those of the programs that were in the store, by their numbers, and the objects that are known to be
    programs."""

    def __init__(self, deck, stored):
        self.templates = {**deck.templates, **{template.name: template for template in stored.values()}}
        self.codes = {name: Code(template) for name, template in self.templates.items() if not template_faults(template)}
        self.programs = collections.defaultdict(set)  # the number of an object: the templates that it may be made of
        for number, template in stored.items():
            self.programs[number].add(template.name)
        self.stored = {number: template.name for number, template in stored.items()}

    # ---- what is known of variables

    def home(self, state, name):
        """The variable for which a name of the newest invocation stands, or nothing for an item in a space."""
        frame = state.frames[-1]
        code = self.codes[frame.template]
        if code.is_based(name) or name not in code.declared:
            return None
        return dict(frame.homes).get(name, (len(state.frames) - 1, name))

    def object_of(self, state, name):
        """The number of the object of a pointer, if it is known."""
        found = dict(state.known).get(self.home(state, name))
        return found if isinstance(found, int) else None

    def with_value(self, state, name, value):
        """What is known of a variable from now on; nothing if it is None."""
        home = self.home(state, name)
        if home is None:
            return state
        kept = dict(state.known)
        kept.pop(home, None)
        if value is not None:
            kept[home] = value
        return state._replace(known=tuple(sorted(kept.items(), key=str)))

    # ---- steps

    def begin(self, template):
        code = self.codes[template]
        return State((Frame(template, 0, (), (), tuple((name, (-1, name)) for name in code.parameters), 0),), ())

    def move(self, state, at):
        return state._replace(frames=(*state.frames[:-1], state.frames[-1]._replace(at=at)))

    def leave(self, state):
        """The newest invocation comes back; nothing if it was the first."""
        if len(state.frames) == 1:
            return None
        depth = len(state.frames) - 1
        kept = tuple(pair for pair in state.known if pair[0][0] < depth)
        below = state.frames[-2]
        return State((*state.frames[:-2], below._replace(at=below.at + 1)), kept)

    def come_back(self, state):
        """RTX, or running past the last instruction."""
        frame = state.frames[-1]
        if frame.calls:
            back = frame._replace(at=frame.calls[-1] + 1, calls=frame.calls[:-1])
            return state._replace(frames=(*state.frames[:-1], back))
        return self.leave(state)

    def signal(self, state, code):
        """Where the process goes on after an exception; nothing if nothing takes it."""
        for depth in range(len(state.frames) - 1, -1, -1):
            frame = state.frames[depth]
            taken = self.codes[frame.template]
            for name, of, label in taken.handlers:
                if name not in frame.off and of in ("*", code) and label in taken.labels:
                    there = frame._replace(at=taken.labels[label], calls=())
                    kept = tuple(pair for pair in state.known if pair[0][0] <= depth)
                    return State((*state.frames[:depth], there), kept)
        return None

    def enter(self, state, operands, template, transfers):
        """CALLX or XCTL of a program that is made of this template."""
        code = self.codes[template]
        homes = tuple(zip(code.parameters, (self.home(state, word) for word in operands[1:])))
        frames = state.frames[:-1] if transfers else state.frames
        depth = len(frames)
        kept = tuple(pair for pair in state.known if pair[0][0] < depth)
        return State((*frames, Frame(template, 0, (), (), homes, self.object_of(state, operands[0]))), kept)

    # ---- what has no entry

    def after_local(self, state):
        """The states to which an instruction without an entry leads, and the codes with which it may end the process."""
        frame = state.frames[-1]
        code = self.codes[frame.template]
        _, text, mnemonic, _, operands = code.items[frame.at]
        nexts, ends = [], set()
        holds = self.compared(state, mnemonic, operands)
        if mnemonic in ("CMPNVB", "CMPBLAB", "CMPPTRT", "B") and operands[-1] in code.labels and holds is not False:
            nexts.append(self.move(state, code.labels[operands[-1]]))
        if mnemonic == "CALLI" and operands[-1] in code.labels and len(frame.calls) < 64:
            there = frame._replace(at=code.labels[operands[-1]], calls=(*frame.calls, frame.at))
            nexts.append(state._replace(frames=(*state.frames[:-1], there)))
        if mnemonic == "RTX":
            nexts.append(self.come_back(state))
        elif mnemonic == "MODEXCPD":
            off = set(frame.off) - {operands[0]} | ({operands[0]} if operands[-1] == "OFF" else set())
            there = frame._replace(at=frame.at + 1, off=tuple(sorted(off)))
            nexts.append(state._replace(frames=(*state.frames[:-1], there)))
        elif mnemonic not in ("B", "CALLI", "SIGEXCP") and holds is not True:
            nexts.append(self.move(self.written(state, mnemonic, operands), frame.at + 1))
        for signalled in may_signal(text):
            taken = self.signal(state, signalled)
            nexts += [taken] if taken else []
            ends |= set() if taken else {signalled}
        return nexts, ends

    def compared(self, state, mnemonic, operands):
        """Whether a comparison holds, if the log told both values."""
        if mnemonic not in ("CMPNVB", "CMPBLAB"):
            return None
        pair = [self.told(state, word, mnemonic == "CMPNVB") for word in operands[:2]]
        if None in pair:
            return None
        first, second = pair
        if mnemonic == "CMPBLAB":
            first, second = (side[:min(map(len, pair))] for side in pair)
        return {"EQ": first == second, "NE": first != second, "LO": first < second, "HI": first > second,
                "NL": first >= second, "NH": first <= second}.get(operands[2])

    def told(self, state, word, as_number):
        """The value of an operand, if the log told it or it is a literal: a number, or bytes."""
        if is_number(word):
            return fractions.Fraction(word)
        if word.endswith("'"):
            return bytes.fromhex(word[2:-1]) if word.startswith("X") else word[1:-1].encode("cp037")
        found = dict(state.known).get(self.home(state, word))
        if not isinstance(found, str):
            return None
        data = bytes.fromhex(found)
        if not as_number:
            return data
        shown = scalar(data, attribute_of(self.codes[state.frames[-1].template].declared[word]))
        return fractions.Fraction(shown) if is_a(r"-?[0-9]+(\.[0-9]+)?", shown) else None

    def written(self, state, mnemonic, operands):
        """What is known after an instruction without an entry: nothing of its receiver."""
        if mnemonic in ("ADDSPP", "SUBSPP"):
            return self.with_value(state, operands[0], self.object_of(state, operands[1]))
        gives = pages.rows().get(mnemonic, "")[:1] in tuple(GIVES)
        return self.with_value(state, operands[0], None) if gives and operands else state

    def reach(self, states):
        """From these states on: those at an instruction with an entry, the codes that may end the process, and whether
        it may return."""
        seen, waiting = set(states), list(states)
        stops, ends, returns, steps = [], set(), False, 0
        while waiting:
            state = waiting.pop()
            steps += 1
            if steps > MOST_STEPS:
                raise Lost
            frame = state.frames[-1]
            code = self.codes[frame.template]
            if frame.at < len(code.items) and code.logged[frame.at]:
                stops.append(state)
                continue
            if frame.at >= len(code.items):
                nexts, more = [self.come_back(state)], ()
            else:
                nexts, more = self.after_local(state)
            ends.update(more)
            returns = returns or None in nexts
            for one in nexts:
                if one is not None and one not in seen:
                    seen.add(one)
                    waiting.append(one)
        return stops, ends, returns

    def suspects(self, states, code):
        """The lines without an entry, from these states on, that may signal a code which nothing takes."""
        found, seen, waiting = {}, set(states), list(states)
        while waiting and len(seen) < MOST_STEPS:
            state = waiting.pop()
            frame = state.frames[-1]
            walked = self.codes[frame.template]
            if frame.at >= len(walked.items):
                nexts = [self.come_back(state)]
            elif walked.logged[frame.at]:
                continue
            else:
                line, text = walked.items[frame.at][:2]
                nexts, ends = self.after_local(state)
                if code in ends:
                    found[line] = text
            fresh = [one for one in nexts if one is not None and one not in seen]
            seen.update(fresh)
            waiting += fresh
        return sorted(found.items())

    # ---- what has one

    def suits(self, state, entry):
        """Whether an entry may be of the instruction at which a state is."""
        frame = state.frames[-1]
        code = self.codes[frame.template]
        _, _, mnemonic, _, operands = code.items[frame.at]
        if mnemonic != entry.name:
            return False
        if entry.code:
            return len(entry.words) > 1 and is_a("[0-9]+", entry.words[1]) and int(entry.words[1]) <= len(operands)
        if entry.waits:
            return operands[-1:] == ["WAIT"]
        if mnemonic in ("CMPNVB", "CMPBLAB", "CMPPTRT"):
            return entry.value in ("YES", "NO")
        name, attribute = code.receiver(frame.at)
        gives = name is not None and not code.is_based(name)
        if gives != (entry.value is not None):
            return False
        return not gives or attribute == "PTR" or not attribute or self.fits(mnemonic, attribute, entry.value)

    def fits(self, mnemonic, attribute, value):
        """Whether a variable of this attribute may get so many bytes."""
        most = len(value) // 2
        return most <= length_of(attribute) if mnemonic in ("CPYBLA", "CPYBRA", "XLATE") else most == length_of(attribute)

    def whole(self, attribute, value):
        """The bytes that the log told of a variable, if they are all of its bytes."""
        whole = attribute and attribute != "EXCM" and is_a("([0-9A-F]{2})+", value)
        return value if whole and len(value) == 2 * length_of(attribute) else None

    def after(self, state, entry):
        """The states to which an entry leads that suits."""
        frame = state.frames[-1]
        code = self.codes[frame.template]
        _, _, mnemonic, _, operands = code.items[frame.at]
        if entry.waits:
            return [state]
        if entry.code:
            taken = self.signal(state, entry.code)
            return [taken] if taken else []
        if entry.value == "YES" and operands[-1] in code.labels:
            return [self.move(state, code.labels[operands[-1]])]
        if mnemonic in ("CALLX", "XCTL"):
            return self.entered(state, mnemonic, operands)
        name, attribute = code.receiver(frame.at)
        if name is not None and entry.value is not None:
            value = object_in(entry.value) if attribute == "PTR" else self.whole(attribute, entry.value)
            state = self.with_value(state, name, value)
        if mnemonic == "CRTPG" and entry.value:
            made = object_in(entry.value)
            self.programs[made].discard(self.stored.get(made))  # the store is the one after the run
            self.programs[made].add(operands[4])
        return [self.move(state, frame.at + 1)]

    def entered(self, state, mnemonic, operands):
        number = self.object_of(state, operands[0])
        known = self.programs.get(number) if number is not None else None
        every = known or {name for found in self.programs.values() for name in found}
        fitting = [name for name in sorted(every) if name in self.codes
                   and len(self.codes[name].parameters) == len(operands) - 1]
        return [self.enter(state, operands, name, mnemonic == "XCTL") for name in fitting]


class Number(int):
    """The number of an object, with the rights that the pointer to it carries."""

    rights = 0


def object_in(value):
    """The number of the object of a pointer as a log prints it."""
    digits = value[1:].partition("/")[0].partition("+")[0]
    if value[:1] not in ("S", "A", "D") or not is_a("[0-9]{1,20}", digits):
        return None
    number = Number(digits)
    number.rights = int(value[-2:], 16) if is_a("S[0-9]+/[0-9A-F]{2}", value) else 0
    return number


def may_signal(text):
    """The exceptions that an instruction without an entry may signal."""
    mnemonic, _, operands = split_act(text)
    if mnemonic == "SIGEXCP":
        return operands[:1]
    row = pages.rows().get(mnemonic, "")
    found = {"CVTCH": ["0C01"], "CALLI": ["1C03"], "CMPNVB": ["0C02"], "ADDSPP": ["0601", "0C02", "2401", "2402"],
             "SUBSPP": ["0601", "0C02", "2401", "2402"]}.get(mnemonic, [])
    if row.startswith("n") and family_of().get(mnemonic) == "computing":
        found = ["0C02", "0C0A"] + (["0C0B"] if mnemonic in ("DIV", "REM") else [])
    return found


# ---- a whole log

class Ways:
    """The ways of one job through its templates, beside its entries."""

    def __init__(self, walker, job):
        self.walker, self.job = walker, job
        self.steps = []  # for each entry: the states that suit it, each with those before and after it
        self.now = []  # where the job may be

    def take(self, entry):
        """Goes on by one entry."""
        if entry.name == "START":
            good = entry.ok and self.job.template in self.walker.codes
            self.now = [self.walker.begin(self.job.template)] if good else []
            self.steps.append({})
            return
        try:
            self.go(entry)
        except Lost:
            self.now = []
            self.steps.append({})

    def go(self, entry):
        if entry.name == "FINISH":
            # Only the ways on which the job may end so are kept.
            self.now = [state for state in self.now if self.may_end(state, entry)]
            self.steps.append(dict.fromkeys(self.now, ([], [])))
            return
        links, stops = {}, {}
        for before in self.now:
            for state in self.walker.reach([before])[0]:
                if self.walker.suits(state, entry):
                    stops.setdefault(state, []).append(before)
        if len(stops) > MOST_STATES:
            raise Lost
        for state, befores in stops.items():
            links[state] = (befores, self.walker.after(state, entry))
        self.steps.append(links)
        self.now = list(dict.fromkeys(one for _, after in links.values() for one in after))

    def may_end(self, state, entry):
        cause = entry.words[:1]
        if cause == ["BUDGET"]:
            return True
        _, ends, returns = self.walker.reach([state])
        return returns if cause == ["RETURN"] else cause == ["UNHANDLED"] and "".join(entry.words[1:2]) in ends

    def prune(self, entries):
        """For each entry the states that lie on a way to the end of the job."""
        good, kept = None, []
        for entry, links in zip(reversed(entries), reversed(self.steps)):
            if entry.name in ("START", "FINISH"):
                good = set(links) if entry.name == "FINISH" and links else None
                kept.append([])
                continue
            last = entry.code and good is None
            states = [state for state, (_, after) in links.items() if good is None or any(one in good for one in after)]
            if last:
                states = [state for state in states if not links[state][1]] or states
            good = {before for state in states for before in links[state][0]} if states else None
            kept.append(states)
        return kept[::-1]


def walk(deck, log, stored):
    """The walker, with the programs that were in the store; for each entry of a log, by its position, the states in which its job
    may have been; and for each job, by its number, those after its last entry but the end."""
    walker = Walker(deck, stored)
    ways = {job.number: Ways(walker, deck.job(job.number)) for job in log.jobs}
    for entry in log.history():
        ways[entry.job.number].take(entry)
    found = {}
    for job in log.jobs:
        for entry, states in zip(job.entries, ways[job.number].prune(job.entries)):
            found[entry.position] = states
    return walker, found, {number: way.now for number, way in ways.items()}


def places(walker, states):
    """The lines at which states are, each with its text and its template."""
    found = {}
    for state in states:
        frame = state.frames[-1]
        line, text = walker.codes[frame.template].items[frame.at][:2]
        found[line] = (text, frame.template)
    return dict(sorted(found.items()))
