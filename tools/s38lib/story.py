"""The history of a log, told: each entry with its line of the deck, and its result in words."""
from . import pages, values
from .deck import MADE, split_act
from .walk import object_in, places, walk
from .words import is_a

FIRST_STORE = {1: "CONTEXT/00/QMACHINE", 2: "PROFILE/00/QSECOFR", 3: "CONTEXT/00/QGPL", 4: "PROFILE/00/QUSER",
               5: "QUEUE/00/QLOCKED"}


class Step:
    """An entry of the history, told."""

    def __init__(self, entry, job, lines, result, said):
        self.entry, self.job, self.lines, self.result, self.said = entry, job, lines, result, said
        self.depth, self.acting, self.waited, self.ended_by = 0, [entry.job.user], None, None
        self.text = next(iter(lines.values()))[0] if len(lines) == 1 else None
        self.template = next(iter(lines.values()))[1] if len(lines) == 1 else None
        self.places = [str(line) for line in lines]  # the same lines in words
        self.objects = {}  # the numbers of the objects of the operands, by place, if they are known


class Waits:
    """Who waits, and which entry ends a wait: the last one before it that can have given what was waited for; of one that is
    refused because all wait, the last one of another job, which waits since or has ended."""

    GIVING = {"ENQ": "DEQ", "UNLOCK": "LOCK", "XFRLOCK": "LOCK", "FINISH": "LOCK"}

    def __init__(self):
        self.waiting, self.others, self.held = {}, [], {}  # by job the step that began its wait; all steps; locks by job and object

    def take(self, step):
        job = step.entry.job.number
        begun = self.waiting.get(job)
        if step.result == "waits":
            self.waiting.setdefault(job, step)
            step.waited = begun.entry.position if begun else None
        elif begun and begun.entry.name == step.entry.name:
            step.waited = self.waiting.pop(job).entry.position
            step.ended_by = self.giver(begun, step)
        self.others.append((step, dict(self.held.get(job, {})) if step.entry.name == "FINISH" else {}))
        self.hold(step, job)

    def hold(self, step, job):
        """Notes the locks that a job has."""
        change = {"LOCK": 1, "UNLOCK": -1, "XFRLOCK": -1}.get(step.entry.name, 0)
        if change and step.entry.ok and 1 in step.objects:
            locks = self.held.setdefault(job, {})
            locks[step.objects[1]] = locks.get(step.objects[1], 0) + change

    def giver(self, begun, step):
        """The step that ended a wait, or nothing where it is not known."""
        wanted = step.objects.get(2 if step.entry.name == "DEQ" else 1)
        for other, had in reversed(self.others):
            if other.entry.position < begun.entry.position:
                return None
            if other.entry.job is not step.entry.job and (step.entry.code == "1A04" or self.gives(other, had, step, wanted)):
                return other
        return None

    def gives(self, other, had, step, wanted):
        if self.GIVING.get(other.entry.name) != step.entry.name:
            return False
        if other.entry.name == "FINISH":
            return any(had.values()) if wanted is None else had.get(wanted, 0) > 0
        return other.entry.ok and (wanted is None or other.objects.get(1) == wanted)


class Story:
    """The steps of a log in the order of their positions, and what they did. Objects that the run found in its store have
    the names that are handed in; without them it was the first store. Where the store is at hand, lines of its programs are known:
    they are counted on after those of the deck."""

    def __init__(self, deck, log, names=None, owners=None, store=None):
        self.deck, self.log, self.lines, self.stored = deck, log, list(deck.lines), []
        programs = {one.number: one for one in store.objects.values() if one.kind == "PROGRAM"} if store else {}
        stored = {number: self.take_program(one) for number, one in programs.items()}
        self.names, self.steps = dict(names or FIRST_STORE), []
        self.owners = dict(owners or dict.fromkeys(FIRST_STORE, "QSECOFR"))  # the name of each object's owner, by its number
        self.walker, self.states, self.last = walk(deck, log, stored)
        self.waits, self.gone = Waits(), set()
        for entry in log.history():
            self.steps.append(self.tell(entry))

    def name(self, number):
        return self.names.get(number, f"object {number}")

    def take_program(self, one):
        """The template of a program of the store, whose lines come after those that there are."""
        name = f"{one.identification} of the store, object {one.number}"
        self.stored.append((len(self.lines), one.name))
        template = one.body.template.moved(name, len(self.lines))
        self.lines += one.body.text.rstrip("\n").split("\n")
        return template

    def place(self, line):
        """A line in words: its number in the deck, or in a program of the store."""
        before, name = next(((before, name) for before, name in reversed(self.stored) if before < line), (0, None))
        return f"{line - before} of {name}" if name else str(line)

    def job_name(self, number):
        job = self.deck.job(number)
        return job.name if job else f"job {number}"

    def tell(self, entry):
        states = self.states.get(entry.position, [])
        lines = places(self.walker, states)
        step = Step(entry, self.deck.job(entry.job.number), lines, "", "")
        step.places = [self.place(line) for line in lines]
        if step.text:
            self.find_objects(step, states)
            self.find_frames(step, states)
            self.learn(step)
        step.result, step.said = self.result(step)
        self.waits.take(step)
        return step

    def find_frames(self, step, states):
        """How deep in calls it is, and the users who act, if all ways agree: the job's, and the owners of programs that adopt."""
        depths = {len(state.frames) for state in states}
        acting = {tuple(self.acting(step.entry.job.user, state.frames)) for state in states}
        step.depth = depths.pop() - 1 if len(depths) == 1 else 0
        step.acting = list(acting.pop()) if len(acting) == 1 else [step.entry.job.user]

    def acting(self, user, frames):
        found = [user]
        for place, frame in enumerate(frames):
            template = self.walker.templates[frame.template]
            if frame.program != 0 and frame.program not in self.gone and template.adopts and (frame is frames[-1] and place == len(frames) - 1 or template.propagates):
                owner = self.owners.get(frame.program, f"the owner of {self.name(frame.program) if frame.program else frame.template}")
                found += [owner] if owner not in found else []
        return found

    def find_objects(self, step, states):
        """The objects of the pointers among the operands, if all ways agree."""
        for place, word in enumerate(split_act(step.text)[2], 1):
            found = {self.walker.object_of(state, word) for state in states}
            if len(found) == 1 and None not in found:
                step.objects[place] = found.pop()

    def is_based(self, step, word):
        """Whether a word of an entry's line is an item in a space."""
        return step.template in self.walker.codes and self.walker.codes[step.template].is_based(word)

    def learn(self, step):
        """The names of objects, by what made, found or renamed them."""
        mnemonic, _, operands = split_act(step.text)
        number = object_in(step.entry.value) if step.entry.value else None
        if mnemonic in MADE and number is not None:
            self.names[number] = operands[pages.rows()[mnemonic].index("I")]
            self.owners[number] = step.entry.job.user
        elif mnemonic == "DESPG" and step.entry.ok and 1 in step.objects:
            self.gone.add(step.objects[1])
        elif mnemonic == "XFRO" and step.entry.ok and 1 in step.objects:
            self.owners[step.objects[1]] = self.name(step.objects.get(2)).rpartition("/")[2]
        elif mnemonic == "RSLVSP" and number is not None:
            self.names[number] = operands[2]
        elif mnemonic == "RENAME" and step.entry.ok and 1 in step.objects:
            self.names[step.objects[1]] = operands[1]

    # ---- results

    def result(self, step):
        """What kind of result it is, and the result in words."""
        entry = step.entry
        if entry.name == "START":
            return ("ok", f"user {entry.job.user}") if entry.ok else ("refused", self.refusal(step))
        if entry.name == "FINISH":
            return self.end(entry)
        if entry.waits:
            return "waits", "waits"
        if entry.code:
            return "refused", self.refusal(step)
        return "ok", self.value(step) if entry.value is not None else "done"

    def end(self, entry):
        cause, *rest = entry.words or [""]
        if cause == "RETURN":
            return "ok", "returned"
        if cause == "BUDGET":
            return "refused", "ended: its budget is used up"
        code = "".join(rest[:1])
        said = f"{code} {pages.codes()[code].name}" if code in pages.codes() else code
        where = f", number {rest[1]}" if cause == "CREATE" and rest[1:] else ""
        kinds = {"UNHANDLED": "ended: nothing took", "START": "not begun:", "CREATE": "its template is refused:"}
        return "refused", f"{kinds.get(cause, cause)} {said}{where}"

    def refusal(self, step):
        words = step.entry.words
        code = words[0]
        name = pages.codes()[code].name if code in pages.codes() else "a code of the program's own"
        said = f"{code} {name}"
        if len(words) > 1 and words[1] != "0":
            said += f" at operand {words[1]}" + self.operand(step, words[1])
        return said + self.detail(words[2:])

    def operand(self, step, place):
        if not step.text or not is_a("[0-9]{1,2}", place):
            return ""
        operands = split_act(step.text)[2]
        return f" ({operands[int(place) - 1]})" if 0 < int(place) <= len(operands) else ""

    def detail(self, words):
        if len(words) == 1 and is_a("[0-9]{1,5}", words[0]):
            return f", the unit is of job {self.job_name(int(words[0]))}"
        if len(words) == 2 and is_a("[0-9]{1,5}", words[0]):
            return f", in the way is {words[1]} of job {self.job_name(int(words[0]))}"
        return f", missing {' '.join(words)}" if words else ""

    def value(self, step):
        value = step.entry.value
        if value in ("YES", "NO", "-"):
            return {"YES": "yes", "NO": "no", "-": "no pointer"}[value]
        number = object_in(value)
        if number is not None:
            return self.pointer(value, number)
        data = values.raw(value)
        if data is None:
            return value
        return self.listed(step.entry.name, data) or self.scalar(step, data)

    def pointer(self, value, number):
        name = self.name(number)
        if value[0] == "S":
            bits = int(value[-2:], 16) if is_a("S[0-9]+/[0-9A-F]{2}", value) else 0
            return f"{name} (object {number})" + (f" with {values.rights_of(bits)}" if bits else "")
        kind = "space pointer" if value[0] == "A" else "data pointer"
        return f"{kind} to byte {value.partition('+')[2]} of {name} (object {number})"

    def listed(self, mnemonic, data):
        if mnemonic == "MATCTX":
            return values.names_listed(data)
        if mnemonic == "MATAU":
            return values.rights_told(data, self.name)
        if mnemonic == "MATAUOBJ":
            return values.objects_listed(data, self.name)
        if mnemonic == "MATOBJLK":
            return values.locks_listed(data, self.job_name)
        return values.journal_entry(data, self.name, self.job_name) if mnemonic == "RETJENT" else None

    def scalar(self, step, data):
        """Bytes by the attribute that the receiver declares, if all lines agree."""
        found = set()
        for line, (text, template) in step.lines.items():
            operands = split_act(text)[2]
            found.add(self.walker.templates[template].attribute(operands[0]) if operands else None)
        return values.scalar(data, found.pop() if len(found) == 1 else None)

    def receiver(self, step):
        """The item that got a value, or nothing."""
        if not step.text or step.entry.value is None or step.entry.value in ("YES", "NO"):
            return None
        operands = split_act(step.text)[2]
        return operands[0] if operands else None
