"""The deck of a session of tools/shell: programs that are typed line by line, and jobs that wait for `go`."""
import re

from .deck import Deck
from .every import Template as Checked
from .faults import bytes_fault, form_fault
from .layout import line_of
from .words import NAME, is_a, near

MAIN = "MAIN"
JOB = re.compile(r"JOB ([A-Z][A-Z0-9]{0,29}) USER ([A-Z0-9]{1,30}) RUN ([A-Z][A-Z0-9]{0,29})( .*)?")


class Refused(Exception):
    """A line that is not taken, and why."""

    def __init__(self, why, column=None):
        super().__init__(why)
        self.why, self.column = why, column


class Session:
    """What was typed: programs by their names, the one at work, and the jobs."""

    def __init__(self):
        self.programs, self.open, self.name, self.jobs = {}, [], None, []
        self.user, self.contexts = "QSECOFR", ["QGPL"]

    # ---- lines

    def take(self, typed):
        """Takes a line in any comfortable form; what there is to say of it."""
        text = line_of(typed)
        if not text or text.startswith("*"):
            return []
        fault = bytes_fault(text.encode("utf-8", "surrogateescape"), True) or form_fault(text)
        if fault:
            raise Refused(fault[1], fault[0])
        word = text.split(" ")[0]
        if word == "PROGRAM":
            return self.begin(text)
        if word in ("STAGE", "JOB"):
            return self.job(text)
        if word == "END":
            return self.end()
        if self.name is None:
            self.name = MAIN
            self.open = [f"PROGRAM {MAIN}"]
        if word == "DCL" and any(not line.startswith(("DCL ", "PROGRAM ")) for line in self.open):
            self.open.insert(max(place for place, line in enumerate(self.open) if line.startswith(("DCL ", "PROGRAM "))) + 1, text)
        else:
            self.open.append(text)
        return []

    def begin(self, text):
        if self.name is not None:
            raise Refused(f"the program {self.name} has not ended: END ends it, and .clear drops it")
        self.name, self.open = text.split(" ")[1], [text]
        return []

    def end(self):
        """Ends the program at work, if it is a good one."""
        if self.name is None:
            raise Refused("there is no program to end; PROGRAM name begins one")
        faults = list(self.faults([*self.open, "END"]))
        if faults:
            return [*faults, f"the program {self.name} is not taken yet: .edit N TEXT writes its line N anew, .drop N takes it out, and .clear drops all"]
        self.programs[self.name] = [*self.open, "END"]
        made, self.name, self.open = self.name, None, []
        return [f"{made} is good; go {made} runs it" if made != MAIN else f"{made} is good; go runs it"]

    def faults(self, lines):
        """The faults of a program, each with its line."""
        deck = Deck("".join(line + "\n" for line in lines).encode("latin-1", "replace"))
        for template in deck.templates.values():
            for fault in Checked(template, set()).faults():
                yield f"line {fault.line}: {deck.line(fault.line)}"
                yield f"  {fault.code}: {fault.hint}"

    def job(self, text):
        if self.name is not None:
            raise Refused(f"the program {self.name} has not ended: END ends it")
        if text == "STAGE":
            self.jobs += ["STAGE"] if self.jobs and self.jobs[-1] != "STAGE" else []
            return []
        found = JOB.fullmatch(text)
        if found and found[3] not in self.programs:
            raise Refused(f"there is no program {found[3]}{near(found[3], self.programs)}")
        if any(line.split(" ")[:2] == text.split(" ")[:2] for line in self.jobs):
            raise Refused(f"a job {text.split(' ')[1]} is there already; .clear drops the jobs")
        self.jobs.append(text)
        return []

    # ---- what is run

    def program_of(self, word):
        """The program that `go` names, or the one that was typed last."""
        name = (word or "").upper()
        if name and name not in self.programs:
            raise Refused(f"there is no program {name}{near(name, self.programs)}")
        if not name and not self.programs:
            raise Refused("nothing was typed that could run")
        return name or list(self.programs)[-1]

    def deck(self, word=None):
        """The deck that `go` runs: the jobs that were typed, or one job of a program."""
        if self.name is not None:
            said = self.end()
            if self.name is not None:
                raise Refused("\n".join(said))
        jobs = self.jobs if self.jobs and not word else [self.one_job(self.program_of(word))]
        lines = [line for program in self.programs.values() for line in program]
        return "".join(line + "\n" for line in [*lines, *([] if jobs[0] == "STAGE" else ["STAGE"]), *jobs])

    def one_job(self, name):
        contexts = f" CONTEXTS {' '.join(self.contexts)}" if self.contexts else ""
        return f"JOB {name} USER {self.user} RUN {name}{contexts}"

    def ran(self):
        """The jobs are done. MAIN is typed anew for the next run."""
        self.jobs = []
        self.programs.pop(MAIN, None)

    def edit(self, number, text=None):
        """Writes a line of the program at work anew, or takes it out."""
        if self.name is None or not 2 <= number <= len(self.open):
            raise Refused(f"there is no line {number} of a program at work")
        if text is None:
            del self.open[number - 1]
            return
        line = line_of(text)
        fault = bytes_fault(line.encode("utf-8"), True) or form_fault(line)
        if fault:
            raise Refused(fault[1], fault[0])
        self.open[number - 1] = line

    def clear(self):
        self.name, self.open, self.jobs = None, [], []

    def lines(self):
        """What was typed, with the numbers of the program at work."""
        yield from (line for program in self.programs.values() for line in program)
        yield from (f"{place:4}  {line}" for place, line in enumerate(self.open, 1))
        yield from self.jobs

    def names(self):
        """Names for completion: of programs, and of items and labels of the one at work."""
        found = [line.split(" ")[1] for line in self.open if line.startswith(("DCL ", "LABEL ")) and is_a(NAME, line.split(" ")[1])]
        return [*self.programs, *found]
