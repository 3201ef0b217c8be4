"""A log: the jobs that it tells of, and their entries by position."""
import re

from . import pages
from .faults import deck_faults

HEAD = re.compile(r"JOB ([1-9][0-9]{0,4}) ([A-Z][A-Z0-9]{0,29}) USER ([A-Z0-9]{1,30})")
ENTRY = re.compile(r"([1-9][0-9]{0,9}) ([A-Z]{1,8})(?: (.+))?")
JOBS = re.compile(r"JOBS [0-9]+")
# The forms of the last line, with the status that the program has after it.
LAST = (
    (r"DONE [0-9]+|TOTAL -?[0-9]+", 0), ("BAD WORDS", 1), (r"BAD DECK [0-9]+ [1-8]", 2),
    (r"NOT INSTALLED|ALREADY INSTALLED|(STORE TOO SMALL|LOG DAMAGED) [0-9]+|(TWO BLOCKS|BAD IMAGE) [0-9]+ [0-9]+", 3),
    ("DISK FAULT", 4), ("DECK FAULT", 5), ("NO MEMORY", 7), (r"STORE FULL [0-9]+ [0-9]+", 8))
LISTED = re.compile(r"^([0-9]+) ([A-Z]+/[0-9A-F]{2}/[A-Z0-9]{1,30}) IN [0-9]+ OWNER [0-9]+ PUBLIC [A-Z+]+$", re.M)
OWNED = re.compile(r"^([0-9]+) [A-Z]+/[0-9A-F]{2}/[A-Z0-9]{1,30} IN [0-9]+ OWNER ([0-9]+) PUBLIC [A-Z+]+$", re.M)
CHECKED = re.compile(r"([A-Z][A-Z0-9]{0,29}) (OK|([0-9A-F]{4}) ([0-9]{1,5}))")


def status_of(line):
    """The status that goes with the last line of a log; None where it is no last line."""
    return next((status for form, status in LAST if re.fullmatch(form, line)), None)


def listed(text):
    """The identifications of objects by their numbers, in what `list` printed."""
    return {int(number): name for number, name in LISTED.findall(text)}


def owned(text):
    """The names of the owners of objects by their numbers, in what `list` printed."""
    names = {number: name.rpartition("/")[2] for number, name in listed(text).items()}
    return {int(number): names.get(int(owner), f"object {owner}") for number, owner in OWNED.findall(text)}


class Entry:
    """An entry of the history: its position, its job, its name, and the words of its result."""

    def __init__(self, line, position, job, name, words):
        self.line, self.position, self.job, self.name, self.words = line, position, job, name, words

    @property
    def ok(self):
        return self.words[:1] == ["OK"]

    @property
    def waits(self):
        return self.words[:1] == ["WAIT"]

    @property
    def code(self):
        """The code of an exception that the entry signals; None if it signals none."""
        first = "".join(self.words[:1])
        return first if self.name != "FINISH" and re.fullmatch("[0-9A-F]{4}", first) else None

    @property
    def value(self):
        """What a variable got, or nothing."""
        return self.words[1] if self.ok and len(self.words) == 2 else None


class JobLog:
    """The lines of one job."""

    def __init__(self, line, number, name, user):
        self.line, self.number, self.name, self.user, self.entries = line, number, name, user, []


class Log:
    """A log by its lines; `fault` says why it is none, or is not whole."""

    def __init__(self, text):
        self.lines = text.split("\n")
        whole = self.lines.pop() == "" if self.lines else False
        self.jobs, self.checked, self.last, self.fault = [], [], None, None
        for number, line in enumerate(self.lines, 1):
            self.take(number, line)
        if not self.fault and (self.last is None or not whole):
            self.fault = "the log does not end with its last line (DONE n): it is cut off"
        if not self.fault and self.last.startswith("DONE") and not self.checked:
            if int(self.last[5:]) != sum(len(job.entries) for job in self.jobs):
                self.fault = f"{self.last} is not the number of the entries: lines are missing, or there twice"

    def take(self, number, line):
        entry = ENTRY.fullmatch(line)  # which no other line is
        head, checked = (None, None) if entry else (HEAD.fullmatch(line), CHECKED.fullmatch(line))
        if self.last is not None:
            self.fault = self.fault or f"line {number} of the log is after its last line: {shown(line)}"
        elif entry and self.jobs:
            words = entry[3].split(" ") if entry[3] else []
            self.jobs[-1].entries.append(Entry(number, int(entry[1]), self.jobs[-1], entry[2], words))
        elif status_of(line) is not None:
            self.last = line
        elif JOBS.fullmatch(line):
            return
        elif head:
            self.jobs.append(JobLog(number, int(head[1]), head[2], head[3]))
        elif checked:
            self.checked.append((checked[1], checked[3], int(checked[4] or 0)))
        else:
            self.fault = self.fault or f"line {number} of the log is no line of a log: {shown(line)}"

    def history(self):
        """All entries in the order of their positions."""
        return sorted((entry for job in self.jobs for entry in job.entries), key=lambda entry: entry.position)


def shown(line):
    text = line.encode("unicode_escape").decode("ascii")
    return text if len(text) <= 60 else text[:60] + " .."


def mismatch(deck, log):
    """Why a log is not that of a deck, or nothing: its jobs have other names, users or numbers, or its templates."""
    if log.checked:
        names, wanted = [name for name, _, _ in log.checked], list(deck.templates)
        return None if names == wanted else f"the log tells of the templates {', '.join(names[:5])}, and the deck has others"
    if not log.jobs:
        return "the deck has jobs, and the log none" if deck.jobs and (log.last or "").startswith("DONE") else None
    said = [(job.number, job.name, job.user) for job in log.jobs]
    wanted = [(number, job.name, job.user) for number, job in enumerate(deck.jobs, 1)]
    if said == wanted:
        return None
    odd = next((pair for pair in zip(said, wanted) if pair[0] != pair[1]), None)
    if odd is None:
        return f"the log has {len(said)} jobs, and the deck has {len(wanted)}"
    (number, name, user), (_, other, other_user) = odd
    return f"job {number} of the log is {name} of user {user}, and that of the deck is {other} of user {other_user}"


def entry_fault(deck, log):
    """An entry whose name is no instruction, or whose position can't be, or nothing."""
    known = {"START", "FINISH", *pages.rows()}
    odd = next((entry for entry in log.history() if entry.name not in known), None)
    if odd:
        return f"line {odd.line} of the log names {odd.name}, which is no instruction"
    odd = next((entry for number, entry in enumerate(log.history(), 1) if entry.position != number), None)
    odd = odd or next((entry for job in log.jobs for last, entry in zip(job.entries, job.entries[1:]) if entry.position <= last.position), None)
    return f"line {odd.line} of the log has the position {odd.position}, and the positions of a log go from 1 on" if odd else None


# The statuses after which the deck was read and is a good one.
READ = (0, 3, 8)


def fault_of(deck, log):
    """Why a log is not the whole log of a deck, or nothing."""
    bad = next(iter(deck_faults(deck)), None)
    if not log.fault and bad and (log.jobs or log.checked or status_of(log.last) in READ):
        return f"the deck is bad at line {bad.line} (code {bad.code}), and the log says nothing of it"
    return log.fault or mismatch(deck, log) or entry_fault(deck, log)
