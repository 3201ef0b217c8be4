"""A history as a picture: a lane for each job of a stage, entries from above to below, waits, locks and units as bars."""
import html

from .deck import split_act
from .walk import object_in

ROW, MORE, HEAD, LEFT, DOT, CHAR, BAR, TOP, INDENT = 15, 12, 26, 46, 12, 6.05, 7, 58, 4
MOST_ROWS, MOST_LEFT = 3000, 5
CHANGES = ("INSDSEN", "UPDSEN", "DELDSEN")
COLORS = {"lock": "#3b73b9", "commit": "#2e8b57", "decommit": "#c77d0a", "wait": "#f4e3a1", "refused": "#c0182b",
          "ok": "#222222", "lane": "#b8b8b8", "head": "#e8eef5", "position": "#8a8a8a", "said": "#5a6472"}


class Bar:
    """A lock or a unit of a job, from one row to another."""

    def __init__(self, job, kind, first, name):
        self.job, self.kind, self.first, self.last, self.name, self.slot = job, kind, first, None, name, 0


class Bars:
    """The locks and units of a history, by its steps."""

    def __init__(self, story):
        self.story, self.all, self.blocks = story, [], {}
        self.locks, self.units = {}, {}  # by process, object and state; by commit block
        for row, step in enumerate(story.steps):
            if step.entry.ok and step.text:
                self.take(row, step)
            elif step.entry.name == "FINISH":
                self.end(row, step.entry.job.number)

    def open(self, job, kind, row, name):
        bar = Bar(job, kind, row, name)
        self.all.append(bar)
        return bar

    def close(self, bar, row, kind=None):
        bar.last, bar.kind = row, kind or bar.kind

    def take(self, row, step):
        mnemonic, _, operands = split_act(step.text)
        job, objects = step.entry.job.number, step.objects
        if mnemonic == "CRTCR" and 6 in objects and object_in(step.entry.value or "") is not None:
            self.blocks[object_in(step.entry.value)] = objects[6]
        elif mnemonic == "LOCK" and 1 in objects:
            name = f"{operands[1]} on {self.story.name(objects[1])}"
            self.locks.setdefault((job, objects[1], operands[1]), []).append(self.open(job, "lock", row, name))
        elif mnemonic in ("UNLOCK", "XFRLOCK") and self.locks.get((job, objects.get(1), operands[1])):
            bar = self.locks[job, objects[1], operands[1]].pop()
            self.close(bar, row)
            if mnemonic == "XFRLOCK":
                self.hand_on(row, bar, objects[1], operands)
        elif mnemonic in CHANGES and self.blocks.get(objects.get(1)):
            block = self.blocks[objects[1]]
            if block not in self.units:
                self.units[block] = self.open(job, "commit", row, f"unit of {self.story.name(block)}")
        elif mnemonic in ("COMMIT", "DECOMMIT") and objects.get(1) in self.units:
            self.close(self.units.pop(objects[1]), row, mnemonic.lower())

    def hand_on(self, row, bar, number, operands):
        """A lock that goes to another job."""
        taker = next((at for at, job in enumerate(self.story.deck.jobs, 1) if job.name == operands[2]), None)
        if taker is not None:
            self.locks.setdefault((taker, number, operands[1]), []).append(self.open(taker, "lock", row, bar.name))

    def end(self, row, job):
        """The end of a process takes its units back and releases its locks."""
        for bar in self.all:
            if bar.job == job and bar.last is None:
                self.close(bar, row, "decommit" if bar.kind == "commit" else None)
        self.units = {block: bar for block, bar in self.units.items() if bar.last is None}
        self.locks = {key: [bar for bar in bars if bar.last is None] for key, bars in self.locks.items()}

    def place(self):
        """Gives each bar a slot of its lane that no other one has at the time; how many there are at most."""
        most, at_work = 0, {}
        for bar in self.all:
            still = [other for other in at_work.get(bar.job, []) if other.last is None or other.last > bar.first]
            taken = {other.slot for other in still}
            bar.slot = min(slot for slot in range(len(taken) + 1) if slot not in taken)
            at_work[bar.job] = [*still, bar]
            most = max(most, bar.slot + 1)
        return most


class Picture:
    """The rows and lanes of a story, and what is drawn in them."""

    def __init__(self, story):
        self.story = story
        self.bars = Bars(story)
        self.slots = self.bars.place()
        self.stages = {}
        for number, job in enumerate(story.deck.jobs, 1):
            self.stages.setdefault(job.stage, []).append(number)
        crowd = max([len(jobs) for jobs in self.stages.values()] or [1])
        self.chars = 66 if crowd <= 2 else 46 if crowd <= 4 else 30
        self.width = self.slots * BAR + 2 * DOT + self.chars * CHAR + 10
        self.total = LEFT + crowd * self.width + 8
        self.y, self.parts, self.rows, self.lines = TOP, [], [], []
        self.lay_out()

    def lay_out(self):
        """The height of each row; a stage begins with the names of its jobs."""
        stage = None
        for step in self.story.steps[:MOST_ROWS]:
            if step.job.stage != stage:
                stage = step.job.stage
                self.heads(stage)
            self.rows.append(self.y)
            self.lines.append(list(self.wrapped(step)))
            self.y += ROW + MORE * (1 + max([place for place, _, _, _ in self.lines[-1]], default=0) - 1)

    def wrapped(self, step):
        """The texts of an entry: in which line of its row, after how many characters, what, and whether it is the result. Nothing
        is cut: what is too long for a lane goes on in the next line."""
        what, left = step.text or step.entry.name, 2 * min(step.depth, MOST_LEFT)
        room = self.chars - left
        receiver = self.story.receiver(step)
        said = "" if step.said in ("done", "waits") else f"{receiver + ' = ' if receiver else ''}{step.said}"
        place = 0
        for place, piece in enumerate(pieces(what, room)):
            yield place, left, piece, False
        if said and place == 0 and len(what) + 2 + len(said) <= room:
            yield 0, left + len(what) + 2, said, True
        elif said:
            for more, piece in enumerate(pieces(said, room - INDENT), place + 1):
                yield more, left + INDENT, piece, True

    def heads(self, stage):
        self.y += 6
        self.parts.append(f'<rect x="0" y="{self.y}" width="{self.total:.0f}" height="20" fill="{COLORS["head"]}"/>')
        for lane, number in enumerate(self.stages[stage]):
            job = self.story.deck.jobs[number - 1]
            said = f"{job.name}  {job.user} runs {job.template}"
            for place, piece in enumerate(pieces(said, self.chars)):
                self.text(LEFT + lane * self.width + 2, self.y + 14 + place * 8, piece, "ok", bold=True)
        self.y += HEAD

    def lane(self, number):
        """Where the lane of a job begins."""
        stage = self.story.deck.jobs[number - 1].stage
        return LEFT + self.stages[stage].index(number) * self.width

    def text(self, x, y, said, color, bold=False, title=None):
        weight = ' font-weight="bold"' if bold else ""
        more = f"<title>{html.escape(title)}</title>" if title else ""
        self.parts.append(f'<text x="{x:.1f}" y="{y}" fill="{COLORS[color]}"{weight}>{more}{html.escape(said)}</text>')

    def spine(self, number, first, last):
        """The line of a job from its start to its end."""
        x = self.lane(number) + self.slots * BAR + DOT
        self.parts.append(f'<line x1="{x:.1f}" y1="{self.rows[first] + 8}" x2="{x:.1f}" y2="{self.rows[last] + 8}" '
                          f'stroke="{COLORS["lane"]}" stroke-width="2"/>')

    def wait(self, number, first, last):
        """The rows for which a job waits, shaded."""
        x, y = self.lane(number) + self.slots * BAR + 2, self.rows[first] + 1
        height = self.rows[last] - self.rows[first]
        self.parts.append(f'<rect x="{x:.1f}" y="{y}" width="{self.width - self.slots * BAR - 10:.1f}" height="{height}" '
                          f'fill="{COLORS["wait"]}"/>')

    def bar(self, bar):
        last = min(bar.last if bar.last is not None else len(self.rows) - 1, len(self.rows) - 1)
        x = self.lane(bar.job) + bar.slot * BAR + 1
        y, end = self.rows[bar.first] + 3, self.rows[last] + 12
        self.parts.append(f'<rect x="{x:.1f}" y="{y}" width="{BAR - 2}" height="{max(end - y, 6)}" rx="2" '
                          f'fill="{COLORS[bar.kind]}"><title>{html.escape(bar.name)}</title></rect>')

    def entry(self, row, step):
        y, x = self.rows[row], self.lane(step.entry.job.number) + self.slots * BAR + DOT
        color = "refused" if step.result == "refused" else "ok"
        self.text(4, y + 11, str(step.entry.position), "position")
        radius = 3.6 if step.result == "waits" else 3
        fill = "#ffffff" if step.result == "waits" else COLORS[color]
        self.parts.append(f'<circle cx="{x:.1f}" cy="{y + 8}" r="{radius}" fill="{fill}" stroke="{COLORS[color]}"/>')
        for place, at, piece, is_result in self.lines[row]:
            title = f"line {', '.join(step.places)}" if step.lines and not place and not is_result else None
            shown = "said" if is_result and color != "refused" else color
            self.text(x + 9 + at * CHAR, y + 11 + place * MORE, piece, shown, title=title)

    def spans(self):
        """Of each job its first and its last row, and the rows for which it waits."""
        ends, waits, waiting = {}, [], {}
        for row, step in enumerate(self.story.steps[:MOST_ROWS]):
            number = step.entry.job.number
            ends[number] = (ends.get(number, (row, row))[0], row)
            if number in waiting:
                waits.append((number, waiting.pop(number), row))
            if step.result == "waits":
                waiting[number] = row
        return ends, waits

    def draw(self):
        ends, waits = self.spans()
        for span in waits:
            self.wait(*span)
        for number, (first, last) in ends.items():
            self.spine(number, first, last)
        for bar in self.bars.all:
            if bar.first < len(self.rows):
                self.bar(bar)
        for row, step in enumerate(self.story.steps[:MOST_ROWS]):
            self.entry(row, step)
        left = len(self.story.steps) - MOST_ROWS
        if left > 0:
            self.text(4, self.y + 12, f"{left} more entries are not drawn", "position")
            self.y += ROW

    def legend(self):
        """What the marks mean."""
        x = 4
        self.text(x, 18, "Each row is an entry of the history, each column a job of the stage.", "ok")
        for kind, said in (("lock", "lock"), ("commit", "unit, committed"), ("decommit", "unit, taken back"),
                           ("wait", "waits"), ("refused", "refused")):
            self.parts.append(f'<rect x="{x}" y="32" width="10" height="10" rx="2" fill="{COLORS[kind]}"/>')
            self.text(x + 15, 41, said, "ok")
            x += 28 + len(said) * 7


def pieces(said, most):
    """A text in pieces of at most so many characters, parted at blanks and commas where there are some."""
    while len(said) > most:
        at = max(said.rfind(" ", most // 2, most + 1), said.rfind(",", most // 2, most) + 1)
        at = at if at > 0 else most
        yield said[:at].rstrip(" ")
        said = said[at:].lstrip(" ")
    yield said


def drawn(story):
    """The picture of a story, as the text of an SVG file."""
    picture = Picture(story)
    picture.legend()
    picture.draw()
    width, height = max(picture.total, 470), picture.y + 8
    return (f'<svg xmlns="http://www.w3.org/2000/svg" xml:space="preserve" width="{width:.0f}" height="{height:.0f}" '
            f'viewBox="0 0 {width:.0f} {height:.0f}" font-family="DejaVu Sans Mono, Menlo, Consolas, monospace" '
            f'font-size="10">\n<rect width="100%" height="100%" fill="#ffffff"/>\n' + "\n".join(picture.parts) + "\n</svg>")
