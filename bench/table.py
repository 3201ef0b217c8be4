"""What is aimed at, and how much of it is reached: a table of the figures that bench/run has told.

Each row names figures by the names that bench/run gives them. A count is reached where it is at most what is aimed at, and
a ratio to a peer, or to a limit, where it is at least that."""


class Row:
    """A kind of work: counts with the most that is aimed at, the counts of the peer, and ratios with the least that is aimed at."""

    def __init__(self, work, counts=(), peers=(), ratios=()):
        self.work, self.counts, self.peers, self.ratios = work, counts, peers, ratios

    def names(self):
        return [*(name for name, _ in self.counts), *self.peers, *(name for name, _ in self.ratios)]

    def is_reached(self, figures):
        few = all(figures[name] <= most for name, most in self.counts)
        return few and all(figures[name] >= least for name, least in self.ratios)

    def line(self, figures):
        def told(names):
            return ", ".join(f"{figures[name]:,.6g}" for name in names) or "-"

        def aims(pairs):
            return ", ".join(f"{aim:,}" for _, aim in pairs) or "-"

        cells = [self.work, told(name for name, _ in self.counts), aims(self.counts), told(self.peers),
                 told(name for name, _ in self.ratios), aims(self.ratios), "reached" if self.is_reached(figures) else "missed"]
        return f"| {' | '.join(cells)} |"


HEAD = ["| Work | Count | At most | Count of the peer | Times as fast as the peer | At least | |", "|---|---|---|---|---|---|---|"]
ROWS = [
    Row("an entry of queue traffic, the same message each time; SQLite in memory, a put or a take",
        [("queue traffic counted", 1_500)], ["queue traffic sqlite counted"], [("queue traffic beside sqlite", 2.5)]),
    Row("the same, another message each time: instructions, bytes",
        [("queue traffic of other messages counted", 1_900), ("queue traffic of other messages resident", 160)]),
    Row("an addition or a compare of nine packed digits; GnuCOBOL -O2",
        [("additions counted", 220)], ["additions gnucobol counted"], [("additions beside gnucobol", 3.5)]),
    Row("a put or a take by a key among 1,000 messages, among 50,000; SQLite with an index",
        [("keyed put and take of the least key not below 1000", 4_000), ("keyed put and take of the least key not below 50000", 5_000)],
        ["keyed put and take among 1000 sqlite counted", "keyed put and take among 50000 sqlite counted"],
        [("keyed put and take among 1000 beside sqlite", 2), ("keyed put and take among 50000 beside sqlite", 2)]),
    Row("an index: insertion and removal among 1,000 entries; SQLite with an index",
        [("index insert 1000", 3_500), ("index remove 1000", 3_500)], ["index insert and remove among 1000 sqlite counted"],
        [("index insert and remove among 1000 beside sqlite", 1.3)]),
    Row("an index: find among 1,000 entries; SQLite with an index",
        [("index find 1000", 3_500)], ["index find among 1000 sqlite counted"], [("index find among 1000 beside sqlite", 1.3)]),
    Row("an entry of a data space inserted; SQLite, a statement a row",
        [("records insert 10000", 2_500)], ["records insert sqlite counted"], [("records insert among 10000 beside sqlite", 1)]),
    Row("an entry of a data space updated, with its SETCR; SQLite, a statement a row",
        [("records update 10000", 4_500)], ["records update sqlite counted"], [("records update among 10000 beside sqlite", 1)]),
    Row("an entry of a data space read, with its SETCR; SQLite, a statement a row",
        [("records read 10000", 4_500)], ["records read sqlite counted"], [("records read among 10000 beside sqlite", 1)]),
    Row("a unit of one change with COMMIT, over a store in memory; SQLite in memory, a transaction",
        [("units commit 100", 7_000)], ["units commit sqlite counted"], [("units commit beside sqlite", 1)]),
    Row("a call of a program with two arguments and its return; growth at a depth of 60 different programs",
        [("calls at depth 1 from 10 variables", 2_000), ("calls growth by different programs", 1.2)]),
    Row("reading and creation, a byte of lines of RTX, of ENQ and DEQ, of names",
        [(f"reading long {name} counted", 60) for name in ("RTX", "ENQ DEQ", "names")]),
    Row("a committed unit on a file; the limit, four fdatasync", ratios=[("store units of the limit", 0.9)]),
    Row("the same; SQLite on a file by a rollback journal, synchronous=FULL", ratios=[("store units beside sqlite with a rollback journal", 1)]),
    Row("`run` on 4 workers; `serial`", ratios=[("threads jobs that compute on 4 workers", 3)]),
    Row("a put or a take by a program that adopts, five frames deep, to one by public rights",
        [("rights growth by a program that adopts", 1.2)]),
    Row("growth: a change beside 1,000 open units, to one beside 100", [("growth change beside open units growth", 1.5)]),
    Row("growth: LOCK and UNLOCK, ENQ and DEQ by 4,094 locks on the object, to 100",
        [("growth lock and unlock by locks on the object growth", 1.5), ("growth put and take by locks on the object growth", 1.5)]),
    Row("growth: CRTUP and GRANT among 30,000 users, to 100", [("growth of users growth", 1.5)]),
    Row("growth: COMMIT over a store that keeps 40,000 objects, to 100", [("growth commit among kept objects growth", 1.5)]),
    Row("`list` of a store of 65,535 objects, MiB", [("memory of a list of 65535 objects", 64)]),
]


def lines(figures):
    """The table, with the rows of which all figures are there; nothing where there is none."""
    rows = [row.line(figures) for row in ROWS if all(name in figures for name in row.names())]
    return ["", *HEAD, *rows] if rows else []
