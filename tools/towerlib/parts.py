"""A table and a proposal in their parts, written out for people. Whether a proposal holds is not decided here: that is the checker's answer, and
nothing below evaluates a formula."""
import unicodedata
from .notation import MAX, MIN

SIZES = ("tasks", "variables", "mutexes", "points", "nodes")
LIMITS = ((1, 8), (1, 16), (0, 8), (1, 256), (0, 1024))
POINTS = {0: "end", 1: "assign", 2: "test", 3: "lock", 4: "unlock"}
BINARY = {4: ("+", 5), 5: ("-", 5), 6: ("*", 6), 7: ("/", 6), 9: ("%", 6), 16: ("<", 4), 17: ("<=", 4), 18: ("=", 4), 19: ("!=", 4), 20: ("and", 2), 21: ("or", 2)}
CHILDREN = {3: 1, 8: 3, 22: 1, **{kind: 2 for kind in BINARY}}
ATOM = 8  # how tightly a formula is bound: from 0, a choice, to 8, a variable


def table_length(sizes):
    return 5 + sizes[0] + sizes[1] + 4 * (sizes[3] + sizes[4])


def proposal_length(sizes):
    points, variables, mutexes, entries = sizes
    return 4 + points + 3 * entries + 2 * ((points + mutexes) * variables + entries)


def sized(t):
    """Whether the sizes are there and within their limits."""
    return len(t) >= 5 and all(low <= size <= high for size, (low, high) in zip(t, LIMITS))


class Table:
    """The parts of a table with the right length and shares; its points and nodes may still be wrong."""

    def __init__(self, given):
        t = given.table
        self.name = given.name
        self.tasks, self.variables, self.mutexes, points, nodes = t[:5]
        self.base = base = 5 + self.tasks + self.variables
        self.shares, self.starts = t[5 : 5 + self.tasks], t[5 + self.tasks : base]
        fours = [t[i : i + 4] for i in range(base, len(t), 4)]
        self.points, self.nodes = fours[:points], fours[points:]
        self.owner = [u for u, s in enumerate(self.shares) for _ in range(s)]
        self.firsts = [sum(self.shares[:u]) for u in range(self.tasks)]
        self.uses = [[] for _ in self.nodes]
        for what, rows in (("point", self.points), ("node", self.nodes)):
            for i, four in enumerate(rows):
                for child in self.roots(four) if what == "point" else four[1 : 1 + CHILDREN.get(four[0], 0)]:
                    if 0 <= child < nodes:
                        self.uses[child].append((what, i))
        self.point_of = [None] * nodes  # the point whose formula a node is in; parents come first here
        for n in reversed(range(nodes)):
            for what, i in self.uses[n][:1]:
                self.point_of[n] = i if what == "point" else self.point_of[i]
        self.formulas = []  # with how tightly each is bound; a child's number is below its parent's
        for n in range(nodes):
            self.formulas.append(self.written(n))

    # ---- where words stand
    def point_word(self, p):
        """The table's word at which a point begins."""
        return self.base + 4 * p

    def node_word(self, n):
        return self.base + 4 * (len(self.points) + n)

    @staticmethod
    def roots(point):
        """The node that a point uses, if it does."""
        return {1: [point[2]], 2: [point[1]]}.get(point[0], [])

    # ---- formulas
    def child(self, parent, n, least):
        """A child within its parent: in brackets if it is bound less tightly; by its number alone if it isn't a child that a table may have."""
        if not 0 <= n < parent or len(self.uses[n]) > 1:
            return "node(%d)" % n
        text, bound = self.formulas[n]
        return text if bound >= least else "(%s)" % text

    def written(self, n):
        kind, a, b, c = self.nodes[n]
        if kind == 0:
            return (end(a), 7 if MIN < a < 0 else ATOM)
        if kind == 1:
            return ("input(%s)" % span(a, b), ATOM)
        if kind == 2:
            return (self.name("v", a), ATOM)
        if kind == 3:
            text = self.child(n, a, ATOM)
            return ("-(%s)" % text if text[0].isdigit() else "-" + text, 7)
        if kind == 8:
            return ("if %s then %s else %s" % (self.child(n, a, 2), self.child(n, b, 1), self.child(n, c, 1)), 0)
        if kind == 22:
            return ("not " + self.child(n, a, ATOM), 3)
        if kind not in BINARY:
            return ("kind(%d)" % kind, ATOM)
        sign, bound = BINARY[kind]
        left = bound
        if bound == 2 and 0 <= a < n and self.nodes[a][0] != kind:  # `and` beside `or` gets brackets either way
            left = 3
        return ("%s %s %s" % (self.child(n, a, left), sign, self.child(n, b, bound + 1)), bound)

    def formula(self, n):
        return self.formulas[n][0] if 0 <= n < len(self.nodes) else "node(%d)" % n

    # ---- instructions
    def does(self, p):
        """An instruction without its targets."""
        kind, a, b, _ = self.points[p]
        if kind == 1:
            return "%s := %s" % (self.name("v", a), self.formula(b))
        if kind == 2:
            return self.formula(a) + "?"
        if kind in (3, 4):
            return "%s %s" % (POINTS[kind], self.name("m", a))
        return POINTS.get(kind, "kind(%d)" % kind)

    def targets(self, p):
        """Where it goes on, each with a label."""
        kind, _, b, c = self.points[p]
        return {1: [("on to", c)], 2: [("yes", b), ("no", c)], 3: [("on to", b)], 4: [("on to", b)]}.get(kind, [])

    def instruction(self, p):
        on = ", ".join("%s %d" % target for target in self.targets(p))
        return self.does(p) + (" " if self.points[p][0] == 2 else ", " if on else "") + on

    # ---- names and sets
    def task(self, u):
        name = self.name("t", u)
        return "task %d" % u + ("" if name == "t%d" % u else " (%s)" % name)

    def point(self, p):
        return "point %d of %s" % (p, self.task(self.owner[p]))

    def held(self, word):
        """A held word: `never`, `none`, or the mutexes joined by +."""
        if not -1 <= word < 2 ** self.mutexes:
            return "set(%d)" % word
        return "never" if word == -1 else "+".join(self.name("m", m) for m in range(self.mutexes) if word >> m & 1) or "none"

    def row(self, row):
        return ", ".join("%s %s" % (self.name("v", v), span(*ends)) for v, ends in enumerate(row))

    def head(self, head):
        """What an entry is for."""
        task, held, v = head
        return "%s, holding %s, writes %s" % (self.task(task), self.held(held), self.name("v", v))


class Proposal:
    """The parts of a proposal of the right sizes and length."""

    def __init__(self, table, w):
        points, count = len(table.points), (len(table.points) + table.mutexes) * table.variables + w[3]
        self.lows = 4 + points + 3 * w[3]
        self.held = w[4 : 4 + points]
        self.heads = [tuple(w[i : i + 3]) for i in range(4 + points, self.lows, 3)]
        self.ends = list(zip(w[self.lows : self.lows + count], w[self.lows + count :]))
        rows = [self.ends[k * table.variables : (k + 1) * table.variables] for k in range(points + table.mutexes)]
        self.rows, self.rests, self.ranges = rows[:points], rows[points:], self.ends[count - w[3] :]

    def head_word(self, i):
        """The proposal's word at which an entry's head begins."""
        return 4 + len(self.held) + 3 * i

    def low_word(self, k, v):
        """The proposal's word with the low end of a variable in a row, those of mutexes after those of points."""
        return self.lows + k * len(self.rows[0]) + v


def counted(count, name):
    """`1 mutex`, `2 mutexes`."""
    return "%d %s" % (count, name if count != 1 else {"mutexes": "mutex", "entries": "entry", "passes": "pass"}.get(name, name[:-1]))


def wide(text):
    """How many columns a text takes: letters of some scripts take two, their marks none."""
    return sum(0 if unicodedata.combining(c) else 2 if unicodedata.east_asian_width(c) in "WF" else 1 for c in text)


def end(z):
    return {MIN: "MIN", MAX: "MAX"}.get(z, str(z))


def span(low, high):
    return end(low) if low == high else "%s..%s" % (end(low), end(high))


def table_of(given):
    """The table's parts, or None if it can't be cut into them (refusals 1 to 3)."""
    t = given.table
    if not sized(t) or len(t) != table_length(t[:5]):
        return None
    shares = t[5 : 5 + t[0]]
    return Table(given) if min(shares) >= 1 and sum(shares) == t[3] else None


def proposal_of(table, given):
    """The proposal's parts, or None if it can't be cut into them (refusals 7 and 8)."""
    w = given.proposal
    if table is None or w[:3] != [len(table.points), table.variables, table.mutexes] or not 0 <= (w + [-1])[3] <= 512:
        return None
    return Proposal(table, w) if len(w) == proposal_length(w[:4]) else None
