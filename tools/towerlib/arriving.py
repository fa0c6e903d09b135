"""What an instruction brings to its targets, for words about refusals. Nothing here evaluates a formula: the proved check is asked, on a table of one task
that has that point alone, and the ends of a range are found by halving."""
from .notation import MAX, MIN
from .parts import CHILDREN

FULL = (MIN, MAX)


class Alone:
    """A point that assigns or tests by itself: point 0 of one task with no mutex, points 1 and 2 the ends that it leads to."""

    def __init__(self, library, table, proposal, p):
        self.library, self.row = library, proposal.rows[p]
        kind, a, b, _ = table.points[p]
        nodes = sorted(below(table, b if kind == 1 else a))
        at = {n: k for k, n in enumerate(nodes)}
        fours = [[f[0]] + [at[n] for n in f[1 : 1 + CHILDREN.get(f[0], 0)]] + f[1 + CHILDREN.get(f[0], 0) :] for f in (table.nodes[n] for n in nodes)]
        point = [1, a, at[b], 1] if kind == 1 else [2, at[a], 1, 2]
        self.table = [1, len(self.row), 0, 3, len(nodes), 3] + [low for low, _ in self.row] + point + [0] * 8 + sum(fours, [])

    def refused(self, held, rows):
        """The rule that is broken if the targets have these held words and rows; 0 if none is."""
        ends = self.row + rows[0] + rows[1]
        try:
            self.library.check(self.table, [3, len(self.row), 0, 0, 0, *held, *(low for low, _ in ends), *(high for _, high in ends)])
        except self.library.Refusal as refusal:
            return refusal.number
        return 0

    def brings(self, k):
        """Whether there is an outcome for a target: one that is never reached is refused by 12."""
        return self.refused([-1, 0] if k == 0 else [0, -1], [[FULL] * len(self.row)] * 2) == 12

    def within(self, k, v, ends):
        """Whether what arrives at a target lies within a range of a variable: else it is refused by 13."""
        rows = [[FULL] * len(self.row) for _ in range(2)]
        rows[k][v] = ends
        return self.refused([0, 0], rows) != 13

    def arrives(self, k, v):
        """The range of a variable that arrives at a target."""
        low = halved(MIN, MAX, lambda z: self.within(k, v, (z, MAX)))
        return low, -halved(-MAX, -MIN, lambda z: self.within(k, v, (MIN, -z)))


def halved(low, high, holds):
    """The greatest number for which something holds that holds for the low one and for every number below one for which it holds."""
    while low < high:
        middle = (low + high + 1) // 2
        low, high = (middle, high) if holds(middle) else (low, middle - 1)
    return low


def below(table, n):
    """A node and all that its formula is made of."""
    found, todo = [], [n]
    while todo:
        found.append(todo.pop())
        four = table.nodes[found[-1]]
        todo += four[1 : 1 + CHILDREN.get(four[0], 0)]
    return found


def inside(inner, outer):
    return outer[0] <= inner[0] and inner[1] <= outer[1]


def carried(library, table, proposal, p):
    """Where a point carries something past a target's row: the way on, the target, the smallest such variable and the range that arrives. None if nowhere."""
    kind, m = table.points[p][:2]
    ways = table.targets(p)
    if kind in (1, 2):
        alone = Alone(library, table, proposal, p)
        ways = [(k, *way) for k, way in enumerate(ways) if alone.brings(k)]
        past = lambda k, q, v: None if alone.within(k, v, proposal.rows[q][v]) else alone.arrives(k, v)
    else:
        row = proposal.rows[p]
        if kind == 3:
            row = [(max(a, c), min(b, d)) for (a, b), (c, d) in zip(row, proposal.rests[m])]
        ways = [(0, *way) for way in ways]
        past = lambda k, q, v: None if inside(row[v], proposal.rows[q][v]) else row[v]
    for v in range(table.variables):
        for k, label, q in ways:
            ends = past(k, q, v)
            if ends is not None:
                return label, q, v, ends
    return None


def written(library, table, proposal, p):
    """The range that an assignment writes."""
    return Alone(library, table, proposal, p).arrives(0, table.points[p][1])
