"""A table, a proposal and the checker's answer as a graph for Graphviz's dot: a box around each task, in it a box for each point, one under the other, and an
edge for each way on. Nothing here evaluates a formula: what brings an alarm is found by asking the proved check."""
from .arriving import FULL, Alone, below, written
from .notation import Bad, quoted
from .parts import span, wide
from .refusals import told

WIDTH = 33  # columns of a line in a point's box
SIDES = 3  # how many tasks stand side by side; the others stand under them
SOURCES = 3  # lines that say what brings one alarm
LONG = 100  # characters of an alarm's formula, which the instruction has in full
IN = "\u00a0" * 2  # an SVG drops plain spaces at the front of a line
FONT = 'fontname="Helvetica,Arial,sans-serif"'


# ---- text
def wrapped(text, first="", width=WIDTH):
    """A text in lines of no more columns than the width, broken at spaces, and within a word that is longer than a line. The first line has something in
    front, the others are indented by two columns more."""
    lines, bare = [first], True
    for word in "".join(c if c.isprintable() else "\ufffd" for c in text).split(" "):
        if not bare and wide(lines[-1]) + 1 + wide(word) <= width:
            lines[-1] += " " + word
            continue
        if not bare:
            lines.append(first + IN)
        for c in word:  # marks are no columns wide, so that they stay with their letter
            if wide(lines[-1]) + wide(c) > width:
                lines.append(first + IN)
            lines[-1] += c
        bare = False
    return lines


def flowing(items):
    """Items with commas between them, each in one line if it is no longer than a line."""
    lines = []
    for item in [item + "," for item in items[:-1]] + items[-1:]:
        if lines and wide(lines[-1]) + 1 + wide(item) <= WIDTH:
            lines[-1] += " " + item
        else:
            lines += wrapped(item)
    return lines


def label(lines, end="\\l"):
    """A label with each line ended by \\l, which puts it to the left, or by another end."""
    return '"%s"' % "".join(line.replace("\\", "\\\\").replace('"', '\\"').replace("&", "&amp;") + end for line in lines)


# ---- what brings an alarm
class Tried(Alone):
    """A point by itself, with other ranges tried in its row."""

    def __init__(self, library, table, proposal, p):
        super().__init__(library, table, proposal, p)
        kind, a, b, _ = table.points[p]
        self.nodes = sorted(below(table, b if kind == 1 else a))
        self.head = [0, 0, a] if kind == 1 else []
        self.found = {}

    def alarms(self, v, ends):
        """The check's alarms where a variable has this range, with the nodes' numbers in the whole table. The targets hold every value, and so does the
        entry of what is written: nothing is refused."""
        if (v, ends) not in self.found:
            row = self.row[:v] + [ends] + self.row[v + 1 :]
            table = self.table[:6] + [low for low, _ in row] + self.table[6 + len(row) :]
            entries = len(self.head) // 3
            whole = row + [FULL] * (2 * len(row) + entries)
            proposal = [3, len(row), 0, entries, 0, 0, 0, *self.head, *(low for low, _ in whole), *(high for _, high in whole)]
            self.found[v, ends] = {(self.nodes[n], kind) for n, kind in self.library.check(table, proposal)}
        return self.found[v, ends]

    def matters(self, alarm, v, start):
        """Whether the alarm is gone for some single value of a variable: an end of its range, its starting value, or one of 0, 1 and -1."""
        low, high = self.row[v]
        return any(low <= z <= high and alarm not in self.alarms(v, (z, z)) for z in (low, high, start, 0, 1, -1))


def before(table, proposal):
    """For each point the reached points that lead to it."""
    leading = [[] for _ in table.points]
    for p in range(len(table.points)):
        for _, q in table.targets(p):
            if 0 <= q < len(table.points) and proposal.held[p] != -1:
                leading[q].append(p)
    return leading


class Causes:
    """What brings the alarms of an answer."""

    def __init__(self, answer, leading):
        self.answer, self.table, self.proposal, self.leading = answer, answer.table, answer.proposal, leading
        self.wrote = {}

    def written(self, p):
        """The range that an assignment writes; its low end is above the high one where it writes nothing."""
        if p not in self.wrote:
            self.wrote[p] = written(self.answer.library, self.table, self.proposal, p)
        return self.wrote[p]

    def writers(self, p, v):
        """Who can have given a variable the value that it has at a point: the task's own assignments from which a way leads there without another one; the
        entries of other tasks that can write it while this task stands on such a way; and whether the start can, which is so if the way may begin there."""
        u, stood, own, todo = self.table.owner[p], set(), set(), [p]
        while todo:
            q = todo.pop()
            if q not in stood:
                stood.add(q)
                assigns = {o for o in self.leading[q] if self.table.points[o][:2] == [1, v]}
                own |= assigns
                todo += [o for o in self.leading[q] if o not in assigns]
        free = lambda held: any(held & self.proposal.held[q] == 0 for q in stood)
        entries = [i for i, (task, held, w) in enumerate(self.proposal.heads) if task != u and w == v and free(held)]
        return sorted(own), entries, self.table.firsts[u] in stood

    def filed(self, i, more):
        """An entry's task and held set."""
        u, held, _ = self.proposal.heads[i]
        return "written by %s%s, holding %s (entry %d)" % (self.table.name("t", u), more, self.table.held(held), i)

    def came(self, p, v):
        """What these bring, each a range with words for it."""
        table, proposal = self.table, self.proposal
        own, entries, starting = self.writers(p, v)
        for o in own:
            head = table.owner[o], proposal.held[o], v
            if self.written(o)[0] <= self.written(o)[1]:
                yield self.written(o), self.filed(proposal.heads.index(head), " itself at %d" % o)
        for i in entries:
            yield proposal.ranges[i], self.filed(i, "")
        if starting:
            yield (table.starts[v], table.starts[v]), "its starting value"

    def lines(self, p, tried, alarm):
        """Of each variable that the alarm's node reads and that matters, or of all if none does by itself: each writer that brings enough for the alarm, or
        the row if none does."""
        read = sorted({self.table.nodes[n][1] for n in below(self.table, alarm.node) if self.table.nodes[n][0] == 2})
        lines = [] if read else ["its numbers and inputs alone"]
        for v in [v for v in read if tried.matters(alarm, v, self.table.starts[v])] or read:
            low, high = self.proposal.rows[p][v]
            met = [((max(low, a), min(high, b)), how) for (a, b), how in self.came(p, v) if a <= high and low <= b]
            bring = [(ends, how) for ends, how in met if alarm in tried.alarms(v, ends)] or [((low, high), "from the row")]
            lines += ["%s %s: %s" % (self.table.name("v", v), span(*ends), how) for ends, how in bring]
        return lines if len(lines) <= SOURCES else lines[: SOURCES - 1] + ["and %d more" % (len(lines) - SOURCES + 1)]


def alarm_lines(answer, causes, p):
    """The alarms of a point, each with what brings it. The formula isn't said again where it is the whole instruction's."""
    table, alarms = answer.table, answer.alarms_at(p)
    tried = Tried(answer.library, table, answer.proposal, p) if alarms else None
    for alarm in alarms:
        formula = table.formula(alarm.node)
        short = formula if len(formula) <= LONG else formula[:LONG] + " .."
        yield from wrapped("! node %d %s%s" % (*alarm, "" if alarm.node in table.roots(table.points[p]) else ": " + short))
        for line in causes.lines(p, tried, alarm):
            yield from wrapped(line, IN)


# ---- the boxes
def printed(proposal, leading, p, every):
    """The variables whose ranges stand at a point: those that have another range at every point above that leads there, and all if none does. The way back of
    a loop doesn't count: what holds in the loop would else stand nowhere in it."""
    above = [proposal.rows[q] for q in leading[p] if q < p]
    return [v for v, ends in enumerate(proposal.rows[p]) if every or not above or all(row[v] != ends for row in above)]


def box(answer, leading, causes, p, every):
    """The lines of a point."""
    table, proposal = answer.table, answer.proposal
    held = proposal.held[p] if proposal else 0
    lines = wrapped("%d%s" % (p, "" if held == 0 else " never reached" if held == -1 else " holds " + table.held(held)))
    lines += wrapped(table.does(p))
    lines += alarm_lines(answer, causes, p)
    if answer.point() == p:
        lines += [line for words in told(answer) for line in wrapped("! " + words)]
    if proposal and held != -1:
        lines += flowing(["%s %s" % (table.name("v", v), span(*proposal.rows[p][v])) for v in printed(proposal, leading, p, every)])
    return lines


def look(answer, p):
    if answer.alarms_at(p):
        return ', color=red, fillcolor="#ffd8d8", style=filled'
    if answer.point() == p:
        return ', color=orange, fillcolor="#ffe8c0", style=filled'
    return ', color=gray, fontcolor="#606060", style=dashed' if answer.proposal and answer.proposal.held[p] == -1 else ""


# ---- the graph
def chosen(table, task):
    """The tasks that are drawn."""
    names = [table.name("t", u) for u in range(table.tasks)]
    found = [u for u in range(table.tasks) if task in (None, names[u], str(u))]
    if not found:
        raise Bad("--task", "there is no task %s: the table has %s" % (quoted(task), ", ".join(names)))
    return found


def points_of(table, u):
    """The points of a task."""
    return range(table.firsts[u], table.firsts[u] + table.shares[u])


def columns(heights):
    """Which tasks stand under one another: the highest first, each goes where least stands so far."""
    found = [[] for _ in range(SIDES)]
    for u in sorted(heights, key=lambda u: (-heights[u], u)):
        min(found, key=lambda column: sum(heights[w] for w in column)).append(u)
    return sorted(sorted(column) for column in found if column)


def edge(p, q, text):
    """A way on. Edges lead downwards, or dot might put points in another order: one to a point above is drawn from there, with its arrow at the other end."""
    looks = ['label=" %s "' % text] if text != "on to" else []
    looks += ["weight=100"] if q == p + 1 else ["dir=back"] if q < p else []
    looks += ["minlen=2"] if text != "on to" and abs(p - q) == 1 else []  # room for the label
    return "p%d -> p%d%s;" % (min(p, q), max(p, q), " [%s]" % ", ".join(looks) if looks else "")


def cluster(answer, u, boxes):
    """A task: its points, each under the one before whether there is a way or not, and its ways on."""
    table, mine = answer.table, points_of(answer.table, u)
    yield "  subgraph cluster_%d {" % u
    yield "    label=%s;" % label(wrapped(table.task(u)), "\\n")
    for p in mine:
        yield "    p%d [label=%s%s];" % (p, label(boxes[p]), look(answer, p))
    for p in mine:
        yield from ("    " + edge(p, q, text) for text, q in table.targets(p) if q in mine)
        if p + 1 in mine and p + 1 not in [q for _, q in table.targets(p)]:
            yield "    p%d -> p%d [style=invis, weight=100];" % (p, p + 1)
    yield "  }"


def drawn(answer, task, every):
    """All lines."""
    table, proposal = answer.table, answer.proposal
    tasks = chosen(table, task) if table else []
    leading = before(table, proposal) if proposal else []
    causes = Causes(answer, leading)
    boxes = {p: box(answer, leading, causes, p, every) for u in tasks for p in points_of(table, u)}
    title = [answer.line]
    if answer.number and not (table and answer.point() in boxes):
        title += [line for words in told(answer) for line in wrapped(words, "", WIDTH * min(len(tasks) or SIDES, SIDES))]
    lines = ["digraph tasks {"]
    lines.append('  graph [label=%s, labelloc=t, %s, fontsize=12, color="#808080", nodesep=0.25, ranksep=0.2];' % (label(title, "\\n"), FONT))
    lines.append('  graph [pack=8, packmode="array_it%d"];' % SIDES)  # what hangs together is laid out by itself, and put side by side
    lines.append('  node [shape=box, %s, fontsize=9, margin="0.06,0.03", height=0];' % FONT)
    lines.append("  edge [%s, fontsize=9, arrowsize=0.6];" % FONT)
    for u in tasks:
        lines += cluster(answer, u, boxes)
    for p in boxes:  # ways that leave their task, which the check refuses
        lines += ["  " + edge(p, q, text) for text, q in table.targets(p) if q in boxes and table.owner[q] != table.owner[p]]
    for column in columns({u: sum(len(boxes[p]) + 2 for p in points_of(table, u)) for u in tasks}):
        lines += ["  p%d -> p%d [style=invis];" % (points_of(table, u)[-1], table.firsts[w]) for u, w in zip(column, column[1:])]
    return lines + ["}"]
