"""What `tools/tower picture` prints, read back and compared with what the words say: nodes, edges, tasks, looks, alarms and what brings them, the ranges that
are printed, lines and names of any length, and the picture that is kept in examples/tower. Imported by tests/tools.py; dot isn't needed."""
import html, os, re, unicodedata
from towerlib.answers import Checked
from towerlib.notation import Bad, Given, given_in
from towerlib.picture import drawn
from towerlib.refusals import told
from .common import BARE, BARE_PROPOSAL, BY_HAND, DRAWN, LIBRARY, MAX, MIN, ROOT, expect, of, tried

TOWER = os.path.join(ROOT, "examples", "tower")
PAGE = 830  # pixels that a page gives a picture
COLUMNS = 33  # of a line in a box
IN = "\u00a0\u00a0"  # before a line that goes on
RED, ORANGE = ', color=red, fillcolor="#ffd8d8", style=filled', ', color=orange, fillcolor="#ffe8c0", style=filled'
DASHED = ', color=gray, fontcolor="#606060", style=dashed'
CHILDREN = {3: 1, 8: 3, 22: 1, **{kind: 2 for kind in (4, 5, 6, 7, 9, 16, 17, 18, 19, 20, 21)}}


# ---- reading back
def lines_of(text, end):
    """The lines of a label. A backslash before anything but the end's letter stands for what follows."""
    whole = re.sub(r"\\(.)", lambda found: "\n" if found.group() == end else found.group(1), text)
    return html.unescape(whole).split("\n")[:-1]


class Graph:
    """A title; nodes with the lines of their labels and their looks; edges with their labels; the task of each node, and each task's title."""

    def __init__(self, printed_lines):
        self.title, self.nodes, self.edges, self.tasks, self.titles, self.stray = None, {}, [], {}, {}, []
        quoted = r'"((?:[^"\\]|\\.)*)"'
        for line in printed_lines[1:-1]:
            if line.startswith("  graph [label="):
                self.title = lines_of(re.match(r"  graph \[label=" + quoted, line).group(1), "\\n")
            elif re.match(r"  subgraph cluster_\d+ {$", line):
                task = int(re.search(r"\d+", line).group())
            elif line.startswith("    label="):
                self.titles[task] = lines_of(re.fullmatch(r"    label=" + quoted + ";", line).group(1), "\\n")
            elif re.match(r"    p\d+ \[", line):
                p, label, look = re.fullmatch(r"    p(\d+) \[label=" + quoted + r"(.*)\];", line).groups()
                self.nodes[int(p)], self.tasks[int(p)] = (lines_of(label, "\\l"), look), task
            elif "->" in line and "style=invis" not in line:
                p, q, looks = re.fullmatch(r" +p(\d+) -> p(\d+)(?: \[(.*)\])?;", line).groups()
                label = re.search(r'label=" (yes|no) "', looks or "")
                ends = (int(p), int(q)) if "dir=back" not in (looks or "") else (int(q), int(p))
                self.edges.append((*ends, label.group(1) if label else ""))
            elif "->" not in line and not line.startswith(("  graph [pack", "  node [", "  edge [", "  }")):
                self.stray.append(line)

    def text(self, p):
        return joined(self.nodes[p][0])


def joined(lines):
    """Lines as one text without spaces: where a line was broken has no meaning."""
    return re.sub(r"\s", "", "".join(lines))


def columns_of(line):
    return sum(0 if unicodedata.combining(c) else 2 if unicodedata.east_asian_width(c) in "WF" else 1 for c in line)


# ---- the words
class Words:
    """A valid table and a proposal of its sizes, cut up here once more."""

    def __init__(self, t, w):
        tasks, self.variables, mutexes, points, _ = t[:5]
        fours = [t[i : i + 4] for i in range(5 + tasks + self.variables, len(t), 4)]
        self.starts = t[5 + tasks : 5 + tasks + self.variables]
        self.points, self.nodes = fours[:points], fours[points:]
        self.owner = [u for u, share in enumerate(t[5 : 5 + tasks]) for _ in range(share)]
        self.held = w[4 : 4 + points]
        self.heads = [w[i : i + 3] for i in range(4 + points, 4 + points + 3 * w[3], 3)]
        ends = w[4 + points + 3 * w[3] :]
        ends = list(zip(ends[: len(ends) // 2], ends[len(ends) // 2 :]))
        self.rows = [ends[p * self.variables : (p + 1) * self.variables] for p in range(points)]
        self.ranges = ends[(points + mutexes) * self.variables :]

    def edges(self):
        for p, (kind, _, b, c) in enumerate(self.points):
            yield from {0: [], 1: [(p, c, "")], 2: [(p, b, "yes"), (p, c, "no")], 3: [(p, b, "")], 4: [(p, b, "")]}[kind]

    def nodes_of(self, p):
        """The nodes that a point's formula is made of."""
        kind, a, b, _ = self.points[p]
        found = {1: [b], 2: [a]}.get(kind, [])
        for n in found:
            found += self.nodes[n][1 : 1 + CHILDREN.get(self.nodes[n][0], 0)]
        return found

    def holds(self, p):
        held = self.held[p]
        return "neverreached" if held == -1 else "holds" + set_of(held) if held else ""

    def ranges_at(self, p, every):
        """The ranges that stand at a point: all that no point above that leads there has; all if there is no such point."""
        if self.held[p] == -1:
            return ""
        above = [self.rows[q] for q, to, _ in self.edges() if to == p and q < p and self.held[q] != -1]
        same = [not every and self.rows[p][v] in [row[v] for row in above] for v in range(self.variables)]
        return ",".join("v%d%s" % (v, span(*self.rows[p][v])) for v in range(self.variables) if not same[v])


def set_of(held):
    return "+".join("m%d" % m for m in range(8) if held >> m & 1) or "none"


def span(low, high):
    end = lambda z: {MIN: "MIN", MAX: "MAX"}.get(z, str(z))
    return end(low) if low == high else end(low) + ".." + end(high)


def refusal(answer):
    """The number and the place that a refusal names, or None."""
    words = answer[0].split()
    return (int(words[1]), int(words[4])) if words[0] == "refused" else None


def compared(answer, t, w, want, every, seen):
    """A picture of a table without names whose proposal is refused by 12 or later, or accepted."""
    what = "picture of %s, %s" % (t, w)
    words, table, graph = Words(t, w), answer.table, Graph(drawn(answer, None, every))
    alarms, refused = [tuple(line.split()[1:]) for line in want[1:]], refusal(want)
    at = refused[1] if refused and refused[1] < len(words.points) else None
    expect(what + ", its edges", sorted(graph.edges), sorted(words.edges()))
    expect(what + ", its tasks", [graph.tasks[p] for p in sorted(graph.tasks)], words.owner)
    expect(what + ", its titles", graph.titles, {u: ["task %d" % u] for u in words.owner})
    expect(what + ", its title", joined(graph.title), joined(want[:1] + (told(answer) if refused and at is None else [])))
    expect(what + ", other lines", graph.stray, [])
    for p, (lines, look) in graph.nodes.items():
        here = "%s, point %d" % (what, p)
        own = [alarm for alarm in alarms if int(alarm[0]) in words.nodes_of(p)]
        expect(here + ", its look", look, RED if own else ORANGE if p == at else DASHED if words.held[p] == -1 else "")
        expect(here + ", its width", [line for line in lines if columns_of(line) > COLUMNS], [])
        text, head, ranges = graph.text(p), "%d%s%s" % (p, words.holds(p), joined([table.does(p)])), words.ranges_at(p, every)
        between = text[len(head) : len(text) - len(ranges)]
        expect(here + ", its text", text, head + between + ranges)
        told_here = re.findall(r"!node(\d+)(overflow|zero)((?:(?!!node).)*)", between)
        spaced = re.split(r"! node \d+ (?:overflow|zero)", " ".join(" ".join(lines).split()))[1:]
        expect(here + ", its alarms", [found[:2] for found in told_here], own)
        expect(here + ", between", bool(between), bool(own) or p == at)
        if p == at:
            expect(here + ", the refusal", between, joined("!" + line for line in told(answer)))
        for (n, _, rest), chunk in zip(told_here, spaced):
            formula = table.formula(int(n))
            formula = "" if int(n) == words.nodes_of(p)[0] else joined([":", formula[:100], ".." if len(formula) > 100 else ""])
            expect(here + ", the alarm's lines", rest, formula + joined(sourced(here, words, p, chunk, seen)))
        seen["red"] += own != []
        seen["dashed"] += words.held[p] == -1
        seen["left out"] += ranges.count("v") < words.variables and words.held[p] != -1


FILED = r"written by t(\d)( itself at (\d+))?, holding ([\w+]+) \(entry (\d+)\)"
SOURCE = re.compile(r"\bv(\d+) ([-MINAX\d]+?)(?:\.\.([-MINAX\d]+))?: (%s|its starting value|from the row)" % FILED)
ALONE = "its numbers and inputs alone"


def sourced(here, words, p, text, seen):
    """What brings an alarm, at most three lines: an entry of the variable, within whose range what it brings lies, and in the row; a start in the row; the row."""
    found, more = list(SOURCE.finditer(text)), re.findall(r"and \d+ more", text)
    expect(here + ", what brings an alarm", 1 <= len(found) + len(more) <= 3 or ALONE in text, True)
    for source in found:
        v, low, high, how, task, itself, at, held, entry = source.groups()
        number = lambda text: MIN if text == "MIN" else MAX if text == "MAX" else int(text)
        v, low, high = int(v), number(low), number(high or low)
        row = words.rows[p][v]
        expect(here + ", in the row", row[0] <= low <= high <= row[1], True)
        if how == "from the row":
            expect(here + ", the row", (low, high), row)
        elif how == "its starting value":
            expect(here + ", the start", (low, high), (words.starts[v],) * 2)
        else:
            i = int(entry)
            ends = words.ranges[i]
            expect(here + ", its entry", (words.heads[i][0], words.heads[i][2], set_of(words.heads[i][1])), (int(task), v, held))
            expect(here + ", within its entry", ends[0] <= low <= high <= ends[1], True)
            expect(here + ", whose it is", bool(itself), words.owner[p] == int(task))
            if itself:
                expect(here + ", where it is", (words.points[int(at)][:2], words.owner[int(at)]), ([1, v], int(task)))
        seen["row" if how == "from the row" else "start" if how == "its starting value" else "own" if itself else "other"] += 1
    seen["alone"] += ALONE in text
    return [ALONE] if ALONE in text else [source.group() for source in found] + more


# ---- by hand
def table(starts, mutexes, tasks, nodes):
    points = sum(tasks, [])
    fours = [four + [0] * (4 - len(four)) for four in points + nodes]
    return [len(tasks), len(starts), mutexes, len(points), len(nodes), *map(len, tasks), *starts, *sum(fours, [])]


def proposal(t, held, rows, rests, entries):
    """Rows and rest rows are lists of ranges, one a variable; an entry is a task, a held set, a variable and a range."""
    ends = sum(rows + rests, []) + [entry[3] for entry in entries]
    return [t[3], t[1], t[2], len(entries), *held, *sum((list(entry[:3]) for entry in entries), []), *(low for low, _ in ends), *(high for _, high in ends)]


def sources(answer, p):
    """The lines that say what brings the alarms of a point, each as one line without its indent."""
    found = []
    lines = Graph(drawn(answer, None, False)).nodes[p][0]
    for line in lines[[line.startswith("! node") for line in lines].index(True) :]:
        if line.startswith(IN + IN):
            found[-1] += " " + line[4:]
        elif line.startswith(IN):
            found.append(line[2:])
    return found


def causes():
    """What brings an alarm."""
    nodes = [[0, 10], [2, 0], [7, 0, 1], [1, 0, 5]]  # 10 / v0; input(0..5)
    # task 1 writes v0 under the lock under which task 0 divides: it came before the lock was taken
    t = table([5, 2], 1, [[[3, 0, 1], [1, 1, 2, 2], [4, 0, 0]], [[3, 0, 4], [1, 0, 3, 5], [4, 0, 3]]], nodes)
    row = [(0, 5), (2, 10)]
    w = proposal(t, [0, 1, 1, 0, 1, 1], [row] * 6, [row], [(0, 1, 1, (2, 10)), (1, 1, 0, (0, 5))])
    expect("an alarm by a lock's variable", (of(t, w).list(), sources(of(t, w), 1)), (["accepted 1", "node 2 zero"], ["v0 0..5: written by t1, holding m0 (entry 1)"]))
    # the same with v0 := 3 before it, under the lock: task 1 can't have written since, and 3 isn't 0
    t = table([5, 2], 1, [[[3, 0, 1], [1, 0, 4, 2], [1, 1, 2, 3], [4, 0, 0]], [[3, 0, 5], [1, 0, 3, 6], [4, 0, 4]]], nodes + [[0, 3]])
    w = proposal(t, [0, 1, 1, 1, 0, 1, 1], [row] * 7, [row], [(0, 1, 0, (0, 5)), (0, 1, 1, (2, 10)), (1, 1, 0, (0, 5))])
    expect("an alarm by the row under a lock", (of(t, w).line, sources(of(t, w), 2)), ("accepted 1", ["v0 0..5: from the row"]))
    # lock, v1 := 10 / (v0 - 1), unlock; lock, v0 := 0, v0 := input(1..5), unlock: of the entry's 0..5 only 1..5 comes
    tasks = [[[3, 0, 1], [1, 1, 4, 2], [4, 0, 0]], [[3, 0, 4], [1, 0, 5, 5], [1, 0, 6, 6], [4, 0, 3]]]
    t = table([5, 2], 1, tasks, [[0, 10], [2, 0], [0, 1], [5, 1, 2], [7, 0, 3], [0, 0], [1, 1, 5]])
    some, rest = [(0, 5), (-10, 10)], [(1, 5), (-10, 10)]
    w = proposal(t, [0, 1, 1, 0, 1, 1, 1], [some, rest, rest, rest, rest, some, rest], [rest], [(0, 1, 1, (-10, 10)), (1, 1, 0, (0, 5))])
    expect("an alarm by a part of an entry", (of(t, w).line, sources(of(t, w), 1)), ("accepted 1", ["v0 1..5: written by t1, holding m0 (entry 1)"]))
    # v0 := 10 / v0, end: the start; a row that is wider than anything that comes
    t = table([0], 0, [[[1, 0, 2, 1], [0]]], nodes[:3])
    w = proposal(t, [0, 0], [[(0, 0)], [(0, 0)]], [], [])
    expect("an alarm by the start", sources(of(t, w), 0), ["v0 0: its starting value"])
    t[6] = 1
    w = proposal(t, [0, 0], [[(-1, 1)], [(-10, 10)]], [], [(0, 0, 0, (-10, 10))])
    expect("an alarm by the row", sources(of(t, w), 0), ["v0 -1..1: from the row"])
    # v0 := 10 / input(0..5), end
    t = table([1], 0, [[[1, 0, 2, 1], [0]]], [[0, 10], [1, 0, 5], [7, 0, 1]])
    w = proposal(t, [0, 0], [[(1, 1)], [(2, 10)]], [], [(0, 0, 0, (2, 10))])
    expect("an alarm by inputs", sources(of(t, w), 0), ["its numbers and inputs alone"])
    # v0 := 0, v0 := 5, v1 := 10 / v0, end: of its own writes only the second is there, and that isn't 0; task 1 writes input(0..5)
    t = table([5, 2], 0, [[[1, 0, 3, 1], [1, 0, 4, 2], [1, 1, 2, 3], [0]], [[1, 0, 5, 5], [0]]], nodes[:3] + [[0, 0], [0, 5], [1, 0, 5]])
    w = proposal(t, [0] * 6, [[(0, 5), (2, 10)]] * 6, [], [(0, 0, 0, (0, 5)), (0, 0, 1, (2, 10)), (1, 0, 0, (0, 5))])
    expect("an alarm by another's write", sources(of(t, w), 2), ["v0 0..5: written by t1, holding none (entry 2)"])
    # the same with v0 := 0 second: both
    t = table([5, 2], 0, [[[1, 0, 3, 1], [1, 0, 4, 2], [1, 1, 2, 3], [0]], [[1, 0, 5, 5], [0]]], nodes[:3] + [[0, 5], [0, 0], [1, 0, 5]])
    both = ["v0 0: written by t0 itself at 1, holding none (entry 0)", "v0 0..5: written by t1, holding none (entry 2)"]
    expect("an alarm by both", sources(of(t, w), 2), both)
    # four tasks that write: no more than three lines
    t = table([3, 1], 0, [[[1, 1, 2, 0]]] + [[[1, 0, 3 + k, 1 + k]] for k in range(4)], nodes[:3] + [[1, 0, 3]] * 4)
    w = proposal(t, [0] * 5, [[(0, 3), (1, 10)]] * 5, [], [(0, 0, 1, (3, 10))] + [(1 + k, 0, 0, (0, 3)) for k in range(4)])
    few = ["v0 0..3: written by t%d, holding none (entry %d)" % (k, k) for k in (1, 2)] + ["and 2 more"]
    expect("an alarm by many", sources(of(t, w), 0), few)
    # a test of v0 + v1 or v0 * v1, of which tasks 1 and 2 write one each: one of the two brings it; neither does without the other
    one = "v0 %s: written by t1, holding none (entry 0)"
    for kind, x, y, want in (
        (4, (0, MAX), (1, 5), [one % "0..MAX"]),
        (6, (-MAX, MAX), (2, 5), [one % "-2147483647..MAX"]),
        (4, (MAX, MAX), (1, 5), [one % "MAX", "v0 MAX: its starting value", "and 2 more"]),
    ):
        t = table([max(x[0], 0), y[0]], 0, [[[2, 4, 0, 0]], [[1, 0, 5, 1]], [[1, 1, 6, 2]]], [[2, 0], [2, 1], [kind, 0, 1], [0, 7], [16, 2, 3], [1, *x], [1, *y]])
        w = proposal(t, [0] * 3, [[x, y]] * 3, [], [(1, 0, 0, x), (2, 0, 1, y)])
        expect("an alarm by %s and %s" % (x, y), (of(t, w).list(), sources(of(t, w), 0)), (["accepted 1", "node 2 overflow"], want))


def bare():
    graph = Graph(drawn(of(BARE, BARE_PROPOSAL), None, False))
    expect("picture of Bare", graph.nodes, {0: (["0", "v0 := 5", "v0 0"], ""), 1: (["1", "end", "v0 5"], ""), 2: (["2", "end", "v0 0..5"], "")})
    expect("picture of Bare, its title and edges", (graph.title, graph.edges), (["accepted 0"], [(0, 1, "")]))
    expect("picture of Bare, its tasks", (graph.tasks, graph.titles), ({0: 0, 1: 0, 2: 1}, {0: ["task 0"], 1: ["task 1"]}))
    graph = Graph(drawn(of([], []), None, False))
    expect("picture of no table", (graph.title, graph.nodes, graph.edges), (["refused 1 length at 0", "the table has 0 words, and its sizes alone are 5"], {}, []))
    expect("picture of no table, one task", Graph(drawn(of([], []), "x", False)).nodes, {})
    graph = Graph(drawn(of(BARE, []), None, False))
    expect("picture without a proposal", {p: lines for p, (lines, _) in graph.nodes.items()}, {0: ["0", "v0 := 5"], 1: ["1", "end"], 2: ["2", "end"]})
    # a refusal that names a point, one that names an entry, and one whose point isn't drawn
    low = BARE_PROPOSAL[:-2] + [4, 5]
    graph = Graph(drawn(of(BARE, low), None, False))
    words = ["2", "end", "! point 2 of task 1, holding", IN + "none: end", "! entry 0: task 0, holding none,", IN + "writes v0 5", "! its row has only v0 0..4", "v0 0..4"]
    expect("picture of a refusal", (graph.title, graph.nodes[2]), (["refused 15 disturb at 2"], (words, ORANGE)))
    expect("picture of a refusal, the others", [look for p, (_, look) in graph.nodes.items() if p != 2], ["", ""])
    graph = Graph(drawn(of(BARE, low), "0", False))
    expect("picture of another task than the refused", (joined(graph.title), set(graph.nodes)), (joined(["refused 15 disturb at 2"] + told(of(BARE, low))), {0, 1}))
    # a way into another task, and one to nowhere
    for target, edges in ((2, [(0, 2, "")]), (3, [])):
        lines = drawn(of(BARE[:11] + [target] + BARE[12:], BARE_PROPOSAL), None, False)
        graph, inside = Graph(lines), lines[: lines.index("  }")]
        expect("picture of a way to %d" % target, (graph.title, graph.edges, graph.nodes[0][1]), (["refused 5 point at 0"], edges, ORANGE))
        expect("picture of a way to %d, its task" % target, [line for line in inside if "p2" in line], [])
    # end; v0 := 9 / v0, which nothing goes to
    never = table([0], 0, [[[0], [1, 0, 2, 0]]], [[0, 9], [2, 0], [7, 0, 1]])
    w = proposal(never, [0, -1], [[(0, 0)], [(-1, 4)]], [], [])
    for every in (False, True):
        graph = Graph(drawn(of(never, w), None, every))
        expect("picture of a point that isn't reached", (graph.nodes[1], graph.edges), ((["1 never reached", "v0 := 9 / v0"], DASHED), [(1, 0, "")]))


def looped():
    """Ranges in a loop: what changes at its first point stands there, though the loop leads back with the same."""
    # v1 := 1; v0 < 9? yes 2, no 3; v1 := 2, on to 1; end
    t = table([0, 0], 0, [[[1, 1, 0, 1], [2, 3, 2, 3], [1, 1, 4, 1], [0]]], [[0, 1], [2, 0], [0, 9], [16, 1, 2], [0, 2]])
    w = proposal(t, [0] * 4, [[(0, 0), (0, 0)], [(0, 0), (1, 2)], [(0, 0), (1, 2)], [(0, 0), (1, 2)]], [], [(0, 0, 1, (1, 2))])
    answer = of(t, w)
    expect("a loop is accepted", answer.line, "accepted 0")
    nodes = Graph(drawn(answer, None, False)).nodes
    expect("ranges in a loop", [nodes[p][0][2:] for p in range(4)], [["v0 0, v1 0"], ["v1 1..2"], [], []])
    nodes = Graph(drawn(answer, None, True)).nodes
    expect("all ranges in a loop", [nodes[p][0][2:] for p in range(4)], [["v0 0, v1 0"]] + [["v0 0, v1 1..2"]] * 3)
    # v0 = 0? yes 1, no 2; v1 := 0, on to 2; end: one of the two ways in has what the end has
    t = table([0, 0], 0, [[[2, 2, 1, 2], [1, 1, 3, 2], [0]]], [[2, 0], [0, 0], [18, 0, 1], [0, 0]])
    w = proposal(t, [0] * 3, [[(0, 1), (0, 0)], [(0, 0), (0, 0)], [(0, 1), (0, 0)]], [], [(0, 0, 1, (0, 0))])
    nodes = Graph(drawn(of(t, w), None, False)).nodes
    expect("ranges where ways meet", [nodes[p][0][2:] for p in range(3)], [["v0 0..1, v1 0"], ["v0 0"], []])
    # the same with another range at the end, which differs on both
    w = proposal(t, [0] * 3, [[(0, 1), (0, 0)], [(0, 0), (0, 0)], [(0, 2), (0, 0)]], [], [(0, 0, 1, (0, 0))])
    nodes = Graph(drawn(of(t, w), None, False)).nodes
    expect("ranges that differ where ways meet", [nodes[p][0][2:] for p in range(3)], [["v0 0..1, v1 0"], ["v0 0"], ["v0 0..2"]])


def one_task(answer):
    names = ["lift", "turntable", "ring", "board"]
    for u, name in enumerate(names):
        by_name, by_number = [drawn(answer, key, False) for key in (name, str(u))]
        expect("one task by its number", by_number, by_name)
        expect("one task", (Graph(by_name).titles, set(Graph(by_name).tasks.values())), ({u: ["task %d (%s)" % (u, name)]}, {u}))
        whole = Graph(drawn(answer, None, False))
        expect("one task is drawn as in the whole", Graph(by_name).nodes, {p: node for p, node in whole.nodes.items() if whole.tasks[p] == u})
    for key in ("t0", "4", "-1", "Lift", ""):
        try:
            drawn(answer, key, False)
            message = None
        except Bad as problem:
            message = str(problem)
        expect("no such task", message, "--task: there is no task '%s': the table has lift, turntable, ring, board" % key)


def hostile():
    """Names and formulas of any length and any letters: they are read back as they are, and no line is longer than a box is wide."""
    names = ['a"b', "a\\lb\\", "\\N\\G\\", "&lt;&amp;", "<b>{|}</b>", "%s%d"]
    names += ["日本" * 99, "e\u0301" * 99, "\u0e01\u0e33" * 99, "ع" * 99, "x" * 200, "W" * 33, "x" * 32, "\U0001d54f" * 70]
    for name in names:
        given = Given()
        given.sections, given.names = {"table": BARE, "proposal": BARE_PROPOSAL[:-2] + [4, 5]}, {"v0": name, "t1": name + "_"}
        answer = Checked(LIBRARY, given)
        graph = Graph(drawn(answer, None, False))
        expect("a name %r" % name[:9], [graph.text(p) for p in (0, 1)], ["0%s:=5%s0" % (name, name), "1end%s5" % name])
        expect("a name %r in a refusal" % name[:9], graph.text(2), "2end" + joined("!" + line for line in told(answer)) + name + "0..4")
        expect("a name %r of a task" % name[:9], joined(graph.titles[1]), "task1(%s_)" % name)
        expect("a name %r in lines" % name[:9], [line for lines, _ in graph.nodes.values() for line in lines if columns_of(line) > COLUMNS], [])
        expect("a name %r in titles" % name[:9], [line for lines in graph.titles.values() for line in lines if columns_of(line) > COLUMNS], [])
    # a name with an end of line, which only a caller of the library can give
    given.names = {"v0": "a\nb\0c\u2028d"}
    lines = drawn(Checked(LIBRARY, given), None, False)
    expect("a name with ends of lines", ([c for line in lines for c in line if c in "\n\0\u2028"], Graph(lines).nodes[1][0]), ([], ["1", "end", "a\ufffdb\ufffdc\ufffdd 5"]))
    # v0 + v0 + ...: 1023 nodes, an alarm at every sum
    nodes = [[2, 0]]
    while len(nodes) < 1023:
        nodes += [[2, 0], [4, len(nodes) - 1, len(nodes)]]
    t = table([1], 0, [[[1, 0, 1022, 0]]], nodes)
    given.sections, given.names = {"table": t, "proposal": proposal(t, [0], [[(MIN, MAX)]], [], [(0, 0, 0, (MIN, MAX))])}, {"v0": "length"}
    answer = Checked(LIBRARY, given)
    graph = Graph(drawn(answer, None, False))
    lines = graph.nodes[0][0]
    expect("a long formula", (answer.line, joined(lines).startswith("0length:=length" + "+length" * 511 + "!node2overflow:length+length")), ("accepted 511", True))
    expect("a long formula in lines", max(map(columns_of, lines)) <= COLUMNS, True)
    expect("a long formula's alarms", re.findall(r"!node(\d+)overflow", joined(lines)), [str(n) for n in range(2, 1023, 2)])


# ---- the tower
def tower():
    answer = Checked(LIBRARY, given_in([os.path.join(TOWER, "tower.txt")], ("table", "proposal")))
    one_task(answer)
    graph = Graph(drawn(answer, None, False))
    expect("the tower's tasks", [joined(graph.titles[u]) for u in range(4)], ["task0(lift)", "task1(turntable)", "task2(ring)", "task3(board)"])
    expect("the tower's red points", [p for p, (_, look) in graph.nodes.items() if look == RED], [14, 24])
    expect("the tower's sum", sources(answer, 14), ["offset MIN..MAX: written by turntable itself at 14, holding drive (entry 4)"])
    expect("the tower's quotient", sources(answer, 24), ["doors 0..12: written by ring, holding shaft+drive (entry 5)"])
    rows = {2: ["doors 1..12"], 3: ["floor 0..8, goal 1..9"], 4: [], 12: ["doors 1..12"], 19: ["doors 0..12"], 20: ["doors 0"], 21: ["doors 1..12"]}
    expect("the tower's ranges", {p: graph.nodes[p][0][2:] for p in rows}, rows)
    wrong = Checked(LIBRARY, given_in([os.path.join(TOWER, "wrong.txt")], ("table", "proposal")))
    graph_wrong = Graph(drawn(wrong, None, False))
    expect("wrong.txt", (graph_wrong.title, {p: look for p, (_, look) in graph_wrong.nodes.items() if look}), (["refused 14 write at 19"], {19: ORANGE}))
    expect("wrong.txt, its words", joined("!" + line for line in told(wrong)) in graph_wrong.text(19), True)
    kept(graph)


def kept(graph):
    """The picture in examples/tower is this one, and can be read in a page."""
    with open(os.path.join(TOWER, "tower.svg"), encoding="utf-8") as file:
        svg = file.read()
    plain = lambda text: " ".join(text.split())
    texts = [plain(html.unescape(text)) for text in re.findall(r"<text [^>]*>(.*)</text>", svg)]
    want = graph.title + [line for lines in graph.titles.values() for line in lines] + [line for lines, _ in graph.nodes.values() for line in lines]
    expect("examples/tower/tower.svg", sorted(texts), sorted(map(plain, want + [label for _, _, label in graph.edges if label])))
    ways = [html.unescape(way) for way in re.findall(r'class="edge">\n<title>(.*)</title>', svg)]
    expect("examples/tower/tower.svg, its edges", sorted(ways), sorted("p%d->p%d" % (min(p, q), max(p, q)) for p, q, _ in graph.edges))
    looks = re.findall(r'class="node">\n<title>p(\d+)</title>\n<polygon fill="(.*?)" stroke="(.*?)"', svg)
    expect("examples/tower/tower.svg, its red points", sorted(int(p) for p, fill, stroke in looks if (fill, stroke) == ("#ffd8d8", "red")), [14, 24])
    expect("examples/tower/tower.svg, its other points", len([p for p, fill, stroke in looks if (fill, stroke) == ("none", "black")]), len(graph.nodes) - 2)
    wide, units = [float(z) for z in re.search(r'<svg width="(\d+)pt" height="\d+pt"\s+viewBox="0.00 0.00 ([\d.]+) ', svg).groups()]
    natural = wide * 4 / 3  # pixels: a point is 1/72 of an inch, a pixel 1/96
    expect("examples/tower/tower.svg, its width", natural <= PAGE, True)
    heights = [float(size) * natural / units for size in re.findall(r'<text [^>]*font-size="([\d.]+)"', svg)]
    expect("examples/tower/tower.svg, its letters", min(heights) >= 10, True)
    across = re.findall(r"<polygon [^>]*points=\"([^\"]*)\"|<path [^>]*d=\"([^\"]*)\"", svg)
    inside = [-5 <= float(x) <= units for parts in across for x in re.findall(r"(-?[\d.]+),", " ".join(parts))]
    expect("examples/tower/tower.svg, within its width", all(inside), True)


def picturing():
    """All pictures. A case is a table, a proposal and the lines of the answer."""
    bare()
    looped()
    causes()
    hostile()
    tower()
    count, seen = 0, dict.fromkeys(("red", "dashed", "left out", "own", "other", "start", "row", "alone"), 0)
    for t, w, want in DRAWN:
        if not refusal(want) or refusal(want)[0] >= 12:
            for every in (False, True):
                compared(of(t, w), t, w, want, every, seen)
                count += 1
    expect("pictures with red and dashed points, with alarms that a write brings, and with ranges left out", [what for what in ("red", "dashed", "own", "left out") if seen[what] == 0], [])
    for t, w, want in BY_HAND:  # every refusal, whatever the words are
        answer = of(t, w)
        graph = Graph(drawn(answer, None, False))
        boxes = [p for p, (_, look) in graph.nodes.items() if look == ORANGE]
        expect("picture of %s" % want[0], (graph.title[0], boxes), (want[0], [answer.point()] if answer.table and answer.point() is not None else []))
        if answer.number:
            where = graph.text(boxes[0]) if boxes else joined(graph.title[1:])
            expect("picture of %s, its words" % want[0], joined(("!" if boxes else "") + line for line in told(answer)) in where, True)
        count += 1
    tried("pictures", count)
