"""Words as text again, a comment for each line, with the names that were given."""
from .parts import SIZES, proposal_of, span, table_of

MARK = "  # "


def lined(rows):
    """Lines of words and what each is, the comments under one another; a row without words is a comment by itself, and None an empty line."""
    width = max((len(words) for words, _ in filter(None, rows)), default=0)
    for row in rows:
        yield "" if row is None else (row[0].ljust(width) + MARK if row[0] else "# ") + row[1]


def spaced(words):
    return " ".join(map(str, words))


def named(given):
    """The comments that give names, by sort and number."""
    for what in sorted(given.names, key=lambda what: ("tmv".index(what[0]), int(what[1:]))):
        yield "# name %s %s" % (what, given.names[what])


def plain(words):
    """Words that can't be cut into parts: ten in a line, each line with the number of its first."""
    return lined([(spaced(words[k : k + 10]), "from word %d on" % k) for k in range(0, len(words), 10)])


def table_rows(table, words):
    names = [table.name("v", v) for v in range(table.variables)]
    yield spaced(words[:5]), ", ".join(SIZES)
    yield spaced(table.shares), "points of " + ", ".join(table.task(u) for u in range(table.tasks))
    yield spaced(table.starts), "starting values of " + ", ".join(names)
    for u in range(table.tasks):
        yield None
        yield "", "points of " + table.task(u)
        for p in range(table.firsts[u], table.firsts[u] + table.shares[u]):
            yield spaced(table.points[p]), "%d: %s" % (p, table.instruction(p))
    if table.nodes:
        yield None
        yield "", "nodes"
    for n, four in enumerate(table.nodes):
        users = ["%s %d" % use for use in table.uses[n]]
        yield spaced(four), "%d: %s, for %s" % (n, table.formula(n), " and ".join(users) or "nothing")


def held_rows(table, proposal):
    yield "", "held words"
    for u in range(table.tasks):
        mine = proposal.held[table.firsts[u] : table.firsts[u] + table.shares[u]]
        yield spaced(mine), "%s: %s" % (table.task(u), ", ".join(map(table.held, mine)))


def end_rows(table, proposal, side, what):
    """The low or the high ends of all rows and entries."""
    yield "", "%s ends of %s" % (what, ", ".join(table.name("v", v) for v in range(table.variables)))
    for p, row in enumerate(proposal.rows):
        yield spaced(ends[side] for ends in row), table.point(p)
    for m, rest in enumerate(proposal.rests):
        yield spaced(ends[side] for ends in rest), "while nobody has %s" % table.name("m", m)
    for i, ends in enumerate(proposal.ranges):
        yield str(ends[side]), "entry %d: %s" % (i, table.name("v", proposal.heads[i][2]))


def proposal_rows(table, proposal, words):
    yield spaced(words[:4]), "points, variables, mutexes, entries"
    yield None
    yield from held_rows(table, proposal)
    if proposal.heads:
        yield None
        yield "", "entries: task, held set, variable"
    for i, head in enumerate(proposal.heads):
        yield spaced(head), "%d: %s %s" % (i, table.head(head), span(*proposal.ranges[i]))
    for side, what in enumerate(("low", "high")):
        yield None
        yield from end_rows(table, proposal, side, what)


def section(given, mark, table, proposal):
    """A section from its mark on, cut into its parts where that can be done."""
    words = given.sections[mark]
    if mark == "table" and table:
        return [mark, *lined(list(table_rows(table, words)))]
    if mark == "proposal" and proposal:
        return [mark, *lined(list(proposal_rows(table, proposal, words)))]
    return [mark, *plain(words)]


def decoded(given):
    """All lines: each section that was given."""
    table = table_of(given)
    proposal = proposal_of(table, given)
    lines = list(named(given))
    for mark in given.sections:
        lines += ([""] if lines else []) + section(given, mark, table, proposal)
    return lines
