"""A table, a proposal and the checker's answer for people: each task's points with held set, row and instruction, formulas written out, each alarm under
the formula that it belongs to; then the rest rows and the entries. Of a refusal, what it speaks of in words."""
from .parts import SIZES, counted, span, wide
from .refusals import told


def grid(rows):
    """Rows of cells under one another; what follows the cells of a row stands under its last cell."""
    cells = [row for row, _ in rows]
    widths = [max(wide(row[k]) for row in cells) for k in range(len(cells[0]) - 1)]
    for row, below in rows:
        yield "  " + "  ".join([cell + " " * (width - wide(cell)) for cell, width in zip(row, widths)] + [row[-1]])
        for line in below:
            yield " " * (2 + sum(widths) + 2 * len(widths)) + line


def task_lines(answer, u):
    table, proposal = answer.table, answer.proposal
    names = [table.name("v", v) for v in range(table.variables)] if proposal else []
    rows = [(["point"] + (["holds"] if proposal else []) + names + ["instruction"], [])]
    for p in range(table.firsts[u], table.firsts[u] + table.shares[u]):
        known = []
        if proposal:
            held = proposal.held[p]
            known = [table.held(held)] + [span(*ends) if held != -1 else "-" for ends in proposal.rows[p]]
        below = ["! node %d %s: %s" % (*alarm, table.formula(alarm.node)) for alarm in answer.alarms_at(p)]
        rows.append(([str(p)] + known + [table.instruction(p)], below + marked(answer, answer.point() == p)))
    return [table.task(u)] + list(grid(rows))


def marked(answer, here):
    return ["! " + answer.line] if here else []


def rest_lines(answer):
    table, proposal = answer.table, answer.proposal
    rows = [(["mutex"] + [table.name("v", v) for v in range(table.variables)], [])]
    for m, rest in enumerate(proposal.rests):
        here = answer.number == 11 and answer.place == len(table.points) + m
        rows.append(([table.name("m", m)] + [span(*ends) for ends in rest], marked(answer, here)))
    return ["while nobody has the mutex"] + list(grid(rows))


def entry_lines(answer):
    table, proposal = answer.table, answer.proposal
    rows = [(["entry", "task", "holds", "writes"], [])]
    for i, ((u, held, v), r) in enumerate(zip(proposal.heads, proposal.ranges)):
        rows.append(([str(i), table.name("t", u), table.held(held), "%s %s" % (table.name("v", v), span(*r))], marked(answer, answer.entry() == i)))
    return ["what is written"] + list(grid(rows))


def shown(answer):
    """All lines."""
    table, proposal = answer.table, answer.proposal
    lines = [answer.line]
    if answer.number:
        lines += ["  " + line for line in told(answer)]
    lines += ["  " + answer.told(alarm) for alarm in answer.alarms]
    if table is None:
        return lines
    counts = (table.tasks, table.variables, table.mutexes, len(table.points), len(table.nodes))
    counts = [counted(*pair) for pair in zip(counts, SIZES)] + ([counted(len(proposal.heads), "entries")] if proposal else [])
    lines += ["", ", ".join(counts)]
    lines.append("at the start: " + table.row([(z, z) for z in table.starts]))
    for u in range(table.tasks):
        lines += [""] + task_lines(answer, u)
    if proposal and table.mutexes:
        lines += [""] + rest_lines(answer)
    if proposal and proposal.heads:
        lines += [""] + entry_lines(answer)
    return lines


# ---- the same as JSON
def shown_json(answer):
    """The answer, with what it says of a refusal, and the table's and the proposal's parts; null for what the words can't be cut into."""
    table, proposal = answer.table, answer.proposal
    whole = {**answer.json(), "told": told(answer) if answer.number else []}
    for part, made in (("tasks", tasks_json), ("points", points_json), ("rests", rests_json), ("entries", entries_json)):
        whole[part] = made(table, proposal) if table and (proposal or part in ("tasks", "points")) else None
    return whole


def tasks_json(table, proposal):
    return [{"task": u, "name": table.name("t", u), "points": [table.firsts[u], table.firsts[u] + table.shares[u]]} for u in range(table.tasks)]


def row_json(table, row):
    return {table.name("v", v): list(ends) for v, ends in enumerate(row)}


def points_json(table, proposal):
    points = []
    for p in range(len(table.points)):
        known = {"held": None, "row": None}
        if proposal:
            known = {"held": proposal.held[p], "row": row_json(table, proposal.rows[p])}
        points.append({"point": p, "task": table.owner[p], **known, "instruction": table.instruction(p)})
    return points


def rests_json(table, proposal):
    return [{"mutex": m, "name": table.name("m", m), "row": row_json(table, rest)} for m, rest in enumerate(proposal.rests)]


def entries_json(table, proposal):
    return [{"task": u, "held": held, "variable": v, "low": r[0], "high": r[1]} for (u, held, v), r in zip(proposal.heads, proposal.ranges)]
