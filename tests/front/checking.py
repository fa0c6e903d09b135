"""Verdicts with their places, as text and as JSON, and runs."""
import random, re
from .common import (
    BY_HAND, CHECKER, DRAWN, MAX, MIN, Parts, Proposed, RUNNER, as_bytes, ends, expect, holds, json_of, lines, printed, refusal, text_of, tower, tried,
)
from .formulas import read_or_problem


# ---- the check: verdicts, places, JSON
def word_of(t, w, rule, place):
    """The section and the word in it that a refusal speaks of, by the layout of docs/FORMAT.md."""
    if rule in (1, 2, 7, 8, 9):
        return "table" if rule < 7 else "proposal", place
    tasks, variables, mutexes, points, _ = t[:5]
    base, heads = 5 + tasks + variables, 4 + points
    if rule == 3:  # a task's share, or the first if they don't sum
        return "table", 5 + (place if place < tasks else 0)
    if rule in (4, 6):
        return "table", base + 4 * (points + place)
    if rule == 10 or rule == 16 and place >= points:
        return "proposal", heads + 3 * (place if rule == 10 else place - points)
    if rule == 11 and place < points and w[4 + place] != 0:
        return "proposal", 4 + place
    if rule == 11:  # the low end of the first variable whose start isn't there
        low = heads + 3 * w[3] + variables * place
        high = low + (points + mutexes) * variables + w[3]
        return "proposal", low + next(v for v, start in enumerate(t[5 + tasks : base]) if not w[low + v] <= start <= w[high + v])
    return "table", base + 4 * place


def places(text):
    """Where each section's mark and then each of its words stands in a text, read here once more."""
    found, section = {}, None
    for l, line in enumerate(text.split("\n"), 1):
        for token in re.finditer(r"\S+", line.split("#")[0]):
            if token.group().isalpha():
                section = found[token.group()] = []
            section.append((l, token.start() + 1))
    return found


def token_at(text, line, column):
    return text.split("\n")[line - 1][column - 1 :].split()[0].split("#")[0]


def place_of(text, section, word):
    """Where a word stands, or the last if there are fewer, or the mark if there is none."""
    found = places(text)[section]
    line, column = found[min(1 + word, len(found) - 1)]
    return {"file": "<stdin>", "line": line, "column": column}


def prefix(place):
    return "%(file)s:%(line)d:%(column)d: " % place


def is_whole(t, w):
    """Whether a proposal has a table's sizes and the length that they call for."""
    return len(w) >= 4 and w[:3] == [t[3], t[1], t[2]] and 0 <= w[3] <= 512 and len(w) == 4 + t[3] + 3 * w[3] + 2 * ((t[3] + t[2]) * t[1] + w[3])


def blocks(t, w, instructions):
    """What show prints of the parts of a table and a proposal, as cells, a block for each part."""
    table, proposal, names = Parts(t), Proposed(t, w), ["v%d" % v for v in range(t[1])]
    counts = zip((*t[:5], w[3]), ("task", "variable", "mutex", "point", "node", "entry"), ("tasks", "variables", "mutexes", "points", "nodes", "entries"))
    starts = ", ".join("v%d %s" % (v, ends(z, z)) for v, z in enumerate(table.starts))
    yield [[", ".join("%d %s" % (count, one if count == 1 else many) for count, one, many in counts)], ["at the start: " + starts]]
    for u in range(table.tasks):
        points = [p for p, owner in enumerate(table.owner) if owner == u]
        rows = [[ends(*r) if proposal.held[p] != -1 else "-" for r in proposal.rows[p]] for p in points]
        yield [["task %d" % u], ["point", "holds", *names, "instruction"]] + [[str(p), holds(t, proposal.held[p]), *row, instructions[p]] for p, row in zip(points, rows)]
    if table.mutexes:
        yield [["while nobody has the mutex"], ["mutex", *names]] + [["m%d" % m, *(ends(*r) for r in rest)] for m, rest in enumerate(proposal.rests)]
    if proposal.heads:
        heads = [["t%d" % u, holds(t, held), "v%d %s" % (v, ends(*r))] for (u, held, v), r in zip(proposal.heads, proposal.ranges)]
        yield [["what is written"], ["entry", "task", "holds", "writes"]] + [[str(i), *head] for i, head in enumerate(heads)]


def parts_json(t, w, whole, case):
    """The parts of show's JSON against the words."""
    table, proposal = Parts(t), Proposed(t, w)
    row = lambda row: {"v%d" % v: list(r) for v, r in enumerate(row)}
    firsts = [table.owner.index(u) for u in range(table.tasks)]
    expect("tasks of %s" % case, whole["tasks"], [{"task": u, "name": "t%d" % u, "points": [first, first + table.shares[u]]} for u, first in enumerate(firsts)])
    got = [{key: point[key] for key in point if key != "instruction"} for point in whole["points"]]
    expect("points of %s" % case, got, [{"point": p, "task": table.owner[p], "held": proposal.held[p], "row": row(proposal.rows[p])} for p in range(t[3])])
    expect("rest rows of %s" % case, whole["rests"], [{"mutex": m, "name": "m%d" % m, "row": row(rest)} for m, rest in enumerate(proposal.rests)])
    entries = [{"task": u, "held": held, "variable": v, "low": low, "high": high} for (u, held, v), (low, high) in zip(proposal.heads, proposal.ranges)]
    expect("entries of %s" % case, whole["entries"], entries)


def alarms_checked(t, answer, text, told, case):
    """Each alarm of a check in JSON, with its point, its task, its formula and where its node stands; and the lines that say so."""
    table, said = Parts(t), []
    expect("the alarms of %s" % case, [(alarm["node"], alarm["kind"]) for alarm in told["alarms"]], [(int(line.split()[1]), line.split()[2]) for line in answer[1:]])
    for alarm in told["alarms"]:
        n = alarm["node"]
        p = table.point_of(n)
        at = place_of(text, "table", 5 + table.tasks + table.variables + 4 * (len(table.points) + n))
        want = {"node": n, "kind": alarm["kind"], "point": p, "task": table.owner[p], "name": "t%d" % table.owner[p], "formula": alarm["formula"], "at": at}
        expect("an alarm of %s" % case, alarm, want)
        expect("the word at an alarm of %s" % case, int(token_at(text, at["line"], at["column"])), table.nodes[n][0])
        expect("the formula of an alarm of %s" % case, read_or_problem(alarm["formula"], False), table.tree(n))
        said.append("node %d %s, at point %d of task %d: %s" % (n, alarm["kind"], p, table.owner[p], alarm["formula"]))
        tried("alarms")
    return said


def case_checked(t, w, answer, text):
    """All that check and show say of a case in text."""
    broken, case = refusal(answer), "%s, at %s | %s" % (answer[0], t, w)
    status = 1 if broken else 0
    out, error, ended = tower("check", given=text.encode())
    expect("check, %s" % case, (out.decode().splitlines(), ended), (answer, status))
    expect("check -q, %s" % case, tower("check", "-q", given=text.encode()), (out, "", status))
    told, whole = [json_of(command, given=text.encode(), status=status) for command in ("check", "show")]
    got = lines("show", given=text.encode(), status=status)
    expect("the same in show's JSON, %s" % case, {key: whole.get(key) for key in told}, told)
    number, place, word = (*broken, answer[0].split()[2]) if broken else (0, None, None)
    at = place_of(text, *word_of(t, w, *broken)) if broken else None
    want = {"verdict": "refused" if broken else "accepted", "number": number, "word": word, "place": place, "at": at, "count": len(answer) - 1}
    expect("JSON of %s" % case, {key: told[key] for key in told if key != "alarms"}, want)
    expect("the parts of JSON of %s" % case, list(whole), [*told, "told", "tasks", "points", "rests", "entries"])
    if broken:
        said = [prefix(at) + answer[0]] + ["  " + line for line in whole["told"]]
        expect("a refusal is told, %s" % case, whole["told"] != [] and told["alarms"] == [], True)
        expect("show's first lines, %s" % case, got[: len(said) + 1], ([answer[0]] + said[1:] + [""])[: len(got)])
        expect("where show says it stands, %s" % case, tower("show", given=text.encode())[1], said[0] + "\n")
        tried("refusals with their places")
    else:
        alarms = alarms_checked(t, answer, text, told, case)
        said = [prefix(alarm["at"]) + line for alarm, line in zip(told["alarms"], alarms)]
        expect("show's first lines, %s" % case, got[: len(said) + 2], [answer[0]] + ["  " + line for line in alarms] + [""])
    expect("what check says, %s" % case, error.splitlines(), said)
    if number > 3 and is_whole(t, w) or not broken:
        parts_json(t, w, whole, case)
        cut = [[re.split("  +", line.strip()) for line in block.split("\n") if not line.strip().startswith("!")] for block in "\n".join(got).split("\n\n")]
        expect("show's blocks, %s" % case, cut[1:], list(blocks(t, w, [point["instruction"] for point in whole["points"]])))
    else:
        expect("no proposal in JSON, %s" % case, (whole["rests"], whole["entries"], whole["tasks"] is None, whole["points"] is None), (None, None, number <= 3, number <= 3))


def checking():
    rng = random.Random(20261119)
    for t, w, answer in BY_HAND + DRAWN:
        parts = [("table", t), ("proposal", w)]
        rng.shuffle(parts)
        case_checked(t, w, answer, text_of(rng, parts))
        data = as_bytes(t, w)
        told = json_of("check", given=data, status=1 if refusal(answer) else 0)
        expect("no place in bytes, %s" % data, [told["at"]] + [alarm["at"] for alarm in told["alarms"]], [None] * len(answer))
        error = tower("check", given=data)[1].splitlines()
        expect("no place in bytes, on standard error, %s" % data, [line for line in error if not re.match(r"node \d|refused \d|  ", line)], [])
        tried("cases checked")
    expect("the rules that are refused", {refusal(answer)[0] for _, _, answer in BY_HAND + DRAWN if refusal(answer)}, set(range(1, 17)))
    # the program rangecheck prints the same, also of cases that are damaged
    for k, (t, w, _) in enumerate(rng.sample(BY_HAND + DRAWN, 60)):
        for _ in range(k % 3):
            part = rng.choice([part for part in (t, w) if part])
            at = rng.randrange(len(part))
            part = part[:at] + rng.choice(([], [rng.choice((0, 1, 2, -1, MIN, MAX, rng.randrange(-9, 30)))], part[at : at + 1] * 2)) + part[at + 1 :]
            t, w = rng.choice(((part, w), (t, part)))
        asked = printed(CHECKER, given=as_bytes(t, w))
        expect("as rangecheck, on %s | %s" % (t, w), tower("check", "-q", given=as_bytes(t, w)), (asked.encode(), "", asked.startswith("refused")))
        tried("cases as rangecheck")


# ---- runs
def state_of(whole, t):
    """The 48 words of a state in JSON."""
    tasks, variables, mutexes = t[:3]
    stops = [task["stopped"] for task in whole["tasks"]]
    parts = (
        (8, [task["point"] for task in whole["tasks"]]), (16, list(whole["variables"].values())), (8, [-1 if mutex["owner"] is None else mutex["owner"] for mutex in whole["mutexes"]]),
        (8, [stop["node"] if stop else -1 for stop in stops]), (8, [{"overflow": 1, "zero": 2}[stop["kind"]] if stop else 0 for stop in stops]),
    )
    return " ".join(str(z) for size, part in parts for z in part + [0] * (size - len(part)))


def run_lines(whole, t):
    """What run prints of a state in JSON."""
    yield "after the schedule's %d words" % whole["words"]
    for task in whole["tasks"]:
        yield "  task %d stands at %d: %s" % (task["task"], task["point"], task["instruction"])
        if task["stopped"]:
            yield "    ! stopped by node %(node)d %(kind)s: %(formula)s" % task["stopped"]
        elif task["waits"]:
            yield "    waits: task %(owner)d has m%(mutex)d" % task["waits"]
    yield "  " + ", ".join("%s %s" % (name, ends(value, value)) for name, value in whole["variables"].items())
    for mutex in whole["mutexes"]:
        yield "  %s: %s" % (mutex["name"], "free" if mutex["owner"] is None else "held by task %d" % mutex["owner"])


def running():
    rng = random.Random(20261120)
    played = []
    right = [case for case in DRAWN if (refusal(case[2]) or (7,))[0] > 6]
    for t, _, _ in rng.sample(BY_HAND, 30) + right[:80] + [case for case in DRAWN if case not in right]:
        played.append((t, [rng.choice((rng.randrange(4), rng.randrange(4), rng.randrange(-9, 10), rng.choice((MIN, MAX, 7)))) for _ in range(rng.randrange(120))]))
    asked = printed(RUNNER, given=b"".join(as_bytes(t, schedule) for t, schedule in played)).splitlines()
    expect("as many runs as cases", len(asked), len(played))
    seen = {"stopped": 0, "waits": 0, "refused": 0}
    for (t, schedule), want in zip(played, asked):
        text = text_of(rng, [("schedule", schedule), ("table", t)])
        broken = want.startswith("refused")
        whole = json_of("run", given=text.encode(), status=int(broken))
        got = lines("run", given=text.encode(), status=int(broken))
        case = "the run of %s by %s" % (t, schedule)
        expect("the words of %s" % case, whole["words"], len(schedule))
        if broken:
            said = "refused %d %s at %d" % (whole["number"], whole["word"], whole["place"])
            expect(case, (whole["verdict"], "refused %d at %d" % (whole["number"], whole["place"])), ("refused", want))
            expect("what is told of %s" % case, got, [said] + ["  " + line for line in whole["told"]])
            expect("the place of %s" % case, whole["at"], place_of(text, *word_of(t, [], whole["number"], whole["place"])))
            expect("no state of %s" % case, (whole["tasks"], whole["variables"], whole["mutexes"]), (None, None, None))
        else:
            table = Parts(t)
            expect(case, (state_of(whole, t), [whole[key] for key in ("verdict", "number", "word", "place", "at", "told")]), (want, ["played", 0, None, None, None, []]))
            expect("the lines of %s" % case, got, list(run_lines(whole, t)))
            for task in whole["tasks"]:
                kind, m = table.points[task["point"]][:2]
                owner = whole["mutexes"][m]["owner"] if kind == 3 else None
                expect("who waits in %s" % case, task["waits"], None if owner is None or task["stopped"] else {"mutex": m, "owner": owner})
                if task["stopped"]:
                    n = task["stopped"]["node"]
                    expect("where it stops in %s" % case, (task["point"], read_or_problem(task["stopped"]["formula"], False)), (table.point_of(n), table.tree(n)))
                seen["stopped"] += task["stopped"] is not None
                seen["waits"] += task["waits"] is not None
        seen["refused"] += broken
        tried("runs")
    expect("runs of every sort", [sort for sort, count in seen.items() if count < 5], [])
    expect("a run without a word", lines("run", given=b"table 1 1 0 1 0 1 7 0 0 0 0 schedule"), ["after the schedule's 0 words", "  task 0 stands at 0: end", "  v0 7"])
    got = tower("run", given=b"table 9 1 0 1 0 1 7 0 0 0 0 schedule 0")
    expect("a run of a refused table", got, (b"refused 2 size at 0\n  word 0 of the table, the number of tasks, is 9; it must lie in 1..8\n", "<stdin>:1:7: refused 2 size at 0\n", 1))
    many = "table 1 1 0 1 0 1 7 0 0 0 0 schedule" + " 0" * 20000
    expect("a run by many words", lines("run", given=many.encode())[0], "after the schedule's 20000 words")
