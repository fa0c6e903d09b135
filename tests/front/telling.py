"""What is told of refusals, and the ranges in it."""
import re
from .common import (
    BARE, BARE_PROPOSAL, BARE_SHOWN, BARE_TEXT, BY_HAND, CASES, DISTURBED, DISTURBED_TEXT, DRAWN, MAX, MIN, Parts, Proposed, SOUND, SOUND_PROPOSAL, TOWER,
    as_bytes, cases, ends, expect, holds, lines, of, printed, refusal, shown, tower, tried, with_ends, with_entry,
)

DISTURBED_SHOWN = ["refused 15 disturb at 2", "  point 2 of task 1, holding none: end", "  entry 0: task 0, holding none, writes v0 5", "  its row has only v0 0..4"]# what is told of some faults by hand, by number and place
TOLD = {
    (1, 4): ["the table has 4 words, and its sizes alone are 5"],
    (1, 105): ["the table has 105 words, and its sizes call for 106"],
    (2, 4): ["word 4 of the table, the number of nodes, is 1025; it must lie in 0..1024"],
    (3, 1): ["task 1 has 0 points; it needs one at least"],
    (3, 3): ["the tasks have 4 + 4 + 5 = 13 points, and the table has 12"],
    (4, 5): ["node 5 is the words 10 3 4 0", "there is no such kind"],
    (5, 7): ["point 7 of task 1 is the words 5 1 5 4", "there is no such kind"],
    (6, 9): ["node 9, which is input(1..2) * MAX, is used 2 times: by point 11, node 11"],
    (7, 3): ["the proposal has 3 words, and its sizes alone are 4"],
    (7, 101): ["the proposal has 101 words, and its sizes call for 102"],
    (8, 2): ["word 2 of the proposal, the number of mutexes, is 1; the table has 2"],
    (8, 3): ["word 3 of the proposal, the number of entries, is 513; it must lie in 0..512"],
    (9, 10): ["word 10 of the proposal, the held word of point 6 of task 1, is 4; it must be -1 or lie in 0..3"],
    (9, 26): ["word 26 of the proposal, the held set of entry 3, is 4; it must lie in 0..3"],
    (9, 47): ["word 47 of the proposal, the low end of v1 in the row of point 6 of task 1, is 4, above its high end 3"],
    (9, 61): ["word 61 of the proposal, the low end of v1 in the rest row of m1, is 4, above its high end 3"],
    (9, 65): ["word 65 of the proposal, the low end of entry 3, is 10, above its high end 9"],
    (10, 4): [
        "entry 3: task 1, holding m0, writes v0 0..9", "entry 4: task 0, holding m0, writes v1 -3..3", "the second must come after the first by task, set, variable",
    ],
    (11, 4): ["point 4 of task 1 is a first point, and its held word is -1; it must be 0"],
    (11, 8): ["point 8 of task 2 is a first point, and its row lacks the start: v1 0 is not within 1..3"],
    (11, 13): ["the rest row of m1 lacks the start: v1 0 is not within 1..3"],
    (12, 2): ["point 2 of task 0, holding m0: unlock m0, on to 3", "it brings the held set none", "point 3 has the held set m1"],
    (13, 2): ["point 2 of task 0, holding m0: unlock m0, on to 3", "on to 3 it brings v0 0..9, and point 3 has only 0..8"],
    (14, 3): ["point 3 of task 0, holding none: v1 := input(-3..3), on to 0", "it writes v1 -3..3, which must be filed under: task 0, holding none, writes v1", "there is no such entry"],
    (14, 7): [
        "point 7 of task 1, holding none: v1 := 3 / v0, on to 4", "it writes v1 0..3, which must be filed under: task 1, holding none, writes v1",
        "entry 2: task 1, holding none, writes v1 -3..2, which is too narrow",
    ],
    (15, 4): ["point 4 of task 1, holding none: lock m0, on to 5", "entry 1: task 0, holding m0, writes v0 -1..9", "its row has only v0 0..9"],
    (16, 6): ["point 6 of task 1, holding m0: unlock m0, on to 7", "against the rest row of m0: v0 0..9 is not within 0..8"],
    (16, 12): ["entry 0: task 0, holding none, writes v1 -3..3", "the rest row of m1 has only v1 -2..3"],
}


def marks(printed_lines):
    """The lines that show marks as refused, each with the line above."""
    return [(above.split(), line.strip()) for above, line in zip(printed_lines, printed_lines[1:]) if line.strip().startswith("! refused")]


def row_of(k, v):
    """Which of the sound proposal's ends are those of a variable in a row."""
    return 2 * k + v


def entry_of(i):
    return 28 + i


def with_changes(changes):
    """The sound proposal with other ends."""
    w = SOUND_PROPOSAL
    for at, pair in changes.items():
        w = with_ends(SOUND, w, at, pair)
    return w


def filed(t, w, i):
    """An entry as it is told."""
    (u, held, v), r = Proposed(t, w).heads[i], Proposed(t, w).ranges[i]
    return "entry %d: task %d, holding %s, writes v%d %s" % (i, u, holds(t, held), v, ends(*r))


def is_inside(inner, outer):
    return outer[0] <= inner[0] and inner[1] <= outer[1]


def told_of_entries(t, w, rule, place):
    """What is told of refusals 15 and 16 after the point, by the rules of docs/FORMAT.md."""
    parts, table = Proposed(t, w), Parts(t)
    entries = list(enumerate(zip(parts.heads, parts.ranges)))
    if rule == 15:
        own = table.owner[place], parts.held[place]
        i, v = next((i, v) for i, ((u, held, v), r) in entries if u != own[0] and held & own[1] == 0 and not is_inside(r, parts.rows[place][v]))
        return [filed(t, w, i), "its row has only v%d %s" % (v, ends(*parts.rows[place][v]))]
    if place < t[3]:
        m = table.points[place][1]
        outside = ["v%d %s is not within %s" % (v, ends(*a), ends(*b)) for v, (a, b) in enumerate(zip(parts.rows[place], parts.rests[m])) if not is_inside(a, b)]
        return ["against the rest row of m%d: %s" % (m, ", ".join(outside))]
    (_, held, v), r = entries[place - t[3]][1]
    lacking = [m for m in range(t[2]) if not held >> m & 1 and not is_inside(r, parts.rests[m][v])]
    return ["the rest row of m%d has only v%d %s" % (m, v, ends(*parts.rests[m][v])) for m in lacking]


def shown_refusals():
    told = set()
    for t, w, answer in BY_HAND + DRAWN:
        broken = refusal(answer)
        if broken is None:
            continue
        rule, place = broken
        case = "%s, at %s | %s" % (answer[0], t, w)
        got = shown(t, w)
        if TOLD.get(broken, [""]) == [line[2:] for line in got[1 : 1 + len(TOLD.get(broken, []))]]:
            told.add(broken)
        if rule in (15, 16):
            want = told_of_entries(t, w, rule, place)
            expect("what is told of entries, %s" % case, (want != [], got[2 : 2 + len(want) + 1]), (True, ["  " + line for line in want] + [""]))
        points = t[3] if rule >= 3 else 0
        if rule in (12, 13, 14, 15) or rule in (5, 11, 16) and place < points:
            expect("show marks the point, %s" % case, [above[0] for above, _ in marks(got)], [str(place)])
        if rule == 10 or rule == 16 and place >= points:
            expect("show marks the entry, %s" % case, [above[0] for above, _ in marks(got)], [str(place if rule == 10 else place - points)])
        if rule == 11 and place >= points:
            expect("show marks the rest row, %s" % case, [above[0] for above, _ in marks(got)], ["m%d" % (place - points)])
        tried("refusals told")
    expect("what is told of refusals", sorted(told), sorted(TOLD))


def showing():
    expect("show on Bare", lines("show", given=BARE_TEXT.encode()), BARE_SHOWN)
    expect("show on Bare in bytes", lines("show", given=as_bytes(BARE, BARE_PROPOSAL)), BARE_SHOWN)
    got = shown(BARE, DISTURBED)
    expect("show on Bare disturbed", got[:4], DISTURBED_SHOWN)
    expect("show marks the point", marks(got), [(["2", "none", "0..4", "end"], "! refused 15 disturb at 2")])
    expect("check on Bare disturbed", tower("check", given=DISTURBED_TEXT.encode())[1].splitlines(), ["<stdin>:1:39: " + DISTURBED_SHOWN[0]] + DISTURBED_SHOWN[1:])
    shown_refusals()
    # 15: neither an entry of the task itself disturbs nor one whose held set isn't disjoint
    for changes, place, entry, has in (
        ({entry_of(1): (0, 13), entry_of(5): (0, 12)}, 0, "entry 5: task 2, holding m0, writes v0 0..12", "v0 0..9"),
        ({entry_of(3): (0, 12), entry_of(4): (-4, 3), row_of(0, 0): (0, 12), row_of(0, 1): (-4, 3)}, 1, "entry 4: task 2, holding none, writes v1 -4..3", "v1 -3..3"),
    ):
        got = shown(SOUND, with_changes(changes))
        expect("show on %s" % changes, [got[0]] + got[2:4], ["refused 15 disturb at %d" % place, "  " + entry, "  its row has only " + has])
    # 16: an entry under a mutex has no say in that mutex's rest row
    changes = {entry_of(1): (0, 12), **{row_of(p, 0): (0, 12) for p in (4, 7, 8, 11)}}
    want = ["refused 16 rest at 13", "  entry 1: task 0, holding m0, writes v0 0..12", "  the rest row of m1 has only v0 0..9", ""]
    expect("show on %s" % changes, shown(SOUND, with_changes(changes))[:4], want)
    # one node above another to the depth that a table allows, one used by two; one that is its own child, and other bad fields
    deep = [1, 1, 0, 2, 1024, 2, 0, 1, 0, 1023, 1, 0, 0, 0, 0, 2, 0, 0, 0] + sum(([3, n, 0, 0] for n in range(1023)), [])
    expect("show on a deep formula", "  0      v0 := -%sv0%s, on to 1" % ("(-" * 1022, ")" * 1022) in shown(deep, []), True)
    for command in ("check", "show", "picture", "decode"):
        expect("%s on a deep formula" % command, tower(command, given=as_bytes(deep, []))[2], 0 if command == "decode" else 1)
    twice = [1, 1, 0, 1, 15, 1, 0, 1, 0, 14, 0, 2, 0, 0, 0] + sum(([4, n, n, 0] for n in range(14)), [])
    got = shown(twice, [])
    expect("show on nodes used twice", (got[1], got[-1]), ("  node 0, which is v0, is used 2 times: by node 1, node 1", "  0      v0 := node(13) + node(13), on to 0"))
    for node, told in (
        ([3, 0, 0, 0], "kind 3 is followed by: arithmetic node, 0, 0; a node that it names comes before it"),
        ([1, 2, 1, 0], "kind 1 is followed by: a low end, a high end not below it, 0"),
    ):
        got = shown([1, 1, 0, 1, 1, 1, 0, 1, 0, 0, 0] + node, [])
        expect("show on the node %s" % node, got[:3], ["refused 4 node at 0", "  node 0 is the words %d %d %d %d" % tuple(node), "  " + told])
    got = shown([1, 1, 0, 1, 0, 1, 0, 3, 0, 0, 0], [])
    expect("show on a point", got[:3], ["refused 5 point at 0", "  point 0 of task 0 is the words 3 0 0 0", "  kind 3 is followed by: mutex, target, 0; a target is a point of the same task"])
    # end; v0 := 9 / v0, which nothing goes to
    never = [1, 1, 0, 2, 3, 2, 0, 0, 0, 0, 0, 1, 0, 2, 0, 0, 9, 0, 0, 2, 0, 0, 0, 7, 0, 1, 0]
    expect("show on a point that isn't reached", shown(never, [2, 1, 0, 0, 0, -1, 0, -1, 0, 4])[-1], "  1      never  -   v0 := 9 / v0, on to 0")


# ---- the ranges that are told of refusals 13 and 14
FLOW = re.compile(r"(?:(yes|no), )?on to (\d+) it brings v(\d+) (\S+), and point (\d+) has only (\S+)")
WRITTEN = re.compile(r"it writes v(\d+) (\S+), which must be filed under: task (\d+), holding (\S+), writes v(\d+)")


def ends_of(text):
    found = [{"MIN": MIN, "MAX": MAX}.get(z) or int(z) for z in text.split("..")]
    return found[0], found[-1]


def flow_of(t, w):
    """The refusal, and of a 13 what it speaks of: the side of a test, the target and the variable; and the range that is told to arrive."""
    answer = of(t, w)
    if answer.number != 13:
        return (answer.number, answer.place), None, None
    told = list(TOWER.told(answer))
    found = FLOW.fullmatch(told[-1])
    if not found:
        expect("what is told of %s | %s" % (t, w), told, "a range that arrives")
        return (13, answer.place), None, None
    side, q, v, brought, again, has = found.groups()
    expect("the target's row, %s | %s" % (t, w), (again, ends_of(has)), (q, Proposed(t, w).rows[int(q)][int(v)]))
    return (13, answer.place), (side, int(q), int(v)), ends_of(brought)


def arrives(t, w):
    """Whether the told range is just what arrives: with it in the target's row the refusal no longer speaks of that, and with one less at either end it
    does, unless a rule or a place before it is broken then."""
    (_, p), what, (low, high) = before = flow_of(t, w)
    _, q, v = what
    case = "%s of %s | %s" % (before, t, w)
    has = Proposed(t, w).rows[q][v]
    expect("what arrives is outside, %s" % case, has[0] <= low and high <= has[1], False)
    if q == p:
        return 0
    at, asked = t[1] * q + v, 0
    broken, again, _ = flow_of(t, with_ends(t, w, at, (low, high)))
    expect("what arrives fits, %s" % case, (broken, again) == ((13, p), what), False)
    for pair in ((low + 1, MAX),) * (low < MAX) + ((MIN, high - 1),) * (high > MIN):
        after = flow_of(t, with_ends(t, w, at, pair))
        if after[0] >= (13, p) or after[0][0] == 0:
            expect("one less than what arrives, %s, %s" % (pair, case), (after[0], after[1][1:]), (before[0], what[1:]))
            asked += 1
    return asked


def is_filed(t, w):
    """The same of what is written and the entry's range, which is put there if there is none."""
    answer = of(t, w)
    p, told = answer.place, list(TOWER.told(answer))
    found = WRITTEN.fullmatch(told[1])
    case = "%s of %s | %s" % (told, t, w)
    if not found:
        expect("what is told is written, %s" % case, told[1], "a range that is written")
        return 0
    v, brought, u, held, again = found.groups()
    (low, high), parts, table = ends_of(brought), Proposed(t, w), Parts(t)
    head = [table.owner[p], parts.held[p], table.points[p][1]]
    expect("the head, %s" % case, (int(u), held, int(v), int(again)), (head[0], holds(t, head[1]), head[2], head[2]))
    if head in parts.heads:
        i = parts.heads.index(head)
        expect("the entry, %s" % case, told[2], "entry %d: task %s, holding %s, writes v%s %s, which is too narrow" % (i, u, held, v, ends(*parts.ranges[i])))
        filed = lambda pair: with_ends(t, w, (t[3] + t[2]) * t[1] + i, pair)
    else:
        expect("no entry, %s" % case, told[2], "there is no such entry")
        if len(parts.heads) == 512:
            return 0
        filed = lambda pair: with_entry(t, w, head, pair)
    asked = 0
    now = of(t, filed((low, high)))
    expect("what is written fits, %s" % case, (now.number, now.place) == (14, p) or now.number in range(1, 14), False)
    for pair in ((low + 1, MAX),) * (low < MAX) + ((MIN, high - 1),) * (high > MIN):
        now = of(t, filed(pair))
        if (now.number, now.place) >= (14, p) or now.number == 0:
            expect("one less than what is written, %s, %s" % (pair, case), (now.number, now.place), (14, p))
            asked += 1
    return asked


def ranges_told():
    asked = {13: 0, 14: 0}
    for t, w, answer in BY_HAND + DRAWN + list(cases(printed(CASES, "600", "7"))):
        rule = (refusal(answer) or (0,))[0]
        if rule in asked:
            asked[rule] += (arrives if rule == 13 else is_filed)(t, w)
            tried("ranges told")
    tried("ends of ranges", sum(asked.values()))
    expect("enough ends that could be asked for, %s" % asked, min(asked.values()) >= 100, True)
