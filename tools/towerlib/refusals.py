"""Refusals in words: what the point, entry or word is that an answer names, and what is wrong with it."""
from .arriving import carried, inside, written
from .parts import LIMITS, SIZES, end, proposal_length, sized, span, table_length

FIELDS = {
    "point": {0: "0, 0, 0", 1: "variable, arithmetic node, target", 2: "condition node, target, target", 3: "mutex, target, 0", 4: "mutex, target, 0"},
    "node": {
        0: "a number, 0, 0", 1: "a low end, a high end not below it, 0", 2: "variable, 0, 0", 3: "arithmetic node, 0, 0", 8: "condition node, arithmetic node, arithmetic node",
        22: "condition node, 0, 0", **{kind: "arithmetic node, arithmetic node, 0" for kind in (4, 5, 6, 7, 9, 16, 17, 18, 19)},
        **{kind: "condition node, condition node, 0" for kind in (20, 21)},
    },
}


def of_table(given, number, place):
    """Refusals 1 to 3."""
    t = given.table
    if number == 1:
        return ["the table has %d words" % len(t) + (", and its sizes call for %d" % table_length(t[:5]) if sized(t) else ", and its sizes alone are 5")]
    if number == 2:
        return ["word %d of the table, the number of %s, is %d; it must lie in %d..%d" % (place, SIZES[place], t[place], *LIMITS[place])]
    shares = t[5 : 5 + t[0]]
    if place < t[0]:
        return ["task %d has %d points; it needs one at least" % (place, shares[place])]
    return ["the tasks have %s = %d points, and the table has %d" % (" + ".join(map(str, shares)), sum(shares), t[3])]


def of_four(table, what, place):
    """Refusals 4 and 5: four words and what they should be."""
    four = (table.points if what == "point" else table.nodes)[place]
    wants = FIELDS[what].get(four[0])
    told = ["%s is the words %s" % (table.point(place) if what == "point" else "node %d" % place, " ".join(map(str, four)))]
    if wants is None:
        return told + ["there is no such kind"]
    more = "; a node that it names comes before it" if what == "node" and "node" in wants else "; a target is a point of the same task" if "target" in wants else ""
    return told + ["kind %d is followed by: %s%s" % (four[0], wants, more)]


def of_sizes(table, given, number, place):
    """Refusals 7 and 8."""
    w, sizes = given.proposal, (len(table.points), table.variables, table.mutexes)
    if number == 7:
        return ["the proposal has %d words" % len(w) + (", and its sizes call for %d" % proposal_length(w[:4]) if len(w) >= 4 else ", and its sizes alone are 4")]
    name = ("points", "variables", "mutexes", "entries")[place]
    return ["word %d of the proposal, the number of %s, is %d; %s" % (place, name, w[place], "it must lie in 0..512" if place == 3 else "the table has %d" % sizes[place])]


def of_word(table, proposal, place):
    """Refusal 9: what a word of the proposal stands for."""
    points, sets = len(table.points), 2 ** table.mutexes
    if place < 4 + points:
        p = place - 4
        return ["word %d of the proposal, the held word of %s, is %d; it must be -1 or lie in 0..%d" % (place, table.point(p), proposal.held[p], sets - 1)]
    if place < proposal.lows:
        i, k = divmod(place - 4 - points, 3)
        name, limit = (("task", table.tasks), ("held set", sets), ("variable", table.variables))[k]
        return ["word %d of the proposal, the %s of entry %d, is %d; it must lie in 0..%d" % (place, name, i, proposal.heads[i][k], limit - 1)]
    i = place - proposal.lows
    k, v = divmod(i, table.variables)
    if k < points:
        where = "%s in the row of %s" % (table.name("v", v), table.point(k))
    elif k < points + table.mutexes:
        where = "%s in the rest row of %s" % (table.name("v", v), table.name("m", k - points))
    else:
        where = "entry %d" % (i - (points + table.mutexes) * table.variables)
    return ["word %d of the proposal, the low end of %s, is %s, above its high end %s" % (place, where, end(proposal.ends[i][0]), end(proposal.ends[i][1]))]


def stands(table, proposal, p):
    return "%s, holding %s: %s" % (table.point(p), table.held(proposal.held[p]), table.instruction(p))


def ranged(table, proposal, i):
    return "entry %d: %s %s" % (i, table.head(proposal.heads[i]), span(*proposal.ranges[i]))


def outside(table, inner, outer):
    """The variables whose range isn't within that of the other row."""
    return ", ".join("%s %s is not within %s" % (table.name("v", v), span(*x), span(*y)) for v, (x, y) in enumerate(zip(inner, outer)) if not inside(x, y))


def of_start(table, proposal, place):
    """Refusal 11."""
    starts = [(z, z) for z in table.starts]
    if place >= len(table.points):
        m = place - len(table.points)
        return ["the rest row of %s lacks the start: %s" % (table.name("m", m), outside(table, starts, proposal.rests[m]))]
    if proposal.held[place] != 0:
        return ["%s is a first point, and its held word is %d; it must be 0" % (table.point(place), proposal.held[place])]
    return ["%s is a first point, and its row lacks the start: %s" % (table.point(place), outside(table, starts, proposal.rows[place]))]


def of_locks(table, proposal, p):
    """Refusal 12."""
    held, (kind, m) = proposal.held[p], table.points[p][:2]
    told = [stands(table, proposal, p), "it brings the held set " + table.held(held + {3: 2 ** m, 4: -(2 ** m)}.get(kind, 0))]
    return told + ["point %d has the held set %s" % (q, table.held(proposal.held[q])) for _, q in table.targets(p)]


def of_flow(library, table, proposal, p):
    """Refusal 13: the smallest variable that is carried past a target's row."""
    told = [stands(table, proposal, p)]
    found = carried(library, table, proposal, p)
    if found is None:
        return told
    label, q, v, ends = found
    way = "%s, on to" % label if label in ("yes", "no") else label
    return told + ["%s %d it brings %s %s, and point %d has only %s" % (way, q, table.name("v", v), span(*ends), q, span(*proposal.rows[q][v]))]


def of_write(library, table, proposal, p):
    """Refusal 14: what is written, and the entries of that task and variable."""
    u, held, v = head = table.owner[p], proposal.held[p], table.points[p][1]
    filed = [i for i, other in enumerate(proposal.heads) if other == head]
    others = [i for i, other in enumerate(proposal.heads) if (other[0], other[2]) == (u, v) and i not in filed]
    told = [stands(table, proposal, p), "it writes %s %s, which must be filed under: %s" % (table.name("v", v), span(*written(library, table, proposal, p)), table.head(head))]
    told.append("%s, which is too narrow" % ranged(table, proposal, filed[0]) if filed else "there is no such entry")
    return told + ["%s, which is for another held set" % ranged(table, proposal, i) for i in others]


def of_others(table, proposal, p):
    """Refusal 15: the first entry that disturbs."""
    for i, ((u, held, v), r) in enumerate(zip(proposal.heads, proposal.ranges)):
        if u != table.owner[p] and held & proposal.held[p] == 0 and not inside(r, proposal.rows[p][v]):
            return [stands(table, proposal, p), ranged(table, proposal, i), "its row has only %s %s" % (table.name("v", v), span(*proposal.rows[p][v]))]
    return [stands(table, proposal, p)]


def of_rest(table, proposal, place):
    """Refusal 16."""
    if place < len(table.points):
        m = table.points[place][1]
        return [stands(table, proposal, place), "against the rest row of %s: %s" % (table.name("m", m), outside(table, proposal.rows[place], proposal.rests[m]))]
    i = place - len(table.points)
    (_, held, v), r = proposal.heads[i], proposal.ranges[i]
    lacking = [m for m in range(table.mutexes) if not held >> m & 1 and not inside(r, proposal.rests[m][v])]
    return [ranged(table, proposal, i)] + ["the rest row of %s has only %s %s" % (table.name("m", m), table.name("v", v), span(*proposal.rests[m][v])) for m in lacking]


def walked(table, u):
    """The held sets that walks over a task's instructions bring to each point, each with the point that they come from, or None at the start. A walk takes both
    sides of a test, and ends at a lock on what is held and at an unlock of what isn't."""
    brought, todo = {}, [(table.firsts[u], 0, None)]
    for p, held, before in todo:
        sets = brought.setdefault(p, {})
        kind, m = table.points[p][:2]
        changed = 2 ** m if kind in (3, 4) else 0
        if held not in sets and held & changed == (changed if kind == 4 else 0):
            todo += [(q, held ^ changed, p) for _, q in table.targets(p)]
        sets.setdefault(held, before)
    return brought


def of_walks(table, p):
    """Refusal 18: two of the held sets that are brought to a point, the least ones, and where from."""
    sets = walked(table, table.owner[p])[p]
    told = ["%s: %s" % (table.point(p), table.instruction(p))]
    for held in sorted(sets)[:2]:
        way = "a walk starts there with" if sets[held] is None else "from point %d a walk brings" % sets[held]
        told.append("%s the held set %s" % (way, table.held(held)))
    return told


def of_thresholds(thresholds, place):
    """Refusal 19."""
    if place == 32:
        return ["there are %d thresholds, and 32 at most are taken" % len(thresholds)]
    return ["threshold %d, which is %s, isn't above the one before it, %s" % (place, end(thresholds[place]), end(thresholds[place - 1]))]


def told(answer):
    """Lines that say what a refusal speaks of."""
    library, table, proposal, given, number, place = answer.library, answer.table, answer.proposal, answer.given, answer.number, answer.place
    if number <= 3:
        return of_table(given, number, place)
    if number <= 5:
        return of_four(table, "node" if number == 4 else "point", place)
    if number == 6:
        users = ", ".join("%s %d" % use for use in table.uses[place])
        return ["node %d, which is %s, is used %d times%s" % (place, table.formula(place), len(table.uses[place]), users and ": by " + users)]
    if number <= 8:
        return of_sizes(table, given, number, place)
    if number == 10:
        return [ranged(table, proposal, place - 1), ranged(table, proposal, place), "the second must come after the first by task, set, variable"]
    if number in (13, 14):
        return (of_flow if number == 13 else of_write)(library, table, proposal, place)
    if number == 18:
        return of_walks(table, place)
    if number == 19:
        return of_thresholds(answer.thresholds, place)
    return {9: of_word, 11: of_start, 12: of_locks, 15: of_others, 16: of_rest}[number](table, proposal, place)
