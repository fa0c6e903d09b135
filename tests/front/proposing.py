"""Proposals: texts with a proposal put in, thresholds, refusals with their places, checks of texts without a proposal, and a call that takes long."""
import os, random, re, signal, subprocess, threading
from .common import (
    BARE, BARE_PROPOSAL, BARE_TEXT, BY_HAND, COMMAND, DRAWN, LIBRARY, MAX, MIN, ROOT, SOUND, SOUND_PROPOSAL, TEXT, as_bytes, contents, example, expect, folder_of, holds, json_of, put,
    raised, text_of, tower, tried,
)
from .checking import place_of, prefix, word_of

ALONE = "table %s\n" % " ".join(map(str, BARE))
FIRST = "tower: there is no proposal; one is made first\n"
NOTE = r"# made in (\d+) pass(?:es)?, (?:without thresholds|by the thresholds (\S+))"


def sections_of(text):
    """The words of a text, read here once more."""
    found = {}
    for line in text.split("\n"):
        for token in line.split("#")[0].split():
            if token.isalpha():
                section = found[token] = []
            else:
                section.append(int(token))
    return found


def names_of(text):
    return sorted(re.findall(r"(?m)#\s*name\s+(\w+)\s+(\w+)", text))


def own_thresholds(t):
    """The thresholds that are taken if none are named, by the layout of docs/FORMAT.md."""
    tasks, variables, _, points, _ = t[:5]
    nodes = 5 + tasks + variables + 4 * points
    numbers = t[5 + tasks : 5 + tasks + variables]
    for at in range(nodes, len(t), 4):
        numbers = numbers + {0: t[at + 1 : at + 2], 1: t[at + 1 : at + 3]}.get(t[at], [])
    rising = sorted({z + more for z in numbers for more in (-1, 0, 1)} - {MIN - 1, MIN, MAX, MAX + 1})
    return rising if len(rising) <= 32 else [rising[(len(rising) - 1) * k // 31] for k in range(32)]


# ---- texts
def proposed(text, *options, thresholds=None):
    """Lets a proposal be made for a text, looks at all that is written, and gives it back."""
    case = "propose %s of %r" % (options, text)
    given = sections_of(text)
    thresholds = own_thresholds(given["table"]) if thresholds is None else thresholds
    words, passes = LIBRARY.propose(given["table"], thresholds)
    out, error, status = tower("propose", *options, given=text.encode())
    expect("%s works" % case, (error, status), ("", 0))
    got = out.decode()
    expect("the words of %s" % case, sections_of(got), {**given, "proposal": words})
    expect("the names of %s" % case, names_of(got), names_of(text))
    notes = [found for found in map(re.compile(NOTE).fullmatch, got.replace("\r", "").split("\n")) if found]
    told = [(int(note.group(1)), [int(z) for z in (note.group(2) or "").split(",") if z]) for note in notes]
    expect("the passes of %s" % case, told, [(passes, thresholds)])
    expect("%s again" % case, tower("propose", *options, given=out), (out, "", 0))
    whole = json_of("propose", *options, given=text.encode())
    want = {"verdict": "proposed", "number": 0, "word": None, "place": None, "at": None, "told": [], "thresholds": thresholds, "words": len(words), "passes": passes, "proposal": words}
    expect("JSON of %s" % case, (whole, list(whole)), (want, list(want)))
    checked = tower("check", "-q", given=out)
    expect("check after %s" % case, (checked[0].split()[0], checked[1:]), (b"accepted", ("", 0)))
    tried("proposals")
    return got


def refused(text, *options, told=None, thresholds=None):
    """The same of one that can't be made: check says so too, if there is no proposal; and the lines that tell why."""
    case = "propose %s of %r" % (options, text)
    t = sections_of(text)["table"]
    kind, line = raised(LIBRARY.propose, t, thresholds or [])
    number, place = int(line.split()[1]), int(line.split()[4])
    at = None if number == 19 else place_of(text, *word_of(t, [], number, place))
    out, error, status = tower("propose", *options, given=text.encode())
    said = error.splitlines()
    expect("%s is refused" % case, (kind, out.decode(), said[:1], status), ("Refusal", line + "\n", [(prefix(at) if at else "") + line], 1))
    whole = json_of("propose", *options, given=text.encode(), status=1)
    want = {"verdict": "refused", "number": number, "word": line.split()[2], "place": place, "at": at, "told": [line[2:] for line in said[1:]], "thresholds": whole["thresholds"]}
    want = {**want, "words": 0, "passes": 0, "proposal": None}
    expect("JSON of %s" % case, (whole, list(whole)), (want, list(want)))
    expect("%s is told" % case, [line[2:] for line in said[1:]] if told else said[1:] != [], told or True)
    if "proposal" not in sections_of(text) and number != 19:
        expect("check of %r" % text, tower("check", given=text.encode()), (out, FIRST + error, 1))
        expect("check --json of %r" % text, json_of("check", given=text.encode(), status=1), {**{key: whole[key] for key in ("verdict", "number", "word", "place", "at")}, "count": 0, "alarms": []})
    tried("proposals refused")
    return number


def kept(text, out):
    """All that stands before and after an old proposal stays as it was."""
    lines, got = text.split("\n"), out.split("\n")
    first = lines.index("proposal")
    words = [k for k, line in enumerate(lines) if line.split("#")[0].strip()]
    last = max(k for k in words if k < lines.index("schedule"))
    expect("what stands before and after", (got[: first + 1], got[len(got) - len(lines) + last + 1 :]), (lines[: first + 1], lines[last + 1 :]))


def texts():
    rng = random.Random(20261123)
    expect("propose of Bare", sections_of(proposed(BARE_TEXT)), {"table": BARE, "proposal": BARE_PROPOSAL})
    # with a proposal, whole or not, and without; with a schedule; in any layout
    seen = {}
    for t, w, _ in rng.sample(BY_HAND, 100) + DRAWN[:100]:
        parts = rng.choice(([("table", t)], [("table", t), ("proposal", w)], [("table", t), ("proposal", []), ("schedule", [0, 1])], [("table", t), ("schedule", [])]))
        rng.shuffle(parts)
        text = text_of(rng, parts)
        if raised(LIBRARY.propose, t, [])[0] == "Refusal":
            number = refused(text)
            seen[number] = seen.get(number, 0) + 1
        else:
            proposed(text)
    expect("the rules that are refused", sorted(seen), [1, 2, 3, 4, 5, 6, 18])
    # every example: accepted, by check alone too, and nothing of the text is lost but the old proposal
    found = 0
    for folder, _, files in os.walk(example()):
        for name in sorted(files):
            path = os.path.join(folder, name)
            if name.endswith(".txt"):
                text = contents(path).decode()
                out = proposed(text)
                kept(text, out)
                lines = text.split("\n")
                alone = "\n".join(lines[: lines.index("proposal")]).rstrip("\n")
                whole = proposed(alone)
                expect("propose of %s without its proposal" % name, sections_of(whole)["proposal"], sections_of(out)["proposal"])
                expect("what stood in %s" % name, whole.startswith(alone + "\n\nproposal\n"), True)
                expect("check of %s without its proposal" % name, tower("check", "-q", given=alone.encode()), tower("check", "-q", given=out.encode()))
                found += 1
            elif name.endswith(".bin"):
                out, error, status = tower("propose", path)
                expect("propose of %s" % name, (error, status, tower("check", "-q", given=out)), ("", 0, tower("check", "-q", path)))
                found += 1
    expect("examples", found >= 6, True)
    listed = b"accepted 2\nnode 29 overflow\nnode 40 zero\n"
    expect("the tower's alarms", [tower("check", "-q", given=given)[0] for given in (contents(TEXT), tower("propose", TEXT)[0])], [listed] * 2)
    same = [sections_of(given.decode())["proposal"] for given in (contents(example("pair.txt")), tower("propose", example("pair.txt"))[0])]
    expect("the pair's proposal is that by hand", same[0], same[1])


def layouts():
    """Where the proposal is put, names and comments, ends of lines, other bytes."""
    small = "1 1 0 1 0 1 7 0 0 0 0"
    block = ["# made in 1 pass, by the thresholds 6,7,8", "1 1 0 0  # points, variables, mutexes, entries", "", "# held words", "0        # task 0: none", ""]
    block += ["# low ends of %s", "7        # point 0 of task 0", "", "# high ends of %s", "7        # point 0 of task 0"]
    block = "proposal\n" + "\n".join(block)
    for text, want, name in (
        ("table " + small, "table " + small + "\n\n@\n", "v0"),
        ("# a\n\ntable " + small + " # b\n\n# c\nschedule 0 # d\n# e", "# a\n\ntable " + small + " # b\n\n@\n\n# c\nschedule 0 # d\n# e\n", "v0"),
        ("schedule 0\ntable\n" + small + "\n\n\n", "schedule 0\ntable\n" + small + "\n\n@\n\n\n", "v0"),
        ("table " + small + " schedule 0", "table " + small + "\n\n@\n schedule 0\n", "v0"),
        ("table " + small + "\n# a\nproposal 1 # b\n 2 # c\n# d\n3 # e\n# f\n\nschedule 0", "table " + small + "\n# a\n@\n# f\n\nschedule 0\n", "v0"),
        ("table " + small + "\nproposal\n\nschedule", "table " + small + "\n@\n\nschedule\n", "v0"),
        ("proposal 1 2\ntable " + small, "@\ntable " + small + "\n", "v0"),
        ("proposal table " + small, "@\n table " + small + "\n", "v0"),
        ("table " + small + " proposal 5 schedule 1", "table " + small + " \n@\n schedule 1\n", "v0"),
        ("# name v0 way: so far\ntable " + small, "# name v0 way: so far\ntable " + small + "\n\n@\n", "way"),
        # names among the old proposal's words
        ("table " + small + "\nproposal 1\n# name v0 way: so far\n# more\n2", "table " + small + "\n# name v0 way\n@\n", "way"),
        ("table " + small + "\nproposal 1 # name v0 way", "table " + small + "\n# name v0 way\n@\n", "way"),
        ("table " + small + "\nproposal 1\n2 # 2\n# name v0 way: so far", "table " + small + "\n@\n# name v0 way: so far\n", "way"),
    ):
        want = want.replace("@", block % (name, name))
        expect("propose of %r" % text, proposed(text), want)
        dos = tower("propose", given=text.replace("\n", "\r\n").encode())
        if "\n" in text:
            one_line_end = dos[0].decode().replace("\r\n", "\n")
            expect("propose of %r with carriage returns" % text, (one_line_end, dos[1:]), (want, ("", 0)))
            expect("its ends of lines", [line for line in dos[0].split(b"\n")[:-2] if not line.endswith(b"\r")], [])
    text = b"# \xff is kept\ntable " + small.encode()
    expect("a byte that is no UTF-8", tower("propose", given=text)[0].startswith(text), True)
    expect("a byte order mark is left out", tower("propose", given=b"\xef\xbb\xbf" + text), tower("propose", given=text))
    with folder_of({"table.txt": "# a\n" + ALONE, "other.txt": "# b\nschedule 0 1\n# name v0 way", "old.txt": "# c\nproposal 1 # d\n# e", "case.bin": as_bytes(BARE, [])}) as folder:
        path = lambda name: os.path.join(folder, name)
        made = "\n".join(sections_text("way"))
        got = tower("propose", path("table.txt"), path("other.txt"))[0].decode()
        expect("propose of two files", got, "# a\n" + ALONE + "\n" + made + "\n# b\nschedule 0 1\n# name v0 way\n")
        got = tower("propose", path("other.txt"), path("old.txt"), path("table.txt"))[0].decode()
        expect("propose of three files", got, "# b\nschedule 0 1\n# name v0 way\n# c\n" + made + "\n# e\n# a\n" + ALONE)
        out, error, status = tower("propose", path("case.bin"), path("other.txt"))
        expect("propose of bytes and a text", (error, status, sections_of(out.decode())), ("", 0, {"table": BARE, "proposal": BARE_PROPOSAL, "schedule": [0, 1]}))
        expect("names in it", names_of(out.decode()), [("v0", "way")])
        expect("JSON of bytes", json_of("propose", path("case.bin"))["proposal"], BARE_PROPOSAL)
        expect("propose over its input", (tower("propose", "-o", path("table.txt"), path("table.txt")), contents(path("table.txt"))), ((b"", "", 0), tower("propose", path("table.txt"))[0]))


def sections_text(name):
    """Bare's proposal as it is written, with a name for the variable."""
    lines = tower("decode", given=("# name v0 %s\n" % name + BARE_TEXT).encode())[0].decode().splitlines()
    at = lines.index("proposal") + 1
    return ["proposal", "# made in 2 passes, by the thresholds -1,0,1,4,5,6", *lines[at:]]


# ---- thresholds
def numbers_table(starts, constants, inputs=()):
    """One task that writes each of these numbers and inputs."""
    nodes = [[0, z, 0, 0] for z in constants] + [[1, *pair, 0] for pair in inputs]
    points = [[1, 0, n, n + 1] for n in range(len(nodes))] + [[0] * 4]
    return [1, len(starts), 0, len(points), len(nodes), len(points), *starts, *sum(points + nodes, [])]


WRONG = [
    ("x", "'x' is no decimal number"), ("1,x,2", "'x' is no decimal number"), ("1,,2", "'' is no decimal number"), (",", "'' is no decimal number"), ("1,", "'' is no decimal number"),
    ("1.5", "'1.5' is no decimal number"), ("1;2", "'1;2' is no decimal number"), ("1 2", "'1 2' is no decimal number"), ("0x1", "'0x1' is no decimal number"), ("+1", "'+1' is no decimal number"),
    ("--1", "'--1' is no decimal number"), ("0,2147483648", "2147483648 doesn't fit in 32 bits"), ("-2147483649,0", "-2147483649 doesn't fit in 32 bits"),
    ("é", "'\\xe9' is no decimal number"), ("\udcff", "'\\udcff' is no decimal number"), ("x" * 5000, "'%s' .. is no decimal number" % ("x" * 40)), ("9" * 5000, "%s .. doesn't fit in 32 bits" % ("9" * 40)),
]
FALLING = [
    ([5, 3], 1, "threshold 1, which is 3, isn't above the one before it, 5"), ([1, 1], 1, "threshold 1, which is 1, isn't above the one before it, 1"),
    ([MIN, MAX, MIN], 2, "threshold 2, which is MIN, isn't above the one before it, MAX"), (list(range(33)), 32, "there are 33 thresholds, and 32 at most are taken"),
    (list(range(31)) + [30], 31, "threshold 31, which is 30, isn't above the one before it, 30"), (list(range(40)), 32, "there are 40 thresholds, and 32 at most are taken"),
    (list(range(32)) + [0], 32, "there are 33 thresholds, and 32 at most are taken"),
]


def thresholds():
    apart = [100 * k for k in range(-5, 6)]
    for t, count in (
        (numbers_table([MIN], []), 1), (numbers_table([MAX, MIN], []), 2), (numbers_table([7], []), 3), (numbers_table([7, 8], [9]), 5), (numbers_table([0], [10], [(20, 30)]), 12),
        (numbers_table([0], [], [(MIN, MAX)]), 5), (numbers_table([MIN, MAX], apart[:10]), 32), (numbers_table([0], apart), 33), (numbers_table(apart + [1, 2], []), 35),
        (numbers_table([0], [3 * k for k in range(200)]), 600), (numbers_table(list(range(16)), list(range(-100, 100))), 202),
    ):
        text = "table " + " ".join(map(str, t))
        got = json_of("propose", given=text.encode())["thresholds"]
        expect("how many thresholds of %s" % t[:30], (len(got), got == sorted(set(got))), (min(count, 32), True))
        proposed(text)  # which looks at the thresholds too
    by_hand = {"12": [-1, 0, 1, 9, 10, 11, 19, 20, 21, 29, 30, 31], "5": [MIN + 1, -1, 0, 1, MAX - 1]}
    got = [json_of("propose", given=("table " + " ".join(map(str, t))).encode())["thresholds"] for t in (numbers_table([0], [10], [(20, 30)]), numbers_table([0], [], [(MIN, MAX)]))]
    expect("thresholds by hand", got, list(by_hand.values()))
    ends = json_of("propose", given=("table " + " ".join(map(str, numbers_table([0], [3 * k for k in range(200)])))).encode())["thresholds"]
    expect("the least and the greatest stay", (ends[0], ends[-1]), (-1, 598))
    expect("no thresholds of a table that is refused", json_of("propose", given=b"table 9", status=1)["thresholds"], [])
    # those that are named
    for given, want in (("", []), (" ", []), ("5", [5]), ("-5,0,5", [-5, 0, 5]), ("-5", [-5]), (" -5 , 0,5 ", [-5, 0, 5]), ("-2147483648,2147483647", [MIN, MAX]), (",".join(map(str, range(32))), list(range(32))), ("007", [7])):
        proposed(BARE_TEXT, "--thresholds=" + given, thresholds=want)
        expect("--thresholds %s in two words" % given, tower("propose", "--thresholds", given, given=BARE_TEXT.encode()), tower("propose", "--thresholds=" + given, given=BARE_TEXT.encode()))
        tried("thresholds")
    expect("ends go to the nearest", [json_of("propose", "--thresholds", z, given=ALONE.encode())["proposal"][16] for z in ("5", "4,6", "4", "")], [5, 6, MAX, MAX])
    for given, problem in WRONG:
        for more in ((), ("--json",)):
            expect("--thresholds %s" % given[:20], tower("propose", "--thresholds=" + given, *more, given=BARE_TEXT.encode()), (b"", "--thresholds: %s\n" % problem, 2))
        tried("thresholds")
    for given, place, told in FALLING:
        expect("the number", refused(BARE_TEXT, "--thresholds=" + ",".join(map(str, given)), told=[told], thresholds=given), 19)
        expect("the place of %s" % given, json_of("propose", "--thresholds=" + ",".join(map(str, given)), given=BARE_TEXT.encode(), status=1)["place"], place)
        tried("thresholds")
    expect("the table comes first", tower("propose", "--thresholds=2,1", given=b"table 9")[0], b"refused 1 length at 1\n")


# ---- refusals
# a test with a lock on one side; a loop that comes back with its lock; two walks to one point with other locks
JOINS = [1, 1, 1, 3, 3, 3, 0, 2, 2, 1, 2, 3, 0, 2, 0, 0, 0, 0, 0, 0, 0, 0, 0, 0, 0, 0, 0, 16, 0, 1, 0]
RETURNS = [2, 1, 2, 3, 0, 1, 2, 0, 0, 0, 0, 0, 3, 1, 2, 0, 3, 0, 1, 0]
JOINED = {
    tuple(JOINS): ["point 2 of task 0: end", "from point 0 a walk brings the held set none", "from point 1 a walk brings the held set m0"],
    tuple(RETURNS): ["point 1 of task 1: lock m1, on to 2", "a walk starts there with the held set none", "from point 2 a walk brings the held set m0+m1"],
}


def brought(t):
    """Each point with a held set that a walk brings to it, and the points that it comes from, found here once more."""
    tasks, variables, _, points, _ = t[:5]
    fours = [t[at : at + 4] for at in range(5 + tasks + variables, 5 + tasks + variables + 4 * points, 4)]
    found = {(sum(t[5 : 5 + u]), 0): {None} for u in range(tasks)}
    while True:
        more = []
        for p, held in found:
            kind, a, b, c = fours[p]
            bit = 1 << a if kind in (3, 4) else 0
            if kind == 3 and held & bit or kind == 4 and not held & bit:
                continue
            more += [((q, held ^ bit), p) for q in {1: [c], 2: [b, c], 3: [b], 4: [b]}.get(kind, [])]
        before = sum(map(len, found.values()))
        for arrives, p in more:
            found.setdefault(arrives, set()).add(p)
        if sum(map(len, found.values())) == before:
            return found


def walks_told(t, text):
    """What is told of an 18: the point, and two walks that bring it different sets."""
    said = tower("propose", given=text.encode())[1].splitlines()
    place, known = int(said[0].split()[-1]), brought(t)
    two = []
    for line in said[2:]:
        start, p, held = re.fullmatch(r"  (?:(a walk starts there with)|from point (\d+) a walk brings) the held set (\S+)", line).groups()
        [word] = [held_word for q, held_word in known if q == place and holds(t, held_word) == held]
        expect("a walk of %s" % line, (None if start else int(p)) in known[place, word], True)
        two.append(word)
    least = sorted(held for q, held in known if q == place)[:2]
    expect("two walks, and no smaller point, %s" % t, (two, len(least), min(q for q, _ in known if sum(q == other for other, _ in known) > 1)), (least, 2, place))


def refusals():
    for t, told in JOINED.items():
        expect("the number", refused("table " + " ".join(map(str, t)), told=told), 18)
    named = "# name t1 walker\n# name m0 door\n# name m1 lift\ntable " + " ".join(map(str, RETURNS)) + "\nproposal 1"
    told = ["point 1 of task 1 (walker): lock lift, on to 2", "a walk starts there with the held set none", "from point 2 a walk brings the held set door+lift"]
    refused(named, told=told)
    rng, seen = random.Random(20261124), {}
    with open(os.path.join(ROOT, "tests", "vectors", "after-request-4", "propose.txt")) as file:
        for line in file:
            t, given, room, answer = [part.strip() for part in line.split("|")]
            t, given = [[int(z) for z in part.split()] for part in (t, given)]
            if answer.startswith("refused 20"):  # the command lends room enough
                answer = "refused 18" if raised(LIBRARY.propose, t, given)[0] == "Refusal" else "words"
            text = text_of(rng, [("table", t), ("schedule", [0])])
            option = "--thresholds=" + ",".join(map(str, given))
            if answer.startswith("refused"):
                number = refused(text, option, thresholds=given)
                seen[number] = seen.get(number, 0) + 1
                if number == 18:
                    walks_told(t, text)
            else:
                words = proposed(text, option, thresholds=given)
                if answer != "words":
                    expect("the vector's words", " ".join(map(str, sections_of(words)["proposal"])), answer[6:].split(" passes")[0])
                seen[0] = seen.get(0, 0) + 1
    expect("vectors of every sort, %s" % seen, [number for number in (0, 18, 19) if seen.get(number, 0) < 3], [])


# ---- checks of texts without a proposal
def check_alone():
    for text in (ALONE, "# name t0 lift\n" + ALONE + "schedule 0", "table " + " ".join(map(str, SOUND)), contents(TEXT).decode().split("\nproposal")[0]):
        made = tower("propose", given=text.encode())[0]
        want, said, status = tower("check", given=made)
        got = tower("check", given=text.encode())
        expect("check of %r" % text, (got[0], got[1].startswith(FIRST), got[1].count("\n") - 1, got[2]), (want, True, said.count("\n"), 0))
        expect("check -q of %r" % text, tower("check", "-q", given=text.encode()), (want, "", status))
        told, other = [json_of("check", given=given) for given in (text.encode(), made)]
        alarms = [[{key: alarm[key] for key in alarm if key != "at"} for alarm in whole["alarms"]] for whole in (told, other)]
        expect("check --json of %r" % text, (alarms[0], {**told, "alarms": []}), (alarms[1], {**other, "alarms": []}))
        expect("where the alarms stand", [alarm["at"] for alarm in told["alarms"]], [place_of(text, "table", node_word(text, alarm["node"])) for alarm in told["alarms"]])
        tried("checks without a proposal")
    with folder_of({"alone.txt": ALONE, "joins.txt": "table " + " ".join(map(str, JOINS)), "old": "old\n"}) as folder:
        path = lambda name: os.path.join(folder, name)
        expect("check -o", (tower("check", "-o", path("list"), path("alone.txt")), contents(path("list"))), ((b"", FIRST, 0), b"accepted 0\n"))
        out, error, status = tower("check", "-o", path("old"), path("joins.txt"))
        expect("check -o, refused", (out, error.splitlines()[:2], status), (b"", [FIRST.strip(), path("joins.txt") + ":1:37: refused 18 walks at 2"], 1))
        expect("check -q -o, refused", (tower("check", "-q", "-o", path("old"), path("joins.txt")), contents(path("old"))), ((b"", "", 1), b"old\n"))
    # an empty proposal is one, in bytes too
    for given in (ALONE.encode() + b"proposal", as_bytes(BARE, [])):
        expect("check of an empty proposal", tower("check", "-q", given=given), (b"refused 7 reach at 0\n", "", 1))
    # the others still want one
    for command in ("show", "picture", "encode"):
        expect("%s without a proposal" % command, tower(command, given=ALONE.encode()), (b"", "<stdin>:2:1: the text ends and has no section 'proposal'\n", 2))


def node_word(text, n):
    t = sections_of(text)["table"]
    return 5 + t[0] + t[1] + 4 * (t[3] + n)


# ---- a call that takes long
def endless(levels):
    """A table whose check takes twice as long with each level: v is any, then (v < 8 and (v < 7 and .. < 5 ? 1 : 9) < 5) ? 1 : 9, as docs/FORMAT.md has it."""
    nodes = [[1, -1000, 1000, 0], [2, 0, 0, 0]]
    for level in range(levels):
        n = len(nodes)
        nodes += [[2, 0, 0, 0], [0, 8 + level, 0, 0], [16, n, n + 1, 0], [0, 5, 0, 0], [16, n - 1, n + 3, 0], [20, n + 2, n + 4, 0], [0, 1, 0, 0], [0, 9, 0, 0], [8, n + 5, n + 6, n + 7]]
    points = [[1, 0, 0, 1], [1, 0, len(nodes) - 1, 2], [0] * 4]
    return [1, 1, 0, 3, len(nodes), 3, 0, *sum(points + nodes, [])]


def taking_long():
    proposed("table " + " ".join(map(str, endless(6))))
    with folder_of({"long.txt": "table " + " ".join(map(str, endless(110))), "old": "old\n"}) as folder:
        path = lambda name: os.path.join(folder, name)
        cases = [(("propose",), []), (("propose", "-o", path("old")), []), (("check",), [FIRST.encode()]), (("check", "-q"), None)]
        start = lambda options: subprocess.Popen([COMMAND, *options, path("long.txt")], stdout=subprocess.PIPE, stderr=subprocess.PIPE)
        for (options, said), running in [(case, start(case[0])) for case in cases]:
            if said is None:  # it has run as long as the others
                read, said = [], []
            else:
                read = [running.stderr.readline() for _ in range(len(said) + 2)]
            still = [re.fullmatch(rb"tower: still proposing, after (\d+) s\n", line) for line in read[len(said) :]]
            seconds = [int(found.group(1)) for found in still if found]
            expect("%s says that it goes on" % (options,), (read[: len(said)], len(seconds), seconds == sorted(set(seconds))), (said, len(still), True))
            running.send_signal(signal.SIGINT)
            out, error = running.communicate(timeout=60)
            ended = error if options == ("check", "-q") else re.sub(rb"(tower: still proposing, after \d+ s\n)*", b"", error)
            expect("%s can be interrupted" % (options,), (out, ended, running.returncode), (b"", b"interrupted\n", 2))
            tried("calls that take long")
        expect("what is there then", (contents(path("old")), sorted(os.listdir(folder))), (b"old\n", ["long.txt", "old"]))

    def no_room(thread):
        raise RuntimeError("can't start new thread")

    start, threading.Thread.start = threading.Thread.start, no_room
    try:
        expect("propose without room for a thread", tower("propose", given=ALONE.encode()), (b"", "there isn't enough memory for this input\n", 2))
    finally:
        threading.Thread.start = start
    expect("threads have the room that they had", threading.stack_size(), 0)


def proposing():
    for part in (texts, layouts, thresholds, refusals, check_alone, taking_long):
        part()
