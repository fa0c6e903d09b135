"""Words as text and back, and damaged texts."""
import json, random, re
from .common import (
    BARE, BARE_PROPOSAL, BARE_TEXT, BY_HAND, CHECKER, DISTURBED_TEXT, DRAWN, MAX, MIN, SOUND, SOUND_PROPOSAL, TEXT, as_bytes, contents, example, expect,
    lines, packed, printed, raised, text_of, tower, tried,
)


# ---- decode
BARE_DECODED = """table
2 1 0 3 1  # tasks, variables, mutexes, points, nodes
2 1        # points of task 0, task 1
0          # starting values of v0

# points of task 0
1 0 0 1    # 0: v0 := 5, on to 1
0 0 0 0    # 1: end

# points of task 1
0 0 0 0    # 2: end

# nodes
0 5 0 0    # 0: 5, for point 0

proposal
3 1 0 1  # points, variables, mutexes, entries

# held words
0 0      # task 0: none, none
0        # task 1: none

# entries: task, held set, variable
0 0 0    # 0: task 0, holding none, writes v0 5

# low ends of v0
0        # point 0 of task 0
5        # point 1 of task 0
0        # point 2 of task 1
5        # entry 0: v0

# high ends of v0
0        # point 0 of task 0
5        # point 1 of task 0
5        # point 2 of task 1
5        # entry 0: v0""".split("\n")


def decoded(given, sections):
    """Decodes, and encodes again: the words are the same, and each line of them has a comment."""
    case = "decode of %s" % (sections,)
    out, error, status = tower("decode", given=given)
    expect("%s works" % case, (error, status), ("", 0))
    marked = [line for line in out.decode().split("\n") if line in sections]
    expect("the marks of %s" % case, marked, list(sections))
    bare = [line for line in out.decode().split("\n") if line.split("#")[0].strip() not in ("", *sections) and not re.fullmatch(r"[-0-9 ]+  # \S.*", line)]
    expect("a comment for each line of %s" % case, bare, [])
    expect("decode of %s again" % case, tower("decode", given=out), (out, "", 0))
    for options, second in (((), "proposal"), (("--run",), "schedule")):
        if "table" in sections and second in sections:
            expect("encode %s of %s" % (options, case), tower("encode", *options, given=out), (as_bytes(sections["table"], sections[second]), "", 0))
    tried("texts decoded")
    return out.decode().splitlines()


def decoding():
    rng = random.Random(20261121)
    expect("decode of Bare", decoded(as_bytes(BARE, BARE_PROPOSAL), {"table": BARE, "proposal": BARE_PROPOSAL}), BARE_DECODED)
    for t, w, _ in BY_HAND + DRAWN:
        decoded(as_bytes(t, w), {"table": t, "proposal": w})
    for k in range(100):
        t, w, _ = rng.choice(BY_HAND + DRAWN)
        t, w, s = list(t), list(w), [rng.randrange(-5, 9) for _ in range(rng.randrange(25))]
        for part in rng.choices((t, w, w), k=rng.randrange(4)):
            if part:
                part[rng.randrange(len(part))] = rng.choice((0, 1, -1, 300, MIN, MAX, rng.randrange(-9, 30)))
            del part[rng.choice((len(part), len(part), rng.randrange(len(part) + 1))) :]
        parts = [("table", t), ("proposal", w), ("schedule", s)][: rng.choice((1, 2, 3, 3))]
        rng.shuffle(parts)
        decoded(text_of(rng, parts).encode(), dict(parts))
    named = "# name v0 way: so far\n# name t1 größe\n# name t0 lift\n" + BARE_TEXT
    got = decoded(named.encode(), {"table": BARE, "proposal": BARE_PROPOSAL})
    expect("names are kept", got[:5], ["# name t0 lift", "# name t1 größe", "# name v0 way", "", "table"])
    expect("names in comments", [line for line in got if "way :=" in line or "(größe):" in line], ["1 0 0 1    # 0: way := 5, on to 1", "0        # task 1 (größe): none"])
    expect("decode of a table alone", lines("decode", given=b"table"), ["table"])


# ---- damage
SCRAPS = [
    b"table", b"proposal", b"schedule", b" ", b"\n", b"\r", b"\r\n", b"\t", b"#", b"# name v0 x\n", b"# name t0 \xc3\xa9 \n", b"# name m0 v1\n", b"-", b"--1", b"0", b"1", b"-1",
    b"2147483647", b"-2147483648", b"2147483648", b"9" * 60, b"x" * 60, b"\0", b"\xff", b"\xff\xfe", b"\xef\xbb\xbf", "é".encode(), b"\x1b", b"1e3", b"0x1", b" 5 ", b" 300 ", b"#" * 50,
    b"\xe2\x80\xa8",
]


def damaged(rng, data):
    for _ in range(rng.choice((1, 1, 1, 2, 3, 6))):
        a = rng.randrange(len(data) + 1)
        b = min(len(data), a + rng.choice((0, 1, 1, 2, 4, 9, 40, 400)))
        how = rng.randrange(8)
        if how == 0:  # gone, or twice
            data = data[:a] + data[b:]
        elif how == 1:
            data = data[:b] + data[a:b] + data[b:]
        elif how == 2:
            data = data[:a]
        elif how in (3, 4):
            data = data[:a] + rng.choice(SCRAPS) + data[a if how == 3 else b :]
        elif how == 5:
            data = data[:a] + bytes(rng.randrange(256) for _ in range(rng.choice((1, 1, 4)))) + data[a + 1 :]
        else:  # another number in place of one
            numbers = list(re.finditer(rb"(?<![^\s])-?\d+(?![^\s])", data))
            if numbers:
                found = rng.choice(numbers)
                data = data[: found.start()] + b"%d" % rng.choice((0, 1, 2, 3, 9, -1, MIN, MAX, rng.randrange(-20, 60))) + data[found.end() :]
            elif len(data) >= 12:
                at = 4 * rng.randrange(len(data) // 4)
                data = data[:at] + packed([rng.choice((0, 1, 2, 9, -1, MIN, MAX, rng.randrange(-20, 60)))]) + data[at + 4 :]
    return data


FIRST = re.compile(rb"(?:accepted \d+|refused \d+ [a-z]+ at \d+)\n")


def one_damaged(data, seen):
    case = "%r" % data
    answers = {}
    for options in (("check",), ("show",), ("decode",), ("encode",), ("check", "--json"), ("show", "--json"), ("run",), ("picture",), ("propose",), ("propose", "--json")):
        out, error, status = tower(*options, given=data)
        answers[options] = out, error, status
        if status == 2:
            fine = out == b"" and error.startswith("<stdin>:") and error.count("\n") == 1 and error.endswith("\n") and len(error) < 700
            expect("%s can't read %s" % (options, case), (fine, error), (True, error))
        else:
            expect("%s ends by its verdict on %s" % (options, case), (status in ((0,) if options[0] in ("decode", "encode") else (0, 1)), out != b""), (True, True))
            if "--json" in options:
                expect("%s on %s" % (options, case), raised(json.loads, out.decode())["number"] != 0, status == 1)
            elif options[0] in ("check", "show"):
                expect("the first line of %s on %s" % (options, case), (FIRST.match(out) is not None, out.startswith(b"refused")), (True, status == 1))
    check, encode, propose = answers[("check",)], answers[("encode",)], answers[("propose",)]
    lacks = answers[("show",)][1].endswith("has no section 'proposal'\n")  # which check and propose make if there is none
    statuses = [{answers[options][2] for options in group} for group in ((("check", "--json"),), (("show",), ("show", "--json"), ("picture",)), (("propose", "--json"),))]
    expect("the status of all on %s" % case, statuses, [{check[2]}, {2 if lacks else check[2]}, {propose[2]}])
    seen[check[2]] = seen.get(check[2], 0) + 1
    expect("propose reads what check reads, on %s" % case, propose[2] == 2, check[2] == 2)
    if propose[2] == 0:
        expect("check after propose on %s" % case, tower("check", "-q", given=propose[0])[1:], ("", 0))
    elif propose[2] == 1 and (lacks or propose[0].split()[1] != b"18"):
        expect("the refusal of check and propose on %s" % case, propose[0], check[0])
    if check[2] == 2 or lacks:
        return
    expect("decode and encode on %s" % case, (tower("encode", given=answers[("decode",)][0]), encode[2]), (encode, 0))
    asked = printed(CHECKER, given=encode[0]).encode()
    expect("as rangecheck, on %s" % case, check[0], asked if asked != b"unread\n" else check[0])


def damaging():
    rng = random.Random(20261122)
    texts = [BARE_TEXT.encode(), DISTURBED_TEXT.encode(), *map(contents, (TEXT, example("pair.txt"), example("tower", "wrong.txt"), example("tower", "board.txt")))]
    texts += [text_of(rng, [("table", t), ("proposal", w), ("schedule", [0, 1])]).encode() for t, w, _ in rng.sample(BY_HAND + DRAWN, 12)]
    words = [as_bytes(BARE, BARE_PROPOSAL), as_bytes(SOUND, SOUND_PROPOSAL), contents(example("nested.bin"))] + [as_bytes(t, w) for t, w, _ in rng.sample(BY_HAND + DRAWN, 12)]
    for name, sources, count in (("damaged texts", texts, 250), ("damaged bytes", words, 200)):
        seen = {}
        for _ in range(count):
            one_damaged(damaged(rng, rng.choice(sources)), seen)
        tried(name, count)
        expect("every status of %s, %s" % (name, seen), sorted(seen), [0, 1, 2])
