"""The version, the binding, the makefile, the tower's texts and the pages."""
import ctypes, doctest, itertools, os, re, resource, shutil, subprocess, sys, threading
from .common import (
    BARE, BARE_PROPOSAL, BUILT, CHECKER, DISTURBED, LIBRARY, MAX, MIN, ROOT, RUNNER, SOUND, SOUND_PROPOSAL, TEXT, as_bytes, contents,
    example, expect, folder_of, json_of, lines, printed, put, raised, shown, started, tower, tried,
)
from .reading import ERRORS, NAMES, RUN_ERRORS, UTF16
from .checking import place_of, prefix, state_of
from .decoding import decoded


# ---- the version, the binding, the makefile
def version():
    with open(os.path.join(ROOT, "include", "rangecheck.h"), encoding="utf-8") as file:
        [number] = re.findall(r'(?m)^#define RANGECHECK_VERSION "(\d+\.\d+\.\d+)"$', file.read())
    ran = subprocess.run(["git", "--no-optional-locks", "-C", ROOT, "describe", "--always", "--dirty", "--abbrev=12"], stdout=subprocess.PIPE, stderr=subprocess.DEVNULL)
    commit = ran.stdout.decode().strip() or "unknown"
    expect("--version", started("--version"), (("tower %s\ncommit %s\nrt 0.0, which only pretends\n" % (number, commit)).encode(), "", 0))
    found = []
    for part in ("include", "bindings", "tools"):
        for folder, folders, names in os.walk(os.path.join(ROOT, part)):
            folders[:] = [name for name in folders if name not in ("target", "__pycache__")]
            found += [name for name in names for _ in re.findall(re.escape(number).encode(), contents(os.path.join(folder, name)))]
    expect("the version stands in one place", found, ["rangecheck.h"])


def binding():
    failed, attempted = doctest.testmod(LIBRARY)
    expect("the examples of the binding", (failed, attempted >= 6), (0, True))
    words, state = lambda size: (ctypes.c_int32 * size)(*[77] * size), lambda size: (ctypes.c_int64 * size)(*[77] * size)
    listed = [5, 2, 9, 1]
    expect("the list", LIBRARY.check(SOUND, SOUND_PROPOSAL), [LIBRARY.Alarm(5, "zero"), LIBRARY.Alarm(9, "overflow")])
    for size in range(8):
        alarms = words(size)
        got = raised(LIBRARY.check_into, SOUND, SOUND_PROPOSAL, alarms)
        expect("room for %d words" % size, (got, list(alarms)), (2, listed + [77] * (size - 4)) if size >= 4 else (("Refusal", "refused 17 room at 4"), [77] * size))
    alarms = words(8)
    expect("a refusal changes nothing", (raised(LIBRARY.check_into, BARE, DISTURBED, alarms), list(alarms)), (("Refusal", "refused 15 disturb at 2"), [77] * 8))
    expect("room for no alarm", raised(LIBRARY.check_into, BARE, BARE_PROPOSAL, words(0)), 0)
    for size in (0, 1, 18, 27, 28, 30, 9988):  # 28 are asked for, though 18 are written
        proposal = words(size)
        got = raised(LIBRARY.propose_into, BARE, [5], proposal)
        want = ((18, 2), BARE_PROPOSAL + [77] * (size - 18)) if size >= 28 else (("Refusal", "refused 20 space at 28"), [77] * size)
        expect("room for %d words of a proposal" % size, (got, list(proposal)), want)
    expect("a proposal", LIBRARY.propose(BARE, [5]), LIBRARY.Proposal(BARE_PROPOSAL, 2))
    proposal = words(28)
    for parts, want in (
        ((BARE[:-1], [5]), "1 length at 23"), ((BARE, [5, 5]), "19 rise at 1"), ((BARE, range(33)), "19 rise at 32"), (([], []), "1 length at 0"),
        (([1, 1, 1, 2, 1, 2, 0, 3, 0, 1, 0, 1, 0, 0, 0, 0, 1, 0, 0], []), "18 walks at 0"),
    ):
        expect("no proposal: %s" % want, (raised(LIBRARY.propose_into, *parts, proposal), list(proposal)), (("Refusal", "refused " + want), [77] * 28))
        expect("no proposal in an ample buffer: %s" % want, raised(LIBRARY.propose, *parts), ("Refusal", "refused " + want))
    for size in (0, 1, 47, 48, 50):
        answer = state(size)
        got = raised(LIBRARY.run_into, BARE, [0], answer)
        want = (None, [1, 2] + [0] * 6 + [5] + [0] * 23 + [-1] * 2 + [0] * 14 + [77] * (size - 48))
        expect("room for %d words of a state" % size, (got, list(answer)), want if size >= 48 else (("Refusal", "refused 31 short at 48"), [77] * size))
    answer = state(48)
    expect("a refused run changes nothing", (raised(LIBRARY.run_into, [9] + BARE[1:], [0], answer), list(answer)), (("Refusal", "refused 2 size at 0"), [77] * 48))
    expect("the state", LIBRARY.run(BARE, [0]), LIBRARY.State([1, 2] + [0] * 6, [5] + [0] * 15, [0] * 8, [-1, -1] + [0] * 6, [0] * 8))
    for call, parts, want in ((LIBRARY.check, ([], []), "1 length"), (LIBRARY.run, ([], []), "1 length"), (LIBRARY.check, (BARE, []), "7 reach")):
        expect("empty lists", raised(call, *parts), ("Refusal", "refused %s at 0" % want))
    expect("a run without a schedule", LIBRARY.run(BARE, []).points, [0, 2] + [0] * 6)
    for word in (MAX + 1, MIN - 1, 2 ** 64, -(2 ** 64)):
        for call, parts in itertools.product((LIBRARY.check, LIBRARY.propose, LIBRARY.run), (([word], []), (BARE, [word]))):
            expect("the word %d" % word, raised(call, *parts)[0], "OverflowError")
    for word in (1.5, "1", None):
        expect("the word %r" % word, raised(LIBRARY.check, [word], [])[0], "TypeError")
    for sequence in (tuple, iter):
        expect("words as %s" % sequence.__name__, raised(LIBRARY.check, sequence(BARE), sequence(BARE_PROPOSAL)), [])
    try:
        LIBRARY.check(BARE, DISTURBED)
    except LIBRARY.Refusal as problem:
        expect("a refusal", (problem.number, problem.word, problem.place), (15, "disturb", 2))
    expect("trade's words", [LIBRARY.word_of(n) for n in (1, 16, 17, 18, 19, 20, 31)], ["length", "rest", "room", "walks", "rise", "space", "short"])
    # another library, by the environment
    with folder_of() as folder:
        other = shutil.copy(BUILT, os.path.join(folder, "other.so"))
        ask = "import rangecheck; print(rangecheck.LIBRARY, rangecheck.check(%s, %s))" % (BARE, BARE_PROPOSAL)
        for library, want in ((other, (other + " []\n").encode()), ("", (BUILT + " []\n").encode()), (os.path.join(folder, "none.so"), b"")):
            env = {**os.environ, "PYTHONPATH": os.path.join(ROOT, "bindings", "python"), "RANGECHECK_LIBRARY": library}
            ran = subprocess.run([sys.executable, "-c", ask], env=env, stdout=subprocess.PIPE, stderr=subprocess.PIPE)
            expect("the library %s" % library, (ran.stdout, b"OSError" in ran.stderr), (want, want == b""))
    # in threads
    got = []
    both = lambda: LIBRARY.check(SOUND, LIBRARY.propose(SOUND, [-3, 3, 9]).words) and LIBRARY.check(SOUND, SOUND_PROPOSAL)
    threads = [threading.Thread(target=lambda: got.append([both() for _ in range(50)])) for _ in range(4)]
    for thread in threads:
        thread.start()
    for thread in threads:
        thread.join()
    expect("in threads", [all(answer == [(5, "zero"), (9, "overflow")] for answer in answers) for answers in got], [True] * 4)


def makefile():
    source = contents(example("tower", "Makefile")).decode()
    expect("the makefile has three lines", source.count("\n"), 3)
    with folder_of() as folder:
        place = os.path.join(folder, "examples", "tower")
        shutil.copytree(example("tower"), place, ignore=shutil.ignore_patterns("*.alarms"))
        there = os.listdir(place)
        for name in ("tools", "bindings", "include", "crates", "crates.txt", "target"):
            os.symlink(os.path.join(ROOT, name), os.path.join(folder, name))
        path = lambda name: os.path.join(place, name)
        make = lambda target, **more: started("-C", place, target, command=("make",), **more)
        good = b"accepted 2\nnode 29 overflow\nnode 40 zero\n"
        expect("make tower.alarms", (make("tower.alarms")[2], contents(path("tower.alarms"))), (0, good))
        before = os.stat(path("tower.alarms")).st_mtime_ns
        expect("make tower.alarms again", (make("tower.alarms")[2], os.stat(path("tower.alarms")).st_mtime_ns), (0, before))
        for _ in range(2):
            _, error, status = make("wrong.alarms")
            expect("make wrong.alarms", (status, os.path.exists(path("wrong.alarms"))), (2, False))
            at = place_of(contents(path("wrong.txt")).decode(), "table", 5 + 4 + 8 + 4 * 19)
            expect("what it says", "wrong.txt:%(line)d:%(column)d: refused 14 write at 19\n" % at in error, True)
        put(path("wrong.alarms"), "old\n")
        os.utime(path("wrong.alarms"), (1, 1))
        for _ in range(2):
            expect("make wrong.alarms over an old one", (make("wrong.alarms")[2], contents(path("wrong.alarms"))), (2, b"old\n"))
        put(path("alone.txt"), contents(path("tower.txt")).split(b"\nproposal")[0])
        expect("make of a text without a proposal", (make("alone.alarms")[2], contents(path("alone.alarms"))), (0, good))
        put(path("cut.txt"), contents(path("tower.txt"))[:2000])
        expect("make of a damaged text", (make("cut.alarms")[2], os.path.exists(path("cut.alarms"))), (2, False))
        os.utime(path("tower.alarms"), (1, 1))
        limit = lambda: resource.setrlimit(resource.RLIMIT_FSIZE, (20, 20))
        expect("make without room", (make("tower.alarms", first=limit)[2], contents(path("tower.alarms"))), (2, good))
        put(path("tower.alarms"), "old\n")
        os.utime(path("tower.alarms"), (1, 1))
        expect("make when there is room", (make("tower.alarms")[2], contents(path("tower.alarms"))), (0, good))
        expect("what is left behind", sorted(os.listdir(place)), sorted(there + ["alone.alarms", "alone.txt", "cut.txt", "tower.alarms", "wrong.alarms"]))


# ---- the tower
def sections(name):
    """The words of a text, read here once more."""
    found, section = {}, None
    for line in open(example("tower", name)):
        for token in line.split("#")[0].split():
            if token.isalpha():
                section = found[token] = []
            else:
                section.append(int(token))
    return found["table"], found["proposal"], found["schedule"]


def tower_texts():
    for name in ("tower.txt", "wrong.txt", "ring.txt", "board.txt"):
        t, w, s = sections(name)
        expect("encode %s" % name, tower("encode", example("tower", name)), (as_bytes(t, w), "", 0))
        expect("encode --run %s" % name, tower("encode", "--run", example("tower", name)), (as_bytes(t, s), "", 0))
        status = int(name == "wrong.txt")
        expect("show %s in text and bytes" % name, len(lines("show", example("tower", name), status=status)), len(shown(t, w)))
        expect("check %s" % name, tower("check", "-q", example("tower", name)), (printed(CHECKER, given=as_bytes(t, w)).encode(), "", status))
        whole = json_of("run", example("tower", name))
        expect("run %s" % name, state_of(whole, t), printed(RUNNER, given=as_bytes(t, s)).strip())
        decoded(contents(example("tower", name)), {"table": t, "proposal": w, "schedule": s})
    for task, want in (("0", [0]), ("2", [2]), ("ring", [2]), ("lift", [0])):
        found = [int(u) for u in re.findall(r"(?m)^  subgraph cluster_(\d+) {$", "\n".join(lines("picture", "--task", task, TEXT)))]
        expect("picture --task %s" % task, found, want)
    for task in ("4", "-1", "", "Ring", "x" * 5000):
        out, error, status = tower("picture", "--task=" + task, TEXT)
        expect("picture --task %s" % task[:9], (out, error.count("\n"), "there is no task" in error, len(error) < 200, status), (b"", 1, True, True, 2))
    got = lines("show", TEXT)
    point = "  14     drive  0..9   0..9  1..12  83333333..1000000000  MIN..MAX  -11..11  5..60  5..60  offset := offset + input(-1000000000..1000000000), on to 15"
    alarm = " " * point.index("offset") + "! node 29 overflow: offset + input(-1000000000..1000000000)"
    expect("the alarm under its formula", [below for line, below in zip(got, got[1:]) if line == point], [alarm])
    expect("alarms in show", [line.strip() for line in got if "!" in line], [alarm.strip(), "! node 40 zero: 60 / doors"])
    expect("rest rows in show", [line.split()[:4] for line in got if line.startswith(("  shaft", "  drive"))], [["shaft", "0..9", "0..9", "1..12"], ["drive", "0..9", "0..9", "1..12"]])
    expect("entries in show", "  5      ring       shaft+drive  doors 0..12" in got, True)
    text = contents(TEXT).decode()
    at = [place_of(text, "table", 5 + 4 + 8 + 4 * (25 + n)) for n in (29, 40)]
    said = ["node 29 overflow, at point 14 of task 1 (turntable): offset + input(-1000000000..1000000000)", "node 40 zero, at point 24 of task 3 (board): 60 / doors"]
    want = [prefix({**place, "file": TEXT}) + line for place, line in zip(at, said)]
    expect("check on the tower", tower("check", TEXT), (b"accepted 2\nnode 29 overflow\nnode 40 zero\n", "".join(line + "\n" for line in want), 0))


# ---- the pages
def quoted(name):
    """Each command of a page, a line that starts with $ in a block, with the output that stands below it."""
    found, blank, inside = [], 0, False
    for line in open(os.path.join(ROOT, name), encoding="utf-8"):
        if line.startswith("    $ "):
            found.append((line[6:].rstrip("\n"), []))
            blank, inside = 0, True
        elif line.strip() == "":
            blank += 1
        elif not line.startswith("    "):
            inside = False
        elif inside:
            found[-1][1].extend(["\n"] * blank + [line[4:]])
            blank = 0
    return found


def pages():
    for name in ("README.md", os.path.join("docs", "FORMAT.md"), os.path.join("examples", "tower", "README.md")):
        commands = quoted(name)
        expect("%s has commands" % name, commands != [], True)
        for command, want in commands:
            got = subprocess.run(["bash", "-c", command], cwd=ROOT, stdout=subprocess.PIPE, stderr=subprocess.STDOUT, timeout=60).stdout.decode()
            expect("%s: %s" % (name, command), got, "".join(want))
            tried("commands of the pages")
    # the refusals and messages that the pages list
    refusals = [(str(n), word) for n, word in enumerate(LIBRARY.WORDS, 1)] + [("31", "short")]
    for name in ("README.md", os.path.join("docs", "FORMAT.md")):
        with open(os.path.join(ROOT, name), encoding="utf-8") as file:
            text = file.read()
        expect("the refusals of %s" % name, re.findall(r"(?m)^\| (\d+) \| ([a-z]+) \|", text), refusals)
    said = re.findall(r"(?m)^\| `[^`:]*:(\d+:\d+: .*?)` \|", text)
    known = [message for _, message in ERRORS + RUN_ERRORS] + [want for _, want in NAMES if isinstance(want, str)] + [UTF16]
    expect("the messages of %s" % name, (len(said) >= 5, [message for message in said if message not in known]), (True, []))
