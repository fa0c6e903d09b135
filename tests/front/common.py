"""The command in this process and in one of its own, cases with their answers, and a table and a proposal in their parts, read here once more."""
import contextlib, json, os, re, signal, struct, subprocess, sys, tempfile, traceback
from importlib.machinery import SourceFileLoader
from types import ModuleType

CHECKER, RUNNER, DIFFER, CASES = [os.path.abspath(path) for path in sys.argv[1:5]]
ROOT = os.path.dirname(os.path.dirname(os.path.dirname(os.path.abspath(__file__))))
TOOLS = os.path.join(ROOT, "tools")
COMMAND = os.path.join(TOOLS, "tower")
MIN, MAX = -2147483648, 2147483647
BAD, TRIED = [], {}
PRETENDED = ""  # a folder with a kit that only pretends, which tests/tools.py makes
sys.path.append(TOOLS)
signal.signal(signal.SIGINT, signal.default_int_handler)  # a job in the background has it ignored, and what it starts would have it too


def expect(what, got, want):
    if got != want:
        BAD.append(what)
        if len(BAD) <= 10:
            print("FAILED: %s:\n%s, not\n%s" % (what[:3000], repr(got)[:3000], repr(want)[:3000]))


def tried(what, count=1):
    TRIED[what] = TRIED.get(what, 0) + count


# ---- the command
def loaded():
    """The command as a module: the many cases here needn't each start a Python. Those about streams and files do."""
    module = ModuleType("tower")
    module.__file__ = COMMAND
    SourceFileLoader("tower", COMMAND).exec_module(module)
    return module


TOWER = loaded()
LIBRARY = TOWER.library.ready()
TOWER.library.ready = lambda: LIBRARY  # without a sum over all sources each time
BUILT = LIBRARY.LIBRARY


def tower(*options, given=b""):
    """Standard output as bytes, standard error as text, and the status; what was raised in its place, which no input should bring about."""
    sys.stdout.flush()
    before, sys.argv = sys.argv, ["tower", *options]
    kept, caught = [os.dup(k) for k in range(3)], [os.memfd_create("in, out or error") for _ in range(3)]
    os.write(caught[0], given)
    os.lseek(caught[0], 0, os.SEEK_SET)
    for k in range(3):
        os.dup2(caught[k], k)
    try:
        status = TOWER.main()
    except SystemExit as ended:
        status = ended.code or 0
    except Exception:
        status = traceback.format_exc()
    finally:
        sys.argv = before
        for k in range(3):
            os.dup2(kept[k], k)
            os.close(kept[k])
    os.close(caught[0])
    out, error = [open(descriptor, "rb") for descriptor in caught[1:]]
    with out, error:
        out.seek(0)
        error.seek(0)
        return out.read(), error.read().decode(), status


def started(*options, given=b"", path=None, first=None, command=(COMMAND,), **streams):
    """The same of a process of its own, with a kit that only pretends; what other streams take isn't returned."""
    streams = {"stdout": subprocess.PIPE, "stderr": subprocess.PIPE, **({} if "stdin" in streams else {"input": given}), **streams}
    env = {**os.environ, "PATH": PRETENDED + ":" + os.environ["PATH"] if path is None else path, "GIT_OPTIONAL_LOCKS": "0"}
    ran = subprocess.run([*command, *options], env=env, preexec_fn=first, timeout=60, **streams)
    return ran.stdout, None if ran.stderr is None else ran.stderr.decode(), ran.returncode


def lines(*options, given=b"", status=0):
    """What it prints where it works; it says nothing then, but for where a refusal stands."""
    out, error, ended = tower(*options, given=given)
    printed_lines = out.decode().splitlines()
    said = re.sub(r"^\S+:\d+:\d+: ", "", error)
    expect("%s works" % (options,), (said, ended), (printed_lines[0] + "\n" if status == 1 else "", status))
    return printed_lines


def json_of(*options, given=b"", status=0):
    out, _, ended = tower(*options, "--json", given=given)
    expect("%s --json ends by %s" % (options, status), ended, status)
    try:
        return json.loads(out.decode())
    except ValueError as problem:
        expect("%s --json is JSON" % (options,), str(problem), "")
        return {}


def of(t, w):
    """The answer on a table and a proposal."""
    given = TOWER.given_in([], ())
    given.add("table", list(t), None)
    given.add("proposal", list(w), None)
    return TOWER.Checked(LIBRARY, given)


def shown(t, w):
    return TOWER.shown(of(t, w))


def packed(*parts):
    """Words as bytes, little-endian."""
    return b"".join(struct.pack("<%di" % len(part), *part) for part in parts)


def as_bytes(*parts):
    """The bytes of two parts, with their lengths."""
    return packed([len(part) for part in parts], *parts)


def example(*names):
    return os.path.join(ROOT, "examples", *names)


@contextlib.contextmanager
def folder_of(files=()):
    """A folder with these files, that is gone afterwards."""
    with tempfile.TemporaryDirectory() as folder:
        folder = os.path.realpath(folder)
        for name, data in dict(files).items():
            put(os.path.join(folder, name), data)
        yield folder


def put(path, data, mode=None):
    os.makedirs(os.path.dirname(path), exist_ok=True)
    with open(path, "wb") as file:
        file.write(data if isinstance(data, bytes) else data.encode())
    if mode is not None:
        os.chmod(path, mode)
    return path


def contents(path):
    with open(path, "rb") as file:
        return file.read()


# ---- cases with their answers
def cases(text):
    """Tables and proposals, with the lines that are printed of them."""
    for line in text.splitlines():
        t, w, answer = [part.strip() for part in line.split("|")]
        yield [int(z) for z in t.split()], [int(z) for z in w.split()], answer.split(";")


def printed(*command, given=b""):
    return subprocess.run(command, input=given, stdout=subprocess.PIPE, check=True, timeout=60).stdout.decode()


BY_HAND, DRAWN = list(cases(printed(DIFFER, "cases"))), list(cases(printed(CASES, "150", "1")))
BARE = [2, 1, 0, 3, 1, 2, 1, 0, 1, 0, 0, 1, 0, 0, 0, 0, 0, 0, 0, 0, 0, 5, 0, 0]
BARE_PROPOSAL = [3, 1, 0, 1, 0, 0, 0, 0, 0, 0, 0, 5, 0, 5, 0, 5, 5, 5]
BARE_TEXT = "table %s # Bare\nproposal %s" % (" ".join(map(str, BARE)), " ".join(map(str, BARE_PROPOSAL)))
DISTURBED = BARE_PROPOSAL[:-2] + [4, 5]
DISTURBED_TEXT = "table %s\nproposal %s\nschedule 0 1" % (" ".join(map(str, BARE)), " ".join(map(str, DISTURBED)))
# the table of three tasks, with its proposal, of which the faults by hand are changes
[(SOUND, SOUND_PROPOSAL)] = [(t, w) for t, w, answer in BY_HAND if answer == ["accepted 2", "node 5 zero", "node 9 overflow"]]
SOUND_TEXT = "table %s\nproposal %s" % (" ".join(map(str, SOUND)), " ".join(map(str, SOUND_PROPOSAL)))
CHILDREN = {3: 1, 8: 3, 22: 1, **{kind: 2 for kind in (4, 5, 6, 7, 9, 16, 17, 18, 19, 20, 21)}}
OWN_WORDS = {0: 1, 1: 2, 2: 1}  # of the kinds without children


def refusal(answer):
    """The number and the place that a refusal names, or None."""
    words = answer[0].split()
    return (int(words[1]), int(words[4])) if words[0] == "refused" else None


class Parts:
    """The points and nodes of a valid table, four words each, and the task of each point."""

    def __init__(self, t):
        self.tasks, self.variables, self.mutexes, points, _ = t[:5]
        self.shares, self.starts = t[5 : 5 + self.tasks], t[5 + self.tasks : 5 + self.tasks + self.variables]
        fours = [t[i : i + 4] for i in range(5 + self.tasks + self.variables, len(t), 4)]
        self.points, self.nodes = fours[:points], fours[points:]
        self.owner = [u for u, share in enumerate(self.shares) for _ in range(share)]

    def roots(self, p):
        """The node that a point uses, if it does."""
        kind, a, b, _ = self.points[p]
        return {1: [b], 2: [a]}.get(kind, [])

    def tree(self, n):
        """A kind and its fields, with trees in place of node numbers."""
        kind, *fields = self.nodes[n]
        return (kind, *map(self.tree, fields[: CHILDREN[kind]])) if kind in CHILDREN else (kind, *fields[: OWN_WORDS[kind]])

    def nodes_of(self, n):
        kind, *fields = self.nodes[n]
        return {n}.union(*map(self.nodes_of, fields[: CHILDREN.get(kind, 0)]))

    def point_of(self, n):
        [found] = [p for p in range(len(self.points)) for root in self.roots(p) if n in self.nodes_of(root)]
        return found


class Proposed:
    """The parts of a proposal of the right length."""

    def __init__(self, t, w):
        _, variables, mutexes, points, _ = t[:5]
        self.lows, self.count = 4 + points + 3 * w[3], (points + mutexes) * variables + w[3]
        ends = list(zip(w[self.lows : self.lows + self.count], w[self.lows + self.count :]))
        rows = [ends[k * variables : (k + 1) * variables] for k in range(points + mutexes)]
        self.held, self.rows, self.rests, self.ranges = w[4 : 4 + points], rows[:points], rows[points:], ends[(points + mutexes) * variables :]
        self.heads = [w[i : i + 3] for i in range(4 + points, self.lows, 3)]


def with_ends(t, w, at, ends):
    """A proposal with another pair of ends, counted over rows, rest rows and entries."""
    parts, w = Proposed(t, w), list(w)
    w[parts.lows + at], w[parts.lows + parts.count + at] = ends
    return w


def with_entry(t, w, head, ends):
    """A proposal with one more entry, in its place."""
    parts, points = Proposed(t, w), t[3]
    i = sum(other < head for other in parts.heads)
    filed = len(parts.heads)
    heads = sum(parts.heads[:i] + [head] + parts.heads[i:], [])
    lows, highs = [[*(ends[side] for row in parts.rows + parts.rests for ends in row), *(r[side] for r in parts.ranges)] for side in (0, 1)]
    for side, all_ends in enumerate((lows, highs)):
        all_ends.insert(len(all_ends) - filed + i, ends[side])
    return w[:3] + [filed + 1] + w[4 : 4 + points] + heads + lows + highs


# ---- what several parts use
BARE_SHOWN = """accepted 0

2 tasks, 1 variable, 0 mutexes, 3 points, 1 node, 1 entry
at the start: v0 0

task 0
  point  holds  v0  instruction
  0      none   0   v0 := 5, on to 1
  1      none   5   end

task 1
  point  holds  v0    instruction
  2      none   0..5  end

what is written
  entry  task  holds  writes
  0      t0    none   v0 5""".split("\n")
NAMED = [
    "at the start: way 0", "  point  holds  way  instruction", "  0      none   0    way := 5, on to 1", "  1      none   5    end", "task 1 (walker)",
    "  point  holds  way   instruction", "  0      t0    none   way 5",
]
TEXT = example("tower", "tower.txt")


def text_of(rng, parts):
    """Sections in any layout, numbers with zeros in front or not."""
    text = ""
    for mark, words in parts:
        text += mark + rng.choice(("\n", " ", " # " + mark + " 5\n", "\r\n"))
        for word in words:
            text += rng.choice(("%d", "%d", "%020d")) % word + rng.choice((" ", " ", "\n", "\t", "  # 9 x\n", "#\n", "\r\n"))
    return text


def ends(low, high):
    """A range as it is printed."""
    told = {MIN: "MIN", MAX: "MAX"}
    return "..".join(str(told.get(z, z)) for z in ([low] if low == high else [low, high]))


def holds(t, held):
    if not -1 <= held < 2 ** t[2]:
        return "set(%d)" % held
    return "never" if held == -1 else "+".join("m%d" % m for m in range(t[2]) if held >> m & 1) or "none"


def closing(*descriptors):
    """Closes them in a process that is started."""
    return lambda: [os.close(descriptor) for descriptor in descriptors]


def raised(call, *arguments):
    try:
        return call(*arguments)
    except Exception as problem:
        return type(problem).__name__, str(problem)
