"""The proved check, proposer and run from Python: ctypes over a shared object that is linked from librangecheck_c.a, with the standard library alone.

All three take any 32-bit words whatever and always come back: each is proved equal to a definition, for every table, proposal, list of thresholds and
schedule. Call from a thread with 2 MB of stack or more, as include/rangecheck.h says.

    >>> import rangecheck
    >>> table = [2, 1, 0, 3, 1, 2, 1, 0, 1, 0, 0, 1, 0, 0, 0, 0, 0, 0, 0, 0, 0, 5, 0, 0]
    >>> proposal = [3, 1, 0, 1, 0, 0, 0, 0, 0, 0, 0, 5, 0, 5, 0, 5, 5, 5]
    >>> rangecheck.check(table, proposal)
    []
    >>> rangecheck.propose(table, [5]) == (proposal, 2)  # in two passes
    True
    >>> rangecheck.run(table, [0]).values[0]
    5
    >>> proposal[16] = 4
    >>> rangecheck.check(table, proposal)
    Traceback (most recent call last):
    rangecheck.Refusal: refused 15 disturb at 2

The shared object is target/python/librangecheck.so of this repository, which `tools/tower build` makes, or what RANGECHECK_LIBRARY names."""
import ctypes, os
from array import array
from typing import List, NamedTuple

ALARM_WORDS, PROPOSAL_WORDS, STATE_WORDS = 4096, 9988, 48
WORDS = "length size share node point use reach match range order start locks flow write disturb rest room walks rise space".split()
KINDS = {1: "overflow", 2: "zero"}
ROOT = os.path.dirname(os.path.dirname(os.path.dirname(os.path.abspath(__file__))))
LIBRARY = os.environ.get("RANGECHECK_LIBRARY") or os.path.join(ROOT, "target", "python", "librangecheck.so")
assert array("i").itemsize == 4


class Refusal(Exception):
    """The first broken rule and its smallest place."""

    def __init__(self, number, place):
        self.number, self.place, self.word = number, place, word_of(number)
        super().__init__("refused %d %s at %d" % (number, self.word, place))


class Alarm(NamedTuple):
    """A node that needs a guard, and against what: `overflow` or `zero`."""

    node: int
    kind: str


class Proposal(NamedTuple):
    """A proposal that was made, and how many passes it took, the last of which changed nothing."""

    words: List[int]
    passes: int


class State(NamedTuple):
    """A state of a run: each task's point, each variable, each mutex's owner or -1, each task's stop node or -1 and kind or 0. Slots past the table's
    sizes are 0."""

    points: List[int]
    values: List[int]
    owners: List[int]
    stop_nodes: List[int]
    stop_kinds: List[int]


class _Answer(ctypes.Structure):
    _fields_ = [("number", ctypes.c_uint32), ("place", ctypes.c_uint64), ("count", ctypes.c_uint64)]


class _Proposed(ctypes.Structure):
    _fields_ = [("number", ctypes.c_uint32), ("place", ctypes.c_uint64), ("words", ctypes.c_uint64), ("passes", ctypes.c_uint64)]


_CALLS = (("rangecheck_check", ctypes.c_int32, _Answer), ("rangecheck_propose", ctypes.c_int32, _Proposed), ("rangecheck_run", ctypes.c_int64, _Answer))
_loaded = {}


def load():
    """The shared object, loaded once."""
    if LIBRARY not in _loaded:
        library = ctypes.CDLL(LIBRARY)
        for name, word, answer in _CALLS:
            call = getattr(library, name)
            read, written = ctypes.POINTER(ctypes.c_int32), ctypes.POINTER(word)
            call.argtypes = [read, ctypes.c_size_t, read, ctypes.c_size_t, written, ctypes.c_size_t]
            call.restype = answer
        _loaded[LIBRARY] = library
    return _loaded[LIBRARY]


def word_of(number):
    """The trade's word for a refusal."""
    return WORDS[number - 1] if 1 <= number <= len(WORDS) else "short"


def _lent(words):
    """Words as C reads them, and how many. A number that is no 32-bit word is an OverflowError. One more is lent, because a slice of length 0 wants a
    pointer too."""
    words = array("i", list(words))
    return (ctypes.c_int32 * (len(words) + 1)).from_buffer(words + array("i", [0])), len(words)


def check_into(table, proposal, alarms):
    """Checks a proposal against a table, and gives the number of alarms, which stand at the front of a ctypes array of 32-bit words in pairs of a node
    and a kind. Later words keep their contents; a Refusal is raised otherwise, and changes none."""
    answer = load().rangecheck_check(*_lent(table), *_lent(proposal), alarms, len(alarms))
    if answer.number:
        raise Refusal(answer.number, answer.place)
    return answer.count


def check(table, proposal):
    """The exact list of possible alarms, by node, then kind; or a Refusal is raised."""
    alarms = (ctypes.c_int32 * ALARM_WORDS)()
    count = check_into(table, proposal, alarms)
    return [Alarm(alarms[2 * k], KINDS[alarms[2 * k + 1]]) for k in range(count)]


def propose_into(table, thresholds, proposal):
    """Makes a proposal for a table by rising thresholds, 32 at most, and gives the number of its words, which stand at the front of a ctypes array of 32-bit
    words, and that of the passes. Later words keep their contents; a Refusal is raised otherwise, and changes none."""
    answer = load().rangecheck_propose(*_lent(table), *_lent(thresholds), proposal, len(proposal))
    if answer.number:
        raise Refusal(answer.number, answer.place)
    return answer.words, answer.passes


def propose(table, thresholds):
    """A proposal that the check accepts, and the number of passes; or a Refusal is raised."""
    proposal = (ctypes.c_int32 * PROPOSAL_WORDS)()
    words, passes = propose_into(table, thresholds, proposal)
    return Proposal(proposal[:words], passes)


def run_into(table, schedule, answer):
    """Plays a table by a schedule, with the state's words written to the front of a ctypes array of 64-bit words; later words keep their contents. A
    Refusal is raised otherwise, and changes none."""
    told = load().rangecheck_run(*_lent(table), *_lent(schedule), answer, len(answer))
    if told.number:
        raise Refusal(told.number, told.place)


def run(table, schedule):
    """The last state of the run; or a Refusal is raised."""
    words = (ctypes.c_int64 * STATE_WORDS)()
    run_into(table, schedule, words)
    return State(words[0:8], words[8:24], words[24:32], words[32:40], words[40:48])
