"""Proposals from the library: by which thresholds, and a call that says each second that it isn't done."""
import threading, time
from .notation import MAX, MIN, Bad, number, problem_of
from .output import say

THRESHOLDS = 32  # the most that the library takes
STACK = 2 ** 23  # bytes for a thread in which the library is called; 2 MB are enough
SECOND = 1.0


def own_thresholds(table):
    """The table's own numbers, constants, ends of inputs and starting values, and what lies one beside each, without MIN and MAX; of more than 32 the least, the
    greatest and 30 between them, at equal steps through all. Those beside are where a test cuts: `v < 10` leaves 9."""
    if table is None:  # its refusal is told before anything of thresholds
        return []
    named = table.starts + [z for kind, *ends in table.nodes if kind in (0, 1) for z in ends[: kind + 1]]
    rising = sorted({z for middle in named for z in (middle - 1, middle, middle + 1) if MIN < z < MAX})
    last = len(rising) - 1
    return rising if last < THRESHOLDS else [rising[k * last // (THRESHOLDS - 1)] for k in range(THRESHOLDS)]


def thresholds_in(text):
    """The thresholds that an option names, rising or not."""
    tokens = [token.strip() for token in text.split(",")] if text.strip() else []
    for token in tokens:
        if number(token) is None:
            raise Bad("--thresholds", problem_of(token, ""))
    return [number(token) for token in tokens]


def watched(call, *arguments, tell=say):
    """What a call gives. It can take long and can't be looked into, so it is made in a thread, where it can be interrupted, and each second it is told that it is
    still made."""
    ended = []

    def made():
        try:
            ended.append((call(*arguments), None))
        except Exception as problem:
            ended.append((None, problem))

    before = threading.stack_size(STACK)
    try:
        thread = threading.Thread(target=made, daemon=True)
        thread.start()
    except RuntimeError:
        raise MemoryError from None
    finally:
        threading.stack_size(before)
    began = time.monotonic()
    thread.join(SECOND)
    while thread.is_alive():
        tell("tower: still proposing, after %d s" % (time.monotonic() - began))
        thread.join(SECOND)
    [(result, problem)] = ended
    if problem is not None:
        raise problem
    return result
