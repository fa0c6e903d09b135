"""Writing so that a build can trust it: every write is checked, a file is replaced only by the whole, and what can't be written is an error."""
import os, stat, tempfile

ACCEPTED, REFUSED, FAILED = 0, 1, 2  # exit status: accepted or done; refused; anything else


class Unwritten(Exception):
    """A write that failed. Without a message if the reader went away, which needs no word."""


def write_all(descriptor, data):
    view = memoryview(data)
    while view:
        view = view[os.write(descriptor, view) :]


def put(data):
    """Writes bytes to standard output."""
    try:
        write_all(1, data)
        if stat.S_ISREG(os.fstat(1).st_mode):
            os.fsync(1)  # some file systems find out only now that there is no room
    except BrokenPipeError:
        raise Unwritten() from None
    except OSError as problem:
        raise Unwritten("standard output: %s" % problem.strerror) from None


def replace(path, data):
    """Writes a file beside the one that is named and puts it in its place when all of it is there. What is no plain file is written as it is."""
    made = None
    try:
        before = os.stat(path) if os.path.exists(path) else None
        if before and not stat.S_ISREG(before.st_mode):
            with open(path, "wb", buffering=0) as file:
                write_all(file.fileno(), data)
            return
        path = os.path.realpath(path)  # a link stays one
        descriptor, made = tempfile.mkstemp(prefix=".tower-", dir=os.path.dirname(path))
        try:
            write_all(descriptor, data)
            mask = os.umask(0)
            os.umask(mask)
            os.fchmod(descriptor, stat.S_IMODE(before.st_mode) if before else 0o666 & ~mask)
            os.fsync(descriptor)
        finally:
            os.close(descriptor)
        os.replace(made, path)
        made = None
    except OSError as problem:
        raise Unwritten("%s: %s" % (path, problem.strerror)) from None
    finally:
        if made is not None:
            os.unlink(made)


def put_or_replace(path, data):
    put(data) if path is None else replace(path, data)


def say(*lines):
    """Lines to standard error. If it can't be written there is nobody to tell."""
    try:
        write_all(2, "".join(line + "\n" for line in lines).encode("utf-8", "backslashreplace"))
    except OSError:
        pass
