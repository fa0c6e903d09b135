"""Output to files, full disks, closed descriptors and pipes."""
import errno, os, re, resource, signal, stat, subprocess, threading
from .common import (
    BARE_TEXT, COMMAND, DISTURBED_TEXT, MIN, TEXT, as_bytes, closing, contents, example, expect, folder_of, printed, put, started, tower, tried,
)
from .decoding import BARE_DECODED

WITH_OUTPUT = [
    ("check", "-q"), ("check", "-q", "--json"), ("propose",), ("propose", "--json"), ("show",), ("show", "--json"), ("run",), ("run", "--json"), ("picture",), ("encode",), ("encode", "--run"), ("decode",),
]
EVERY = [*((*options, TEXT) for options in WITH_OUTPUT), ("check", TEXT), ("--help",), ("check", "--help"), ("--version",), ("build",)]


def limited():
    """A process that is started can't write a file of more than 10 bytes."""
    resource.setrlimit(resource.RLIMIT_FSIZE, (10, 10))


def mode_of(path):
    return stat.S_IMODE(os.stat(path).st_mode)


def replacing():
    mask = os.umask(0o027)
    os.umask(mask)
    with folder_of({"old.txt": "old\n", "wrong.txt": DISTURBED_TEXT, "bad.txt": "table x", "refused.txt": "table 9 proposal schedule"}) as folder:
        path = lambda name: os.path.join(folder, name)
        there = sorted(os.listdir(folder))
        for options in WITH_OUTPUT:
            want = tower(*options, TEXT)
            expect("%s works" % (options,), (want[1:], len(want[0]) > 20), (("", 0), True))
            # a new file, one that is there, one behind a link, which stays, and one that isn't there behind a link
            for name, mode in (("new", None), ("old", 0o600), ("old", 0o751)):
                if mode is not None:
                    put(path(name), "old\n", mode)
                expect("%s -o %s" % (options, name), tower(*options, "-o", path(name), TEXT), (b"", "", 0))
                expect("what %s writes to %s" % (options, name), (contents(path(name)), mode_of(path(name))), (want[0], 0o666 & ~mask if mode is None else mode))
                os.unlink(path(name))
            for name in ("target", "none"):
                if name == "target":
                    put(path(name), "old\n", 0o640)
                os.symlink(name, path("link"))
                expect("%s -o link" % (options,), tower(*options, "--output", path("link"), TEXT), (b"", "", 0))
                expect("what %s writes behind a link" % (options,), (os.readlink(path("link")), contents(path(name))), (name, want[0]))
                os.unlink(path("link"))
                os.unlink(path(name))
            # input that can't be read, and a write that fails: the old file stays
            for bad in ("bad.txt", "none.txt"):
                expect("%s -o from %s" % (options, bad), tower(*options, "-o", path("old.txt"), path(bad))[::2], (b"", 2))
            got = started(*options, "-o", path("old.txt"), TEXT, first=limited)
            expect("%s -o without room" % (options,), got, (b"", "%s: File too large\n" % path("old.txt"), 2))
            expect("what is there after %s" % (options,), (contents(path("old.txt")), sorted(os.listdir(folder))), (b"old\n", there))
            # a refusal goes to a file only from show, run and picture
            source = path("refused.txt" if options[0] in ("run", "propose") else "wrong.txt")
            if options[0] in ("check", "propose", "show", "run", "picture"):
                shown, said, _ = tower(*options, source)
                expect("%s -o, refused" % (options,), tower(*options, "-o", path("old.txt"), source), (b"", said, 1))
                want = b"old\n" if options[0] in ("check", "propose") else shown
                expect("what is there after %s, refused" % (options,), (contents(path("old.txt")), sorted(os.listdir(folder))), (want, there))
            put(path("old.txt"), "old\n")
            tried("outputs", 9)
        out, error, status = tower("check", "-o", path("old.txt"), path("wrong.txt"))
        expect("check -o, refused, says why", (out, error.splitlines()[0], status), (b"", path("wrong.txt") + ":1:39: refused 15 disturb at 2", 1))
        # where the disk is only found to be full when all is flushed
        def full_at_last(descriptor):
            raise OSError(errno.ENOSPC, os.strerror(errno.ENOSPC))
        flush, os.fsync = os.fsync, full_at_last
        try:
            for options in WITH_OUTPUT:
                expect("%s to what can't be flushed" % (options,), tower(*options, TEXT)[1:], ("standard output: No space left on device\n", 2))
                expect("%s -o to what can't be flushed" % (options,), tower(*options, "-o", path("old.txt"), TEXT), (b"", "%s: No space left on device\n" % path("old.txt"), 2))
                expect("what is there after %s isn't flushed" % (options,), (contents(path("old.txt")), sorted(os.listdir(folder))), (b"old\n", there))
                tried("outputs", 2)
        finally:
            os.fsync = flush
        # the file that is read, one in another folder, no folder, a folder
        put(path("both.txt"), BARE_TEXT)
        expect("decode -o over its input", tower("decode", "-o", path("both.txt"), path("both.txt")), (b"", "", 0))
        expect("what is there", contents(path("both.txt")).decode().splitlines(), BARE_DECODED)
        before = os.getcwd()
        os.chdir(folder)
        try:
            expect("-o without a folder", (tower("check", "-q", "-o", "here", TEXT), contents("here")[:9]), ((b"", "", 0), b"accepted "))
        finally:
            os.chdir(before)
        for name, message in (("none/x", "No such file or directory"), ("both.txt/x", "Not a directory"), ("", "Is a directory")):
            got = tower("check", "-q", "-o", path(name), TEXT)
            expect("-o %s" % name, (got[0], got[1].endswith(": %s\n" % message) and folder in got[1], got[2]), (b"", True, 2))
        expect("-o without a name", tower("check", "-q", "-o", "", TEXT)[::2], (b"", 2))


def devices():
    """What is no plain file is written as it is."""
    want = tower("show", TEXT)[0]
    with folder_of() as folder:
        fifo, read = os.path.join(folder, "fifo"), []
        os.mkfifo(fifo)
        reader = threading.Thread(target=lambda: read.append(contents(fifo)), daemon=True)
        reader.start()
        got = started("show", "-o", fifo, TEXT)
        reader.join(20)
        expect("-o to a fifo", (got, read, stat.S_ISFIFO(os.lstat(fifo).st_mode)), ((b"", "", 0), [want], True))
        os.symlink("/dev/full", os.path.join(folder, "full"))
        for path in ("/dev/null", "/dev/full", os.path.join(folder, "full")):
            got = started("show", "-o", path, TEXT)
            want_said = (b"", "", 0) if path == "/dev/null" else (b"", ": No space left on device\n", 2)
            expect("-o %s" % path, (got[0], re.sub("^[^:]*", "", got[1]), got[2]), want_said)
        expect("devices stay", [stat.S_ISCHR(os.lstat(path).st_mode) for path in ("/dev/null", "/dev/full")] + [os.path.islink(path)], [True] * 3)
        expect("-o to standard output, a pipe", started("show", "-o", "/dev/stdout", TEXT), (want, "", 0))
        expect("-o to a pipe by its name", printed("bash", "-c", '"$0" show -o >(cat) "$1"; wait $!', COMMAND, TEXT), want.decode())
        with open(os.path.join(folder, "out"), "wb") as file:
            expect("-o to standard output, a file", started("show", "-o", "/dev/stdout", TEXT, stdout=file), (None, "", 0))
        expect("what is there", (contents(os.path.join(folder, "out")), sorted(os.listdir(folder))), (want, ["fifo", "full", "out"]))
        tried("outputs", 8)


def streams():
    full = open("/dev/full", "wb")
    for options in EVERY:
        expect("%s to /dev/full" % (options,), started(*options, stdout=full), (None, "standard output: No space left on device\n", 2))
        got = started(*options, stdout=subprocess.DEVNULL, first=closing(1))
        expect("%s to a closed descriptor" % (options,), got, (None, "standard output: Bad file descriptor\n", 2))
        read, write = os.pipe()
        os.close(read)
        expect("%s to a closed pipe" % (options,), started(*options, stdout=write), (None, "", 2))
        os.close(write)
        tried("outputs", 3)
    whole = [options for options in EVERY if options not in (("--help",), ("check", "--help"), ("--version",), ("build",))]
    with folder_of({"old": "old"}) as folder:
        for options in whole:  # into a file with a limit
            with open(os.path.join(folder, "out"), "wb") as file:
                expect("%s into a file with a limit" % (options,), started(*options, stdout=file, first=limited), (None, "standard output: File too large\n", 2))
            tried("outputs")
        out = os.path.join(folder, "out")
        # nothing else is open: what is written to a file isn't written to a descriptor that was closed
        got = started("check", "-o", out, TEXT, stdin=subprocess.DEVNULL, stdout=subprocess.DEVNULL, stderr=subprocess.DEVNULL, first=closing(0, 1, 2))
        expect("-o with all descriptors closed", (got[2], contents(out)), (0, b"accepted 2\nnode 29 overflow\nnode 40 zero\n"))
    wrong = example("tower", "wrong.txt")
    read, write = os.pipe()
    os.close(read)
    for options, status in ((("check", wrong), 1), (("show", wrong), 1), (("check", TEXT), 0), (("check", example("none.txt")), 2), (("frob",), 2), (("run", TEXT), 0)):
        want = tower(*options)
        for name, more in (("closed", dict(stderr=subprocess.DEVNULL, first=closing(2))), ("full", dict(stderr=full)), ("piped", dict(stderr=write))):
            expect("%s with a %s standard error" % (options, name), started(*options, **more), (want[0], None, status))
        expect("%s with standard input closed" % (options,), started(*options, stdin=subprocess.DEVNULL, first=closing(0)), want)
        expect("%s to /dev/full" % (options,), started(*options, stdout=full)[2], 2)
        tried("outputs", 5)
    os.close(write)
    for command in ("check", "propose", "show", "run", "picture", "encode", "decode"):
        got = started(command, stdin=subprocess.DEVNULL, first=closing(0))
        expect("%s from a closed descriptor" % command, got, (b"", "<stdin>:1:1: the text ends and has no section 'table'\n", 2))
        none = dict(stdin=subprocess.DEVNULL, stdout=subprocess.DEVNULL, stderr=subprocess.DEVNULL)
        expect("%s with no descriptor at all" % command, started(command, TEXT, first=closing(0, 1, 2), **none)[2], 2)
        expect("%s from what can't be read" % command, started(command, stdin=full), (b"", "<stdin>: Bad file descriptor\n", 2))
        tried("outputs", 3)
    full.close()
    long = as_bytes([1] * 5149, [MIN] * 11268)
    expect("a long text through a pipe", started("decode", given=long), tower("decode", given=long))
    # interrupted while it reads
    with folder_of() as folder:
        fifo = os.path.join(folder, "fifo")
        os.mkfifo(fifo)
        running = subprocess.Popen([COMMAND, "check", fifo], stdout=subprocess.PIPE, stderr=subprocess.PIPE)
        with open(fifo, "wb"):  # it has been opened
            running.send_signal(signal.SIGINT)
            expect("interrupted", (*running.communicate(timeout=60), running.returncode), (b"", b"interrupted\n", 2))
    tried("outputs", 2)


def full_disk():
    """A file system of two pages, where this may be made."""
    with folder_of() as folder:
        if subprocess.run(["mount", "-t", "tmpfs", "-o", "size=8k", "tmpfs", folder], stderr=subprocess.DEVNULL).returncode:
            print("tools: no file system of two pages: mount isn't allowed here")
            return
        try:
            old, out = put(os.path.join(folder, "old"), "old\n"), os.path.join(folder, "out")
            for options in (("show", "--json"), ("run", "--json"), ("picture",), ("decode",), ("propose",)):
                if len(tower(*options, TEXT)[0]) <= 8192:
                    continue
                expect("%s -o on a full disk" % (options,), started(*options, "-o", old, TEXT), (b"", "%s: No space left on device\n" % old, 2))
                expect("%s -o on a full disk, a new file" % (options,), started(*options, "-o", out, TEXT), (b"", "%s: No space left on device\n" % out, 2))
                expect("what is there after %s" % (options,), (contents(old), os.listdir(folder)), (b"old\n", ["old"]))
                with open(out, "wb") as file:
                    expect("%s to a full disk" % (options,), started(*options, TEXT, stdout=file), (None, "standard output: No space left on device\n", 2))
                os.unlink(out)
                tried("outputs", 3)
            # when there is room again it works
            expect("check -o on that disk", (started("check", "-q", "-o", old, TEXT), contents(old)[:11]), ((b"", "", 0), b"accepted 2\n"))
        finally:
            subprocess.run(["umount", folder], check=True)
