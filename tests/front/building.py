"""How the library is built, with a kit that only pretends."""
import contextlib, os, re, shutil, signal, subprocess, sys, time
from .common import BARE_TEXT, BUILT, COMMAND, ROOT, SOUND_TEXT, TEXT, closing, contents, example, expect, folder_of, put, started, tower, tried

RT = """#!/bin/sh
here=$(dirname "$0")
echo "rt $*" >> "$here/calls"
if test "$1" = version; then echo 'rt 0.0, which only pretends'; exit; fi
test ! -e "$here/slow" || sleep 0.7
test ! -e "$here/fail-$1" || { echo "a note on what failed" >&2; printf 'crate middle: modules loaded=0\\nlogic=not-proved\\n'; exit 3; }
if test "$1" = lib; then mkdir -p out && echo archive > out/librangecheck_c.a; set -- low middle; else set -- low middle other soundness; fi
for crate; do printf 'library %s: a note of rt\\ncrate %s: modules loaded=0\\nlogic=proved functions=1\\n' "$crate" "$crate"; done
"""
CC = """#!/bin/sh
here=$(dirname "$0")
echo "cc" >> "$here/calls"
test ! -e "$here/fail-cc" || { echo part > "$3"; exit 4; }
if test -e "$here/broken"; then echo broken > "$3"; else cp '%s' "$3"; fi
"""


def pretended(folder):
    """A kit and a linker that only pretend, and write down how they were called."""
    put(os.path.join(folder, "rt"), RT, 0o755)
    put(os.path.join(folder, "cc"), CC % BUILT, 0o755)
    return folder


class Copy:
    """A repository of its own, in which nothing is built yet."""

    def __init__(self, folder):
        self.folder, self.root, self.bin = folder, os.path.join(folder, "repository"), pretended(os.path.join(folder, "bin"))
        for part in ("tools", os.path.join("bindings", "python"), "include"):
            shutil.copytree(os.path.join(ROOT, part), os.path.join(self.root, part), ignore=shutil.ignore_patterns("__pycache__"))
        self.put("crates.txt", "# what is below what\nlow:\nmiddle: low # a comment: too\nother: low\nrangecheck_c staticlib: middle low io\n")
        for crate in ("low", "middle", "other", "rangecheck_c"):
            for part in ("src", "specs", "proofs"):
                self.put("crates/%s/%s/lib.rt" % (crate, part), crate)
        self.log, self.library, self.stamp = [self.path("target", "python", name) for name in ("build.log", "librangecheck.so", "stamp")]
        self.archive = self.path("target", "staticlib", "librangecheck_c.a")
        self.tower = os.path.join(self.root, "tools", "tower")

    def path(self, *names):
        return os.path.join(self.root, *names)

    def put(self, name, data):
        put(self.path(name), data)

    def calls(self):
        """How the kit and the linker were called since this was last asked."""
        path = os.path.join(self.bin, "calls")
        found = contents(path).decode().splitlines() if os.path.exists(path) else []
        put(path, "")
        return found

    @contextlib.contextmanager
    def sign(self, name):
        """Makes the kit or the linker do something else."""
        path = put(os.path.join(self.bin, name), "")
        yield
        os.unlink(path)

    def fresh(self):
        shutil.rmtree(self.path("target"), ignore_errors=True)
        self.calls()

    def run(self, *options, path=None, **more):
        more = {"given": BARE_TEXT.encode(), "cwd": self.root, **more}
        if "stdin" in more:
            del more["given"]
        return started(*options, path=path or self.bin + ":/usr/bin:/bin", command=(sys.executable, self.tower), **more)


STARTS = r"tower: proving and building the library: about \d+ minutes, once; rt's notes go to %s\n"
ENDS = r"tower: built in \d+ s\n"
CALLED = ["rt lib", "cc"]


def built_once(copy):
    whole = STARTS % "target/python/build.log" + r"tower: low proved \(after \d+ s\)\ntower: middle proved \(after \d+ s\)\n" + ENDS
    out, error, status = copy.run("check")
    expect("the first check", (out, re.fullmatch(whole, error) is not None or error, status, copy.calls()), (b"accepted 0\n", True, 0, CALLED))
    log = contents(copy.log).decode()
    expect("rt's notes", [line in log for line in ("library low: a note of rt\n", "crate middle: modules loaded=0\n", "logic=proved functions=1\n")], [True] * 3)
    for options in (("check",), ("show",), ("picture",), ("build",)):
        out, error, status = copy.run(*options)
        expect("%s when it is built" % options, (out != b"", error, status, copy.calls()), (True, "", 0, []))
    expect("where it is", copy.run("build")[0].decode(), copy.library + "\n")
    expect("what is there", sorted(os.listdir(os.path.dirname(copy.library))), ["build.log", "librangecheck.so", "stamp"])
    expect("the archive", (os.listdir(os.path.dirname(copy.archive)), contents(copy.archive)), (["librangecheck_c.a"], b"archive\n"))


def built_again(copy):
    """When a file changes that the library is made of, and only then."""
    for what, change, called in (
        ("nothing", lambda: None, []),
        ("a source", lambda: copy.put("crates/low/src/lib.rt", "low, changed"), CALLED),
        ("a source, to the same", lambda: copy.put("crates/low/src/lib.rt", "low, changed"), []),
        ("a new proof", lambda: copy.put("crates/middle/proofs/more/new.rt", "new"), CALLED),
        ("no such proof", lambda: shutil.rmtree(copy.path("crates/middle/proofs/more")), CALLED),
        ("a specification's name", lambda: os.rename(copy.path("crates/low/specs/lib.rt"), copy.path("crates/low/specs/a.rt")), CALLED),
        ("the library's own crate", lambda: copy.put("crates/rangecheck_c/src/lib.rt", "changed"), CALLED),
        ("a crate that isn't part of it", lambda: copy.put("crates/other/src/lib.rt", "changed"), []),
        ("a page", lambda: copy.put("crates/low/README.md", "changed"), []),
        ("the stamp", lambda: os.unlink(copy.stamp), CALLED),
        ("the library", lambda: os.unlink(copy.library), CALLED),
        ("the archive", lambda: os.unlink(copy.archive), CALLED),
        ("the stamp, which is empty", lambda: put(copy.stamp, ""), CALLED),
        ("the stamp, which is damaged", lambda: put(copy.stamp, b"\xff"), CALLED),
        ("one more crate below", lambda: copy.put("crates.txt", "low:\nmiddle: low\nother: low\nrangecheck_c staticlib: middle other\n"), CALLED),
        ("one less", lambda: copy.put("crates.txt", "low:\nmiddle: low\nother: low\nrangecheck_c staticlib: middle\n"), CALLED),
    ):
        change()
        out, error, status = copy.run("check", cwd=copy.folder)
        said = re.match(STARTS % "repository/target/python/build.log", error) is not None
        expect("check after a change of %s" % what, (out, said, status, copy.calls()), (b"accepted 0\n", called != [], 0, called))
        tried("builds")


def unbuilt(copy):
    """What fails while it is built."""
    failed = r"`%s` failed with status \d+; what it said is in target/python/build\.log\n"
    for sign, command, told in (("fail-lib", "rt lib", True), ("fail-cc", "cc .*", False)):
        for before in (True, False):  # with an older library, and without any
            copy.fresh()
            if before:
                expect("a library", copy.run("check")[2], 0)
                copy.put("crates/low/src/lib.rt", sign)
            with copy.sign(sign):
                for options in (("check",), ("show", "--json"), ("build",)):
                    out, error, status = copy.run(*options)
                    last = error.splitlines(True)[-1]
                    expect("%s with %s" % (options, sign), (out, re.fullmatch(failed % command, last) is not None or last, status), (b"", True, 2))
                    expect("what is told with %s" % sign, (re.search(r"tower: middle NOT PROVED \(after \d+ s\)\n", error) is not None, "Traceback" in error), (told, False))
                    expect("no new library with %s" % sign, (os.path.exists(copy.library), os.path.exists(copy.stamp)), (before, before))
                if sign != "fail-cc":
                    expect("the notes of %s" % sign, "a note on what failed\n" in contents(copy.log).decode(), True)
            expect("check after %s" % sign, copy.run("check")[::2], (b"accepted 0\n", 0))
            tried("builds", 3)
    copy.fresh()
    empty = os.path.join(copy.folder, "empty")
    os.makedirs(empty, exist_ok=True)
    message = "the proved library isn't built, and there is no `%s` on the PATH to build it with\n"
    os.symlink(os.path.join(copy.bin, "rt"), os.path.join(empty, "rt"))
    expect("check without a linker", copy.run("check", path=empty), (b"", message % "cc", 2))
    os.unlink(os.path.join(empty, "rt"))
    for options in (("check",), ("show",), ("picture",), ("build",)):
        expect("%s without a kit" % options, copy.run(*options, path=empty), (b"", message % "rt", 2))
    out, error, status = copy.run("prove", path=empty)
    expect("prove without a kit", (out, "rt" in error.splitlines()[-1], "Traceback" in error, status), (b"", True, False, 2))
    for options in (("encode",), ("decode",), ("--help",), ("--version",)):
        expect("%s without a kit" % options, copy.run(*options, path=empty)[1:], ("", 0))
    expect("the version without a kit and a commit", copy.run("--version", path=empty)[0].decode().splitlines()[1:], ["commit unknown", "no Rattle kit"])
    copy.fresh()
    with copy.sign("broken"):
        out, error, status = copy.run("check")
        last = error.splitlines()[-1]
        expect("check with a broken library", (out, last[:36], "Traceback" in error, status), (b"", "the proved library can't be loaded: ", False, 2))
    copy.fresh()
    copy.put("target", "a file")
    for options in (("check",), ("prove",)):
        out, error, status = copy.run(*options)
        expect("%s where nothing can be built" % options, (out, copy.path("target") in error.splitlines()[-1], "Traceback" in error, status), (b"", True, False, 2))
    os.unlink(copy.path("target"))
    tried("builds", 14)


def proving(copy):
    copy.fresh()
    out, error, status = copy.run("prove")
    want = ["tower: %s proved" % crate for crate in ("low", "middle", "other", "soundness")]
    told = [re.sub(r" \(after \d+ s\)$", "", line) for line in error.splitlines()[1:]]
    expect("prove", (out[:8], out.count(b"\n"), told, status, copy.calls()), (b"Proved: ", 1, want, 0, ["rt all check"]))
    expect("what prove does", "about " in error.splitlines()[0] and "target/python/build.log" in error.splitlines()[0], True)
    expect("its notes", "library soundness: a note of rt\n" in contents(copy.log).decode(), True)
    with copy.sign("fail-all"):
        out, error, status = copy.run("prove")
        expect("prove where rt fails", (out, error.splitlines()[-1][:31], status), (b"", "`rt all check` failed with stat", 2))
    with open("/dev/full", "wb") as full:
        for options in (("prove",), ("build",), ("check",)):
            _, error, status = copy.run(*options, stdout=full)
            expect("%s to /dev/full" % options, (error.splitlines()[-1], status), ("standard output: No space left on device", 2))
            _, error, status = copy.run(*options, stdout=subprocess.DEVNULL, first=closing(1))
            expect("%s to a closed descriptor" % options, (error.splitlines()[-1], status), ("standard output: Bad file descriptor", 2))
    copy.fresh()
    got = copy.run("check", example("pair.txt"), stdin=subprocess.DEVNULL, stdout=subprocess.DEVNULL, stderr=subprocess.DEVNULL, first=closing(0, 1, 2))
    there = sorted(os.listdir(os.path.dirname(copy.library)))
    expect("a build with all descriptors closed", (got[2], copy.calls(), there), (2, CALLED, ["build.log", "librangecheck.so", "stamp"]))
    tried("builds", 9)


def at_once(copy):
    """Calls at once build once; and one that is interrupted leaves no library."""
    copy.fresh()
    env = {**os.environ, "PATH": copy.bin + ":/usr/bin:/bin"}
    start = lambda: subprocess.Popen([sys.executable, copy.tower, "check", example("pair.txt")], cwd=copy.root, env=env, stdout=subprocess.PIPE, stderr=subprocess.PIPE)
    with copy.sign("slow"):
        both = [start(), start()]
        got = [(*running.communicate(timeout=60), running.returncode) for running in both]
        expect("two at once", ([(out, status) for out, _, status in got], copy.calls()), ([(b"accepted 1\nnode 6 overflow\n", 0)] * 2, CALLED))
        copy.fresh()
        running = start()
        first = running.stderr.readline()
        time.sleep(0.2)
        running.send_signal(signal.SIGINT)
        out, error = running.communicate(timeout=60)
        expect("interrupted", (first[:15], out, error, running.returncode, os.path.exists(copy.library)), (b"tower: proving ", b"", b"interrupted\n", 2, False))
        time.sleep(1)  # its kit still sleeps
    expect("check after that", copy.run("check")[::2], (b"accepted 0\n", 0))
    tried("builds", 3)


def building():
    with folder_of() as folder:
        copy = Copy(folder)
        for part in (built_once, built_again, unbuilt, proving, at_once):
            part(copy)
    with folder_of() as folder:
        copy = Copy(os.path.join(folder, os.fsdecode(b"no UTF-8 \xff")))
        out, error, status = copy.run("build")
        expect("a build where the path is no UTF-8", (out, "Traceback" in error, status), (os.fsencode(copy.library) + b"\n", False, 0))
    # no other library is asked than the one that is proved here
    for other in ("/none.so", example("pair.txt")):
        expect("another library in the environment", started("check", "-q", TEXT, command=("env", "RANGECHECK_LIBRARY=" + other, COMMAND))[1:], ("", 0))


def surroundings():
    """Where and how it is started makes no difference."""
    text = ("# name t1 größe\n" + SOUND_TEXT).encode()
    want = tower("check", given=text)
    for setting in ("LC_ALL=C", "PYTHONUTF8=0", "PYTHONSAFEPATH=1", "PYTHONOPTIMIZE=2", "PYTHONDONTWRITEBYTECODE=1", "COLUMNS=1"):
        command = ("env", "PYTHONCOERCECLOCALE=0", setting, COMMAND)
        expect("check with %s" % setting, started("check", command=command, given=text), want)
        expect("--help with %s" % setting, started("--help", command=command)[1:], ("", 0))
        tried("outputs", 2)
    with folder_of() as folder:
        os.symlink(COMMAND, os.path.join(folder, "command"))
        put(os.path.join(folder, "rangecheck.py"), "raise SystemExit(0)")
        expect("check by a link", started("check", command=(os.path.join(folder, "command"),), given=text, cwd=folder), want)
