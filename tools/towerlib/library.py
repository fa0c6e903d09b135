"""The proved library: built the first time that it is needed and again when its sources change, loaded through bindings/python; and the version."""
import contextlib, fcntl, hashlib, os, re, shutil, subprocess, sys, time
from .output import say

ROOT = os.path.dirname(os.path.dirname(os.path.dirname(os.path.abspath(__file__))))
FOLDER = os.path.join(ROOT, "target", "python")
LIBRARY, STAMP, LOG = [os.path.join(FOLDER, name) for name in ("librangecheck.so", "stamp", "build.log")]
CRATE = os.path.join(ROOT, "crates", "rangecheck_c")
ARCHIVE = os.path.join(ROOT, "target", "staticlib", "librangecheck_c.a")
BUILD_TIME, PROVE_TIME = "about 7 minutes", "about 8 minutes"  # on two cores
CLAIM = (
    "Proved: every public function gives what its definition says, for any words whatever; and for any table, any accepted proposal and any schedule, at the "
    "start and after every step, each task stands at a reached point and holds just the locks named there, every variable lies within its ranges, and "
    "whoever has stopped has stopped at an alarm that is listed."
)


class Unbuilt(Exception):
    """The library can't be had."""


# ---- what it is built from
def crates():
    """The crates that the library is made of, with those below each, from crates.txt."""
    below = {}
    with open(os.path.join(ROOT, "crates.txt"), encoding="utf-8") as file:
        for line in file:
            name, colon, rest = line.partition("#")[0].partition(":")
            if colon:
                below[name.split()[0]] = rest.split()
    found, todo = set(), ["rangecheck_c"]
    while todo:
        name = todo.pop()
        if name in below and name not in found:
            found.add(name)
            todo += below[name]
    return sorted(found)


def digest():
    """A sum over every file that the library is proved and built from."""
    total = hashlib.sha256()
    for crate in crates():
        for part in ("src", "specs", "proofs"):
            for folder, folders, names in os.walk(os.path.join(ROOT, "crates", crate, part)):
                folders.sort()
                for name in sorted(names):
                    path = os.path.join(folder, name)
                    with open(path, "rb") as file:
                        total.update(b"%s %s\n" % (os.path.relpath(path, ROOT).encode(), hashlib.sha256(file.read()).hexdigest().encode()))
    return total.hexdigest()


def kit():
    """What `rt version` says, or nothing where there is no kit."""
    try:
        return subprocess.run(["rt", "version"], stdout=subprocess.PIPE, stderr=subprocess.DEVNULL, check=True).stdout.decode().strip()
    except (OSError, subprocess.CalledProcessError):
        return ""


# ---- building
def shown(command, log, tell, folder=ROOT):
    """Runs a command in a folder, with all that it prints in the log, and tells each crate as it is proved."""
    crate, began = None, time.monotonic()
    try:
        running = subprocess.Popen(command, cwd=folder, stdin=subprocess.DEVNULL, stdout=subprocess.PIPE, stderr=subprocess.STDOUT, text=True, errors="replace")
    except OSError as problem:
        raise Unbuilt("%s: %s" % (command[0], problem.strerror)) from None
    with running:
        for line in running.stdout:
            log.write(line)
            found = re.match(r"crate (\w+): |logic=(not-)?proved\b", line)
            if found and found.group(1):
                crate = found.group(1)
            elif found and crate and tell:
                say("tower: %s %s (after %d s)" % (crate, "NOT PROVED" if found.group(2) else "proved", time.monotonic() - began))
                crate = None
    if running.returncode:
        raise Unbuilt("`%s` failed with status %d; what it said is in %s" % (" ".join(command), running.returncode, os.path.relpath(log.name)))


def build():
    """Proves the static library and links the shared object. One process builds at a time; who waited finds them built."""
    for tool in ("rt", "cc"):
        if shutil.which(tool) is None:
            raise Unbuilt("the proved library isn't built, and there is no `%s` on the PATH to build it with" % tool)
    began = time.monotonic()
    os.makedirs(FOLDER, exist_ok=True)
    say("tower: proving and building the library: %s, once; rt's notes go to %s" % (BUILD_TIME, os.path.relpath(LOG)))
    now = digest()
    with open(LOG, "w", encoding="utf-8") as log:
        shown(["rt", "lib"], log, True, CRATE)
        os.makedirs(os.path.dirname(ARCHIVE), exist_ok=True)
        shutil.copyfile(os.path.join(CRATE, "out", "librangecheck_c.a"), ARCHIVE + ".new")
        whole = ["-Wl,--whole-archive", ARCHIVE + ".new", "-Wl,--no-whole-archive"]
        shown(["cc", "-shared", "-o", LIBRARY + ".new", *whole], log, False)
    os.replace(ARCHIVE + ".new", ARCHIVE)
    os.replace(LIBRARY + ".new", LIBRARY)
    with open(STAMP, "w", encoding="utf-8") as file:
        file.write(now)
    say("tower: built in %d s" % (time.monotonic() - began))


def fresh():
    """Whether the libraries were built from the files as they are now."""
    try:
        with open(STAMP, encoding="utf-8", errors="replace") as file:
            return os.path.exists(LIBRARY) and os.path.exists(ARCHIVE) and file.read() == digest()
    except OSError:
        return False


@contextlib.contextmanager
def alone():
    """One at a time."""
    os.makedirs(os.path.dirname(FOLDER), exist_ok=True)
    with open(FOLDER + ".lock", "w") as file:
        fcntl.flock(file, fcntl.LOCK_EX)
        yield


def ready():
    """The binding with its library loaded."""
    if not fresh():
        try:
            with alone():
                if not fresh():
                    build()
        except OSError as problem:
            raise Unbuilt("the library can't be built: %s: %s" % (problem.filename, problem.strerror)) from None
    sys.path.insert(0, os.path.join(ROOT, "bindings", "python"))
    try:
        import rangecheck

        rangecheck.LIBRARY = LIBRARY  # whatever the environment says
        rangecheck.load()
    except (ImportError, OSError) as problem:
        raise Unbuilt("the proved library can't be loaded: %s" % problem) from None
    return rangecheck


def prove():
    """Proves every crate, with what is claimed of every schedule."""
    say("tower: proving every crate: %s if nothing is proved yet; rt's notes go to %s" % (PROVE_TIME, os.path.relpath(LOG)))
    try:
        with alone():
            os.makedirs(FOLDER, exist_ok=True)
            with open(LOG, "w", encoding="utf-8") as log:
                shown(["rt", "all", "check"], log, True)
    except OSError as problem:
        raise Unbuilt("%s: %s" % (problem.filename, problem.strerror)) from None
    return CLAIM


# ---- the version
def version():
    """The header's version, the commit and the kit."""
    with open(os.path.join(ROOT, "include", "rangecheck.h"), encoding="utf-8") as file:
        number = re.search(r'#define RANGECHECK_VERSION "(.*)"', file.read()).group(1)
    try:
        ran = subprocess.run(["git", "--no-optional-locks", "describe", "--always", "--dirty", "--abbrev=12"], cwd=ROOT, stdout=subprocess.PIPE, stderr=subprocess.DEVNULL, check=True)
        commit = ran.stdout.decode().strip()
    except (OSError, subprocess.CalledProcessError):
        commit = "unknown"
    return "tower %s\ncommit %s\n%s" % (number, commit, kit() or "no Rattle kit")
