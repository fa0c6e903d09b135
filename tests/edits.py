#!/usr/bin/env python3
"""Tries further wrong programs, those of tests/edits/CRATE: `tests/edits.py [CRATE..]`, after `rt check` or `rt ci`. The prover must refuse each.

They show more faults of the contracts that the edits in crates/CRATE/must-fail are for, which `rt ci` tries. Each crate is proved once, in a copy of its own,
and its edits are tried there by `rt check`, which checks again only what an edit touches: a refusal there is one all the same. The copy without an edit must be proved, before the edits and after them, so that no edit is refused for what another left behind."""
import glob, os, re, shutil, subprocess, sys, tempfile, time
from concurrent.futures import ThreadPoolExecutor

HERE = os.path.dirname(os.path.abspath(__file__))
ROOT = os.path.dirname(HERE)


def text_of(path):
    with open(path, encoding="utf-8") as file:
        return file.read()


def write(text, path):
    with open(path, "w", encoding="utf-8") as file:
        file.write(text)


def edits_of(crate):
    return sorted(glob.glob(os.path.join(HERE, "edits", crate, "*.edit")))


def copied(top, crate):
    """The crates with the libraries that were built of them, and for this crate what its own check kept."""
    shutil.copy(os.path.join(ROOT, "crates.txt"), top)
    shutil.copytree(os.path.join(ROOT, "crates"), os.path.join(top, "crates"), ignore=shutil.ignore_patterns("incremental"))
    kept = os.path.join("crates", crate, "out/incremental")
    if os.path.isdir(os.path.join(ROOT, kept)):
        shutil.copytree(os.path.join(ROOT, kept), os.path.join(top, kept))


def checked(top, crate):
    """'proved', 'refused' by the prover, or 'no verdict' (the text is no program, say), and the first error."""
    done = subprocess.run(["rt", "check"], cwd=os.path.join(top, "crates", crate), capture_output=True, text=True)
    lines = (done.stdout + done.stderr).split("\n")
    errors = [line for line in lines if ": error" in line or re.match(r"note: src/\S+ it is not proved", line)]
    refused = done.returncode == 1 and any(line.startswith("logic=not-proved") for line in lines)
    verdict = "proved" if done.returncode == 0 else "refused" if refused else "no verdict"
    return verdict, errors[0].replace(top + "/", "")[:300] if errors else "no error was told"


def field(edit, name):
    found = [line[len(name) + 2:] for line in edit.split("\n") if line.startswith(name + ": ")]
    assert len(found) == 1, "one line '%s:'" % name
    return found[0]


def tried(top, crate, path):
    """Whether the edit is refused. The copy is as it came afterwards."""
    edit = text_of(path)
    file = os.path.join(top, "crates", crate, field(edit, "file"))
    text = text_of(file)
    assert text.count(field(edit, "old")) == 1, "%s: its old line stands once" % path
    write(text.replace(field(edit, "old"), field(edit, "new")), file)
    began = time.monotonic()
    verdict, error = checked(top, crate)
    write(text, file)
    said = "refused" if verdict == "refused" else "NOT REFUSED, " + verdict
    print("edits: %s/%s: %s (%d s; %s)" % (crate, os.path.basename(path)[:-5], said, time.monotonic() - began, error), flush=True)
    return verdict == "refused"


def unedited(top, crate, when):
    """Whether the copy is proved without an edit."""
    verdict, error = checked(top, crate)
    if verdict != "proved":
        print("edits: %s: %s without an edit, %s them: %s" % (crate, verdict, when, error), flush=True)
    return verdict == "proved"


def answered(crate):
    """How many edits of a crate are not refused; a copy that isn't proved without them counts as one."""
    with tempfile.TemporaryDirectory() as top:
        copied(top, crate)
        if not unedited(top, crate, "before"):
            return 1
        wrong = sum(not tried(top, crate, path) for path in edits_of(crate))
        return wrong + (not unedited(top, crate, "after"))


def main():
    crates = sys.argv[1:] or os.listdir(os.path.join(HERE, "edits"))
    crates = sorted(crates, key=lambda crate: -len(edits_of(crate)))
    with ThreadPoolExecutor(os.cpu_count()) as pool:
        wrong = sum(pool.map(answered, crates))
    count = sum(len(edits_of(crate)) for crate in crates)
    print("edits: %d edits of %d crates, %d not refused" % (count, len(crates), wrong))
    sys.exit(not count or wrong != 0)


main()
