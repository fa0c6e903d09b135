#!/usr/bin/env python3
"""Shows that the claim over every schedule needs the rules and the steps as they are: each edit in tests/claim_edits changes a definition of a rule or
of a step so that the claim is false, and the proof of `soundness` must be refused at the law and for the fact that the edit names.

`rt must-fail` checks again only the crate that an edit changes. There the code no longer meets the definition, which says nothing of the claim. So
`rules`, `checker` and `run` are cut down, in a copy, to what the claim is about: the definitions and the laws that `soundness` rests on, and the types
that their roots declare. All of that must still be proved; `soundness` alone may be refused. The copy without an edit must be proved."""
import glob, os, re, shutil, subprocess, sys, tempfile
from concurrent.futures import ThreadPoolExecutor

HERE = os.path.dirname(os.path.abspath(__file__))
ROOT = os.path.dirname(HERE)
EDITS = os.path.join(HERE, "claim_edits")
WHOLE = ["interval", "words", "table", "analysis"]
CUT = ["rules", "checker", "run"]
CRATES = WHOLE + CUT + ["soundness"]
# what stays of a lib.rt: that its crate asks for tactics, a type of `words`, and each type that it declares, with its derives
DECLARED = r"^#!\[tactic\(auto\)\]$|^use words::\w+;$|^(?:#\[derive\([^)]*\)\]\n)?pub (?:struct|enum) \w+ \{.*?^\}$"


def text_of(*path):
    with open(os.path.join(*path), encoding="utf-8") as file:
        return file.read()


def write(text, *path):
    with open(os.path.join(*path), "w", encoding="utf-8") as file:
        file.write(text)


# ---- the copy
def used(crates):
    """The files that `soundness` rests on of each crate that is cut down: a folder, specs or proofs, and a name."""
    kept = {crate: set() for crate in CUT}
    todo = glob.glob(os.path.join(crates, "soundness/specs/*.antt")) + glob.glob(os.path.join(crates, "soundness/proofs/*.antt"))
    while todo:
        for crate, folder, name in re.findall(r"^use Rattle\.(\w+)\.(specs|proofs)\.(\w+)", text_of(todo.pop()), re.M):
            file = os.path.join(crates, crate, folder, name + ".antt")
            # a type that the crate declares has no file
            if crate in CUT and os.path.isfile(file) and (folder, name) not in kept[crate]:
                kept[crate].add((folder, name))
                todo.append(file)
    return kept


def cut_down(crates, crate, files):
    """Leaves the types that the crate's root declares, and those definitions and laws."""
    kept = {"%s/%s.antt" % file: text_of(crates, crate, "%s/%s.antt" % file) for file in files}
    for folder in "specs", "proofs":
        kept[folder + "/Lib.antt"] = "".join("pub mod %s\n" % name for where, name in sorted(files) if where == folder)
    kept["src/lib.rt"] = "\n".join(re.findall(DECLARED, text_of(crates, crate, "src/lib.rt"), re.M | re.S)) + "\n"
    for folder in "src", "specs", "proofs", "must-fail":
        shutil.rmtree(os.path.join(crates, crate, folder), ignore_errors=True)
    for file, text in kept.items():
        os.makedirs(os.path.dirname(os.path.join(crates, crate, file)), exist_ok=True)
        write(text, crates, crate, file)


def copied(top):
    """A repository of the crates up to `soundness`, with what has been proved of those below the ones that are cut down."""
    for crate in CRATES:
        shutil.copytree(os.path.join(ROOT, "crates", crate), os.path.join(top, "crates", crate), ignore=shutil.ignore_patterns("out"))
    for crate, files in used(os.path.join(top, "crates")).items():
        cut_down(os.path.join(top, "crates"), crate, files)
    lines = text_of(ROOT, "crates.txt").splitlines()
    write("".join(line + "\n" for line in lines if line.split(":")[0] in CRATES), top, "crates.txt")
    for crate in WHOLE:
        built = os.path.join("crates", crate, "out/rlib")
        if os.path.isdir(os.path.join(ROOT, built)):
            shutil.copytree(os.path.join(ROOT, built), os.path.join(top, built))


def checked(top):
    """The crates that are proved there, and the first error with its crate."""
    told = subprocess.run(["rt", "all", "check", "--jobs", "1"], cwd=top, capture_output=True, text=True)
    # a part for each crate under its name, and then the summary
    parts = re.split(r"^== (\w+)\n", told.stdout + told.stderr, flags=re.M)
    errors = [(crate, text) for crate, said in zip(parts[1::2], parts[2::2]) for text in re.findall(r"^\S+: error: (.*(?:\n  .*)*)", said, re.M)]
    return set(re.findall(r"^(\w+): ok$", parts[-1], re.M)), errors[0] if errors else None


# ---- the edits
def parsed(name):
    text = text_of(EDITS, name)
    return {key: value for key, value in re.findall(r"^(file|old|new|law|fact): (.*)$", text, re.M)}


def tried(name, top):
    """What is wrong with an edit's refusal, or nothing. The copy is as it came afterwards."""
    edit = parsed(name)
    source = text_of(top, "crates", edit["file"])
    if source.count(edit["old"]) != 1:
        return "its old line doesn't stand once in %s" % edit["file"]
    write(source.replace(edit["old"], edit["new"]), top, "crates", edit["file"])
    proved, error = checked(top)
    write(source, top, "crates", edit["file"])
    if set(WHOLE + CUT) - proved:
        return "%s not proved" % ", ".join(sorted(set(WHOLE + CUT) - proved))
    if "soundness" in proved or error is None:
        return "the claim is still proved"
    crate, text = error
    if crate != "soundness" or not text.startswith("`%s`:" % edit["law"]) or edit["fact"] not in text:
        return "the first error is another: %s: %s" % (crate, text[:600])
    return None


def answered(names):
    """The same for some edits, in a copy of their own, which must be proved without an edit."""
    with tempfile.TemporaryDirectory() as top:
        copied(top)
        proved, error = checked(top)
        if set(CRATES) - proved:
            return ["without an edit, %s not proved: %s" % (", ".join(sorted(set(CRATES) - proved)), error)] * len(names)
        return [tried(name, top) for name in names]


def main():
    # by file, so that what an edit leaves unchanged is checked again as seldom as can be
    names = sorted((name for name in os.listdir(EDITS) if name.endswith(".edit")), key=lambda name: parsed(name)["file"])
    halves = [names[0::2], names[1::2]]
    with ThreadPoolExecutor(2) as pool:
        faults = dict(zip(halves[0] + halves[1], sum(pool.map(answered, halves), [])))
    for name, fault in faults.items():
        if fault:
            print("FAILED: %s: %s" % (name, fault))
    print("claim_edits: %d edits, %d not refused as they should be" % (len(names), sum(fault is not None for fault in faults.values())))
    sys.exit(not names or any(faults.values()))


if __name__ == "__main__":
    main()
