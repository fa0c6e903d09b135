#!/usr/bin/env python3
"""Brings the definitions and lemmas of this repository to the spelling of today's Rattle: words in snake case (`uncutOf` is `uncut_of`, `leZ-yes'` is `le_z-yes'`).

usage: tools/respell.py [FOLDER]   in the repository, once, after the toolchain's own script: rewrites crates/, tests/, docs/ and README.md in place, and prints
each name with its new spelling. Types, modules and functions keep their names; a definition may have the name of the function that computes it, and a lemma that would have a definition's name gets another."""
import os, re, sys

TURNED = (".rt", ".antt", ".edit")
# lemmas that make room for a definition which takes their name
ROOM = [
    ("crates/run/proofs/evaluate/fit", "is_word", "word_told"),
    ("crates/rules/proofs", "minus_one", "minus_one-bits"),
    ("crates/iterator/proofs", "rows_fit", "rows-have_room"),
]


def snake(name):
    return re.sub(r"(?<!^)([A-Z])", lambda m: "_" + m.group(1).lower(), name)


def files(root, endings, folders):
    for top in folders:
        path = os.path.join(root, top)
        if os.path.isfile(path):
            yield path
        for folder, dirs, names in os.walk(path):
            dirs[:] = sorted(d for d in dirs if d not in ("out", "target", ".git"))
            for name in sorted(names):
                if name.endswith(endings):
                    yield os.path.join(folder, name)


def read(path):
    with open(path, encoding="utf-8") as file:
        return file.read()


def write(path, text):
    if text != read(path):
        with open(path, "w", encoding="utf-8") as file:
            file.write(text)


def names_in(text):
    """The camel-case words of a text, also those that a hyphen joins to others or a dot puts behind a path."""
    return re.findall(r"(?<![A-Za-z0-9_])[a-z][a-z0-9]*(?:[A-Z][a-z0-9]*)+(?![A-Za-z0-9_])", text)


def turned(text, names):
    if not names:
        return text
    return re.sub(r"(?<![A-Za-z0-9_])(%s)(?![A-Za-z0-9_])" % "|".join(sorted(names, key=len, reverse=True)), lambda m: snake(m.group(1)), text)


def main():
    root = sys.argv[1] if len(sys.argv) > 1 else "."
    names = set()
    for path in files(root, (".rt", ".antt"), ["crates"]):
        names |= set(names_in(read(path)))
    print("\n".join("%s -> %s" % (n, snake(n)) for n in sorted(names)))
    for folder, old, new in ROOM:
        for path in files(root, (".antt",), [folder]):
            write(path, re.sub(r"(?<![\w'.-])%s(?![\w'-])" % old, new, read(path)))
    for path in files(root, TURNED, ["crates"]):
        write(path, turned(read(path), names))
    # pages and edits speak of what the toolchain's script had turned already, too
    known = set()
    for path in files(root, (".rt", ".antt"), ["crates"]):
        known |= set(re.findall(r"[a-z][\w]*", read(path)))
    for path in files(root, TURNED + (".md",), ["crates", "tests", "docs", "README.md"]):
        text = read(path)
        write(path, turned(text, {n for n in names_in(text) if snake(n) in known}))


if __name__ == "__main__":
    main()
