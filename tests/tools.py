#!/usr/bin/env python3
"""Runs tools/tower and compares what it prints, writes and ends with, with what it should: every subcommand on texts and bytes, good and damaged; errors
and refusals with their places in the text; what is told of refusals of every rule; formulas, read back by a parser of their own; JSON against text;
decoded texts against their words; texts in which a proposal is put, and the thresholds for it; output to files, full disks, closed descriptors and pipes; the building of the library with a kit that only pretends;
the binding of bindings/python; the makefile of examples/tower; and every command that a page quotes with its output, in README.md, docs/FORMAT.md and the
tower's. Each part of it is a module of tests/front.

The cases come with their answers: those by hand that DIFFER prints, and drawn ones that CASES prints. RANGECHECK and CASES_TEST are asked for more. Nothing
here evaluates a formula. What the tower's texts come to is tested by tests/differ.

Usage: tests/tools.py RANGECHECK CASES_TEST DIFFER CASES, four programs, the last two of tests/differ and of tests/peer. dot isn't needed."""
import sys, traceback
from front import common
from front.common import BAD, TRIED, expect, folder_of
from front.reading import bytes_read, names, reading, several, usage
from front.formulas import formulas
from front.checking import checking, running
from front.telling import ranges_told, showing
from front.decoding import damaging, decoding
from front.proposing import proposing
from front.writing import devices, full_disk, replacing, streams
from front.building import building, pretended, surroundings
from front.around import binding, makefile, pages, tower_texts, version
from front.pictures import picturing


def main():
    parts = (
        usage, reading, bytes_read, several, names, checking, running, showing, ranges_told, formulas, decoding, proposing, replacing, devices, streams, full_disk, surroundings, building,
        version, binding, makefile, damaging, tower_texts, picturing, pages,
    )
    with folder_of() as folder:
        common.PRETENDED = pretended(folder)
        for part in parts:
            try:
                part()
            except Exception:
                expect("%s comes to its end" % part.__name__, traceback.format_exc(), "")
    print("tools: %s, %d wrong" % (", ".join("%d %s" % (count, what) for what, count in TRIED.items()), len(BAD)))
    sys.exit(len(BAD) != 0 or 0 in TRIED.values())


if __name__ == "__main__":
    main()
