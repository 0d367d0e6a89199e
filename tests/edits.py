#!/usr/bin/env python3
"""Sees that each wrong body for the prover can be applied, without a prover.

usage: tests/edits.py

An edit has a line `file: PATH`, and then pairs of lines `old: TEXT` and `new: TEXT`. Those of crates/NAME/must-fail and of
tests/edits/NAME change files in crates/NAME/src. The old text stands in its file exactly once, and the new one is another.
A crate has at most six edits in must-fail. Ends with status 1 where an edit doesn't fit.
"""
import os
import sys
from collections import Counter

TOP = os.path.dirname(os.path.dirname(os.path.abspath(__file__)))
MOST = 6


def crates():
    """The names of crates.txt."""
    with open(os.path.join(TOP, "crates.txt"), encoding="utf-8") as file:
        return {line.split(":")[0] for line in file if line.strip() and not line.startswith("#")}


def edits():
    """Each edit, as its crate and its path, and each file in a folder of edits that is none."""
    for kind, name_first in (("crates", True), ("tests/edits", False)):
        for crate in sorted(os.listdir(os.path.join(TOP, kind))):
            folder = os.path.join(kind, crate, "must-fail") if name_first else os.path.join(kind, crate)
            if os.path.isdir(os.path.join(TOP, folder)):
                for name in sorted(os.listdir(os.path.join(TOP, folder))):
                    yield crate, os.path.join(folder, name)


def steps(lines):
    """The file, the old and the new text of each pair; what is no such line is given as a fault."""
    path = old = None
    for line in lines:
        if line.startswith("file: "):
            path = line[len("file: "):].strip()
        elif line.startswith("old: "):
            old = line[len("old: "):]
        elif line.startswith("new:"):
            yield path, old, line[len("new:"):].removeprefix(" ")
            old = None
        elif line:
            raise ValueError(f"a line is not read: {line[:60]}")


class Texts:
    """The files of a crate, as the pairs of one edit leave them."""

    def __init__(self, crate):
        self.folder = os.path.join(TOP, "crates", crate)
        self.texts = {}

    def text(self, path):
        if path not in self.texts:
            with open(os.path.join(self.folder, path), encoding="utf-8") as file:
                self.texts[path] = file.read()
        return self.texts[path]

    def change(self, path, old, new):
        """Makes one change, or says why it can't be made."""
        if path is None or old is None:
            return "a new text without a file or an old one"
        if not path.startswith("src/") or os.path.normpath(path) != path:
            return f"{path} is no file of src/"
        if not os.path.isfile(os.path.join(self.folder, path)):
            return f"there is no {path}"
        count = self.text(path).count(old)
        if count != 1:
            return f"{path} has the old text {count} times: {old.strip()[:60]}"
        if old == new:
            return "the new text is the old one"
        self.texts[path] = self.text(path).replace(old, new)
        return None


def fault(crate, path):
    """Why an edit doesn't fit, if it doesn't."""
    if not path.endswith(".edit"):
        return "no edit"
    texts, count = Texts(crate), 0
    with open(os.path.join(TOP, path), encoding="utf-8") as file:
        lines = file.read().split("\n")
    try:
        for step in steps(lines):
            count += 1
            why = texts.change(*step)
            if why:
                return why
    except ValueError as error:
        return str(error)
    return None if count else "it has no pair"


def main():
    known, gate, passed, failed = crates(), Counter(), 0, 0
    for crate, path in edits():
        gate[crate] += path.startswith("crates")
        why = fault(crate, path) if crate in known else f"there is no crate {crate}"
        if why:
            print(f"edits: {path}: {why}")
            failed += 1
        else:
            passed += 1
    for crate, count in sorted(gate.items()):
        if count > MOST:
            print(f"edits: {crate} has {count} edits in must-fail, more than {MOST}")
            failed += 1
    print(f"edits: {passed} fit, {failed} faults")
    return 1 if failed or not passed else 0


if __name__ == "__main__":
    sys.exit(main())
