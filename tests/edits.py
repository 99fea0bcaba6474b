#!/usr/bin/env python3
"""Whether the changes that tests make to the sources apply to them: the planted bodies (tests/planted), the wrong changes that the gate tries
(crates/NAME/must-fail) and the recipes (tests/recipes). Each old text is in its file once, after the changes before it. Prints each that is not, and
then ends with status 1.

usage: tests/edits.py
"""
import sys
from pathlib import Path

import recipes

TOP = Path(__file__).resolve().parent.parent


def pairs(path, crate):
    """The changes of an edit: a file, an old text and a new one."""
    file, old = None, None
    for line in path.read_text(encoding="utf-8").splitlines():
        word, _, text = line.partition(":")
        text = text.removeprefix(" ")
        if word == "file":
            file = crate / text
        elif word == "old":
            old = text
        elif word == "new":
            yield file, old, text


def wrong(changes):
    """What keeps changes from being made, one after another."""
    texts = {}
    for file, old, new in changes:
        if not old:
            continue
        if not file.is_file():
            yield f"{file.relative_to(TOP)} does not exist"
            continue
        text = texts.setdefault(file, file.read_text(encoding="utf-8"))
        if text.count(old) != 1:
            yield f"{file.relative_to(TOP)} has {text.count(old)} times: {old.strip()}"
        texts[file] = text.replace(old, new)


def main():
    faults, count = [], 0
    for path in sorted([*TOP.glob("tests/planted/*/*.edit"), *TOP.glob("crates/*/must-fail/*.edit")]):
        name = path.parent.name if path.parent.parent.name == "planted" else path.parent.parent.name
        changes = list(pairs(path, TOP / "crates" / name))
        faults += [f"{path.relative_to(TOP)}: {fault}" for fault in wrong(changes)]
        faults += [] if changes else [f"{path.relative_to(TOP)}: no change"]
        count += 1
    for path in sorted(TOP.glob("tests/recipes/*.edits")):
        changes = [(TOP / file, old, new) for file, old, new in recipes.edits(path.stem)]
        faults += [f"{path.relative_to(TOP)}: {fault}" for fault in wrong(changes)]
        count += 1
    faults += [] if count else ["there are no edits"]
    print("\n".join(faults), end="\n" if faults else "")
    return 1 if faults else 0


if __name__ == "__main__":
    sys.exit(main())
