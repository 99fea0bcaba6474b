#!/usr/bin/env python3
"""Looks for lemmas and definitions that nothing cites: names of .antt files that are nowhere but in their own declaration. Prints each with its file,
and then ends with status 1. Answers and invariants are named by their goals, and the values of proofs/Table.antt of dk_base are worked out by hand, so
both are passed over.

usage: tests/lemmas.py
"""

import re
import sys
from collections import Counter
from pathlib import Path

TOP = Path(__file__).resolve().parent.parent
TOKEN = re.compile(r"[^\s(){}\[\],;.`\"⟨⟩]+")
DECLARED = re.compile(r"^(?:(?:abbrev|unfoldable|opaque|instance) )*(?:pub )?([^\s(){}\[\],;.]*\w[^\s(){}\[\],;.]*)\s+:(?=\s|$)")
UNCITED = ("Answers.antt", "Invariants.antt", "dk_base/proofs/Table.antt")


def names(path, text):
    """The names of a file, without those of its comments."""
    if path.suffix == ".rt":
        return TOKEN.findall(re.sub(r"(?m)^\s*//.*", "", text).replace("::", " "))
    return TOKEN.findall(re.sub(r"--.*", "", text))


def declarations(text):
    """For each name that a file declares at its top the lines of its declaration."""
    found, name = {}, None
    for line in text.splitlines():
        head = DECLARED.match(line)
        if head:
            name = head[1]
            found.setdefault(name, []).append(line)
        elif name and (line.startswith((" ", "}", ")", "]")) or line.split(" ")[0] == name):
            found[name].append(line)
        elif not line.startswith("--"):
            name = None if line else name
    return found


def main():
    files = {path: path.read_text() for kind in ("rt", "antt") for path in sorted((TOP / "crates").rglob(f"*.{kind}")) if "/out/" not in str(path)}
    cited = Counter()
    for path, text in files.items():
        cited.update(names(path, text))
    found = set()
    for path, text in files.items():
        if path.suffix == ".rt" or str(path).endswith(UNCITED):
            continue
        for name, lines in declarations(text).items():
            if cited[name] == names(path, "\n".join(lines)).count(name):
                found.add(f"{path.relative_to(TOP / 'crates')}: {name}")
    for item in sorted(found):
        print(f"crates/{item} is cited by nothing")
    return 1 if found else 0


sys.exit(main())
