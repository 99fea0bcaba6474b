#!/usr/bin/env python3
"""Whether the table "A new operator" of docs/CHANGING.md lists each file that names an operator: `Binary::Max` in Rattle, `Max` of Binary in a
definition or a proof; its keyword, `Keyword::Max` or `Max` of Keyword; or its spelling, the bytes of `max`. Prints each file that is missing there, and each that does not exist, and then ends with status 1.

usage: tests/operators.py
"""

import re
import sys
from pathlib import Path

TOP = Path(__file__).resolve().parent.parent
PAGE, HEADING = "docs/CHANGING.md", "## A new operator\n"
# a variant in code; an import of it, its whole name, or the arm of a match on it in an answer
IN_CODE = re.compile(r"\b(?:Binary|Keyword)::Max\b|\bb?\"max\"")
IN_PROOF = re.compile(r"\b(?:Binary|Keyword)\.TheVariants\.\{[^}]*\bMax\b|\b(?:Binary|word)\.Max\b|\bin-Max\b|\bcodes \"max\"")


def listed(page):
    """The files in the second column of the table. A path that does not begin at the top is in the crate named before it."""
    section = page.split(HEADING)[1].split("\n## ")[0]
    for row in re.findall(r"^\|[^|]*\|([^|]*)\|", section, re.MULTILINE):
        crate = ""
        for path in re.sub(r"\([^)]*\)", "", row).replace(",", " ").split():
            if path.startswith(("crates/", "docs/", "tests/")):
                crate = "/".join(path.split("/")[:2])
                yield path
            elif path.startswith(("src/", "specs/", "proofs/")):
                yield f"{crate}/{path}"


def naming():
    """The files that name the operator."""
    folders = [*TOP.glob("crates/*/src"), *TOP.glob("crates/*/specs"), *TOP.glob("crates/*/proofs"), TOP / "tests"]
    for path in sorted(path for folder in folders for path in folder.rglob("*") if path.is_file() and path != Path(__file__).resolve() and path.suffix not in (".edit", ".edits")):
        pattern = IN_PROOF if path.suffix == ".antt" else IN_CODE
        text = path.read_text(encoding="utf-8", errors="replace")
        if pattern.search(text):
            yield path.relative_to(TOP).as_posix()


def main():
    rows = list(listed((TOP / PAGE).read_text(encoding="utf-8")))
    faults = [f"{path} names an operator and is in no row of {PAGE}" for path in naming() if path not in rows]
    faults += [f"{path} is in a row of {PAGE} and does not exist" for path in rows if not (TOP / path).exists()]
    print("\n".join(faults), end="\n" if faults else "")
    return 1 if faults else 0


if __name__ == "__main__":
    sys.exit(main())
