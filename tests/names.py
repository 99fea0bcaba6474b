#!/usr/bin/env python3
"""Looks up each name that the docs have between backticks in the sources. Prints each one that is not there, with its file and line, and then ends with status 1.

usage: tests/names.py

A name is one identifier, or a path of identifiers with `::` or `.`. It is found where the sources declare or import it, where it is the name of a file, a
folder or a crate, where a rule below takes it for a word of a program or a Verilog text, or where tests/names.txt has it. Blocks of code are passed over.

In the tables of docs/PROMISES.md with the heads `Clause` and `Call, Clauses and laws` each clause must be one of `dk_main` or a fact of its record
`Performs`, or a clause of the calls of its row: in the crate that the row names, or of a law that it names.
"""

import os
import re
import sys
from pathlib import Path

TOP = Path(__file__).resolve().parent.parent
WORD = r"[A-Za-z_][A-Za-z0-9_']*"
NAME = re.compile(rf"{WORD}(?:(?:::|\.){WORD})*")
# Type words of programs; ports, and names of images, wires, registers and arrays; magic numbers of image files.
SNIPPET = re.compile(r"[us]([0-9]+|[nNM])|(din|dout|valid|[inrm])[0-9]+|clk|P[1-7]")
# What the sources declare: after a keyword, before a colon (functions, fields, clauses, binders), or as a variant of an enum.
RUST = re.compile(
    rf"\b(?:fn|struct|enum|trait|mod|const|static|type|as|requires|ensures|ghost|for|use)\s+({WORD})|({WORD})\s*:(?!:)|^\s+([A-Z]\w*)\s*[,({{]",
    re.M,
)
KEYWORD = re.compile(rf"\b(?:data|record|abbrev|mod|as|ruleset)\s+(?:pub\s+)?({WORD})")
TYPED = re.compile(r"(?<![\w' ])([\w' ]+) : ")
IMPORT = re.compile(r"\buse\s[^{};\n]*(?:\{[^}]*\})?")


def declared(path):
    """The names that a source file declares or imports, comments left out."""
    text = re.sub(r"//.*" if path.suffix == ".rt" else r"--.*", "", path.read_text())
    found = {word for use in IMPORT.findall(text) for word in re.findall(WORD, use)}
    if path.suffix == ".rt":
        return found.union(*RUST.findall(text))
    return found.union(KEYWORD.findall(text), *(names.split() for names in TYPED.findall(text)))


def sources():
    """The declared names of each source file, and the names of files, folders and crates."""
    names = set(re.findall(WORD, (TOP / "crates.txt").read_text()))
    files = []
    for folder, folders, found in os.walk(TOP):
        folders[:] = [name for name in folders if name != "out" and not name.startswith(".")]
        names.update(folders)
        for path in (Path(folder, name) for name in found):
            names |= {path.name, path.stem}
            if path.suffix in (".rt", ".antt"):
                files.append(declared(path))
    return files, names


def is_found(name, files, names, every):
    if name in names or SNIPPET.fullmatch(name):
        return True
    parts = re.split(r"::|\.", name)
    if "::" in name:
        # One file has to declare or import all parts of such a path.
        return any(file.issuperset(parts) for file in files)
    return every.issuperset(parts)


def named(doc):
    """Each name between backticks, with its line."""
    is_code = False
    for number, line in enumerate(doc.read_text().splitlines(), 1):
        if line.startswith("```"):
            is_code = not is_code
        elif not is_code and not line.startswith("    "):
            for text in re.findall(r"`([^`]+)`", line):
                if NAME.fullmatch(text):
                    yield number, text


def clauses(crate):
    """The names of the clauses of each function of a crate, and of its laws."""
    found = {}
    for path in (TOP / "crates" / crate / "src").rglob("*.rt"):
        function = None
        for line in path.read_text().splitlines():
            head = re.search(rf"\bfn ({WORD})", line)
            if head:
                function = head[1]
                found.setdefault(function, set())
            clause = re.match(rf"\s*ensures ({WORD}) \{{", line)
            if clause and function:
                found[function].add(clause[1])
    return found


def facts(path, record):
    """The fields of a record of a file of specs/."""
    body = re.search(rf"^pub record {record} .*\n((?:  .*\n)+)", path.read_text(), re.M)[1]
    return set(re.findall(rf"^  pub ({WORD}) :", body, re.M))


# the record of what a call does, and its parts
PARTS = ["Performs", "HasEnding", "HasAsked", "HasFile", "HasTold"]


def missing_clauses(crates, calls, named):
    """Those of the names that are no law and no clause of the calls, or of a law that is named."""
    functions = {}
    for crate in crates:
        for function, own in clauses(crate).items():
            functions.setdefault(function, set()).update(own)
    laws = {name for name in named if name in functions}
    there = set().union(*(functions.get(call.split("::")[-1], set()) for call in calls), *(functions[law] for law in laws))
    if not calls:
        there = set().union(*functions.values())
    return [name for name in named if name not in laws and name not in there]


def table_faults(doc):
    """Rows of the tables of clauses with a name that is no clause there: line and name."""
    head = ""
    for number, line in enumerate(doc.read_text().splitlines(), 1):
        cells = [cell.strip() for cell in line.strip("|").split(" | ")] if line.startswith("|") else []
        if not cells:
            head = ""
        elif not head:
            head = line
        elif head.startswith("| Clause |") and not line.startswith("|--"):
            stated = set().union(*(facts(TOP / "crates/dk_top/specs/Performing.antt", part) for part in PARTS))
            named = [name for name in re.findall(r"`([^`]+)`", cells[0]) if name not in stated]
            yield from ((number, name) for name in missing_clauses(["dk_top"], ["dk_main"], named))
        elif head.startswith("| Call | Clauses and laws |") and not line.startswith("|--"):
            crates = [word for word in re.findall(WORD, re.sub(r"`[^`]*`", "", cells[0])) if (TOP / "crates" / word).is_dir()]
            calls = re.findall(r"`([^`]+)`", cells[0])
            yield from ((number, name) for name in missing_clauses(crates, calls, re.findall(r"`([^`]+)`", cells[1])))


def main():
    files, names = sources()
    every = set().union(*files)
    for line in (TOP / "tests/names.txt").read_text().splitlines():
        names.update([] if line.startswith("#") else line.split())
    docs = [TOP / "README.md", TOP / "CHANGELOG.md", TOP / "examples/README.md", *sorted(TOP.glob("docs/*.md")), *sorted(TOP.glob("crates/*/README.md"))]
    docs.remove(TOP / "docs/LADDER.md")
    status = 0
    for doc in docs:
        for number, name in named(doc):
            if not is_found(name, files, names, every):
                print(f"{doc.relative_to(TOP)}:{number}: {name} is not in the sources")
                status = 1
    for number, name in table_faults(TOP / "docs/PROMISES.md"):
        print(f"docs/PROMISES.md:{number}: {name} is no clause of its call")
        status = 1
    return status


sys.exit(main())
