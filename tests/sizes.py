#!/usr/bin/env python3
"""Counts crates: the longest chain of dependencies, the large crates, the functions whose contract states only safety, how long contracts and
lists of arguments are, how deep the blocks of functions are, and the names that are types in several crates. Prints a chain of more than eight crates,
each crate of more than 1,500 lines or 110 functions, each of more than 1,500 lines with its clauses (two have more, and may not grow: ALL_LINES),
each function of more than six arguments, the number of nested functions if there are more than MOST_NESTED, a name that is a type in several crates
and is not in SHARED (or is in SHARED and no longer one), and a number of functions that docs/PROMISES.md has not, and then ends with status 1.
The methods of the trait `BufferForm` are left out: their callers give each argument.

usage: tests/sizes.py [--print]

--print prints the counts instead. Lines of code are those of src/ that are not empty, no comment and no line of a contract. A function states only
safety if it has no clause `ensures`. A method of an impl of a trait has the clauses of its trait.
A clause is a `requires` or an `ensures` with the lines after it; it is wide if one of them has more than 100 columns.
A function is nested if a line of its body is indented by 16 columns more than the function, or by more than that. A type is a struct, an enum, a trait or
a type alias; a name is shared if two crates or more have a type of that name that is not private to a module.
"""

import re
import sys
from pathlib import Path

TOP = Path(__file__).resolve().parent.parent
MOST_CHAIN, MOST_LINES, MOST_FUNCTIONS, MOST_ARGUMENTS = 8, 1500, 110, 6
MANY_CLAUSES, WIDE = 15, 100
# The crates that have more than MOST_LINES with their clauses: none of them may grow.
ALL_LINES = {"circuit": 1554, "netlist": 1524}
FUNCTION = re.compile(r"^\s*(?:pub(?:\([a-z]+\))?\s+)?(?:const\s+)?(?:unsafe\s+)?fn \w+.*")
TRAIT = re.compile(r"^impl\b.*\bfor\b")
# The nested functions may not grow in number.
DEEP, MOST_NESTED = 16, 68
# The names that are types in several crates. None may be added: a new type has a name that no other crate has for another thing.
SHARED = """
Batch Built Edge Expr Halt Input Instruction Interval Keyword Lane LexFault LexKind Line Mark Name Numbers Operand Options Parts Program Reading
ReportFault Scope Shape Single Slot Stage Step Stop Symbol Token TokenKind
"""


def dependencies():
    """The crates of crates.txt, each with those of this repository that it lists."""
    lines = [line.split("#")[0].strip() for line in (TOP / "crates.txt").read_text().splitlines()]
    found = dict(line.split(":") for line in lines if ":" in line)
    return {name: [dep for dep in deps.split() if dep in found] for name, deps in found.items()}


def longest_chain(below):
    chains = {}
    for name in below:  # crates.txt lists each crate after those below it
        chains[name] = max((chains[dep] for dep in below[name]), key=len, default=[]) + [name]
    return max(chains.values(), key=len)


def is_test(path):
    return path.name == "tests.rt" or path.parent.parent.name.endswith("_tests") or "/tests/" in str(path)


def functions(text):
    """For each function of a source file whether it states more than safety."""
    of_trait = False
    lines = text.splitlines()
    for number, line in enumerate(lines):
        if re.match(r"\S", line):
            of_trait = bool(TRAIT.match(line)) if line.startswith("impl") else of_trait and not line.startswith(("fn", "pub", "struct", "enum", "//"))
        if FUNCTION.match(line):
            head = []
            for part in lines[number:]:
                head.append(part)
                if re.match(r"\s*\{\s*$|\s*\{\}\s*$|.*[^}]\{\s*$|.*;\s*$|.*\{\}\s*$", part) and not re.match(r"\s*(requires|ensures)\b", part):
                    break
            yield of_trait or any(re.match(r"\s*ensures\b", part) for part in head)


def without_generics(text):
    """A list of arguments as it is written, without what stands in brackets of any kind."""
    while True:
        shorter = re.sub(r"\([^()]*\)|\[[^][]*\]|\{[^{}]*\}|<[^<>]*>", "", text.replace("->", ""))
        if shorter == text:
            return text
        text = shorter


def heads(text):
    """For each function of a source file its name, its number of arguments and its clauses, each with all its lines."""
    for match in re.finditer(r"^[ \t]*(?:pub(?:\([a-z]+\))? )?(?:const )?(?:unsafe )?fn (\w+)", text, re.M):
        rest = text[match.end():]
        if rest.startswith("<"):
            depth = end = 0
            while end == 0 or depth:
                depth += {"<": 1, ">": -1}.get(rest[end], 0) if rest[end - 1:end + 1] != "->" else 0
                end += 1
            rest = rest[end:]
        depth = end = 0
        while end == 0 or depth:
            depth += {"(": 1, ")": -1}.get(rest[end], 0)
            end += 1
        arguments = [part for part in without_generics(rest[1:end - 1]).split(",") if part.strip()]
        clauses = []
        for line in rest[end:].split("\n")[1:]:
            if re.match(r"\s*(requires|ensures)\b", line):
                clauses.append([line])
            elif clauses and re.match(r"\s*(→|×|⊎|≡|∧|\(|[A-Za-z∷+∙])", line) and not re.match(r"\s*(//|\{|\})", line):
                clauses[-1].append(line)
            elif not re.match(r"\s*(//|$)", line) or not line.strip() and not clauses:
                break
            if clauses and line.rstrip().endswith(";"):
                break
        yield match[1], len(arguments), clauses


def lines_of(text):
    return sum(1 for line in text.splitlines() if line.strip() and not re.match(r"\s*(//|ghost use|requires|ensures|× |\()", line))


def all_lines_of(text):
    """The lines with those of contracts."""
    return sum(1 for line in text.splitlines() if line.strip() and not line.lstrip().startswith("//"))


def long_crates():
    """Each crate of more than MOST_LINES lines with its clauses, and those lines."""
    found = {name: sum(all_lines_of(text) for _, text in files) for name, files in sources(dependencies())}
    return {name: count for name, count in found.items() if count > MOST_LINES}


def sources(below):
    """For each crate but those of tests the paths and the texts of its code."""
    for name in below:
        if not name.endswith("_tests"):
            paths = [path for path in sorted((TOP / "crates" / name / "src").rglob("*.rt")) if not is_test(path)]
            yield name, [(path, path.read_text()) for path in paths]


def counts():
    below = dependencies()
    large, all_functions, plain = [], 0, 0
    for name, files in sources(below):
        states = [state for _, text in files for state in functions(text)]
        all_functions += len(states)
        plain += states.count(False)
        if sum(lines_of(text) for _, text in files) > MOST_LINES or len(states) > MOST_FUNCTIONS:
            large.append(name)
    return longest_chain(below), large, all_functions, plain


def contracts():
    """The functions of too many arguments, those of many clauses, and the clauses: how many a function has, and which part of them is wide."""
    crowded, many, all_clauses, wide, all_functions = [], [], 0, 0, 0
    for name, files in sources(dependencies()):
        for path, text in files:
            for function, arguments, clauses in heads(text):
                where = f"{path.relative_to(TOP)} {function}"
                all_functions += 1
                all_clauses += len(clauses)
                wide += sum(any(len(line) > WIDE for line in clause) for clause in clauses)
                of_form = "BufferForm for" in text and function == "add" or "pub trait BufferForm" in text
                crowded += [f"{where}: {arguments} arguments"] if arguments > MOST_ARGUMENTS and not of_form else []
                many += [f"{where}: {len(clauses)} clauses"] if len(clauses) >= MANY_CLAUSES else []
    return crowded, many, all_clauses / all_functions, 100 * wide / all_clauses


def is_nested(head, lines):
    """Whether a line of the body of a function is deep, for its first line and the lines after it."""
    margin = " " * (len(head) - len(head.lstrip()))
    in_body = False
    for line in lines:
        if line == margin + "}" or not in_body and line.endswith(("{}", ";")) and not re.match(r"\s*(requires|ensures)\b", line):
            return False
        if in_body and line.strip() and not line.lstrip().startswith("//") and line.startswith(margin + DEEP * " "):
            return True
        in_body |= line.endswith("{") and line.startswith(margin) and not re.match(r"\s*(requires|ensures)\b", line)
    return False


def nested():
    """Where each nested function is."""
    for name, files in sources(dependencies()):
        for path, text in files:
            lines = text.splitlines()
            for number, line in enumerate(lines):
                if FUNCTION.match(line) and is_nested(line, lines[number:]):
                    yield f"{path.relative_to(TOP)}:{number + 1}"


def shared():
    """The names that are types in several crates, each with these crates."""
    crates = {}
    for name, files in sources(dependencies()):
        for _, text in files:
            for word in re.findall(r"^pub(?:\([a-z]+\))? (?:struct|enum|trait|type) (\w+)", text, re.M):
                crates.setdefault(word, set()).add(name)
    return {word: sorted(names) for word, names in sorted(crates.items()) if len(names) > 1}


def main():
    chain, large, all_functions, plain = counts()
    crowded, many, each, wide = contracts()
    deep, types, listed = list(nested()), shared(), SHARED.split()
    if sys.argv[1:] == ["--print"]:
        print(f"chain of {len(chain)}: {', '.join(chain)}\nlarge: {', '.join(large) or 'none'}\n{plain} of {all_functions} functions state only safety")
        print("with clauses:", ", ".join(f"{name} {count:,}" for name, count in long_crates().items()))
        print(f"{len(crowded)} functions of more than {MOST_ARGUMENTS} arguments", *crowded, sep="\n  ")
        print(f"{len(many)} functions of {MANY_CLAUSES} clauses and more", *many, sep="\n  ")
        print(f"{len(deep)} nested functions", *deep, sep="\n  ")
        print(f"{len(types)} names of types in several crates", *(f"{name}: {', '.join(names)}" for name, names in types.items()), sep="\n  ")
        print(f"{each:.2f} clauses a function; {wide:.0f} in 100 clauses have a line of more than {WIDE} columns")
        return 0
    wrong = []
    wrong += crowded
    wrong += [f"{name} has more than {MOST_LINES} lines or {MOST_FUNCTIONS} functions" for name in large]
    wrong += [f"{name} has {count:,} lines with its clauses" for name, count in long_crates().items() if count > ALL_LINES.get(name, MOST_LINES)]
    wrong += [f"{name} is a type in {', '.join(names)}" for name, names in types.items() if name not in listed]
    wrong += [f"SHARED lists {name}" for name in listed if name not in types]
    if len(deep) > MOST_NESTED:
        wrong.append(f"{len(deep)} nested functions, at most {MOST_NESTED}")
    if len(chain) > MOST_CHAIN:
        wrong.append(f"a chain of {len(chain)} crates: {', '.join(chain)}")
    count = f"{plain:,} of {all_functions:,} functions state only safety"
    if count not in (TOP / "docs/PROMISES.md").read_text():
        wrong.append(f"docs/PROMISES.md: {count}")
    print("\n".join(wrong), end="\n" if wrong else "")
    return 1 if wrong else 0


sys.exit(main())
