#!/usr/bin/env python3
"""Checks a crate before the crates below it are proved: `rattle check` of it, where each lower crate without a library is a copy in which the proof of
each function is a hole and its body `unreachable!()`. The prover takes such a function by its contract, so that the upper crate's own answers and
searches are all checked.

A function of the upper crate is done if each hole that it stands on is one of a copy. Trait methods of an impl and constant functions keep their bodies.

usage: tools/dev/holes.py CRATE [FLAG..]

The flags go to `rattle check`, as `--only CRATE::module::function`. The copies, and what is kept of the last check, are in a folder for temporary files.
"""

import os
import re
import shutil
import subprocess
import sys
import tempfile

# the kit lies where `rt doc` says
KIT = os.path.dirname(os.popen("rt doc").read())
sys.path.insert(0, KIT + "/bin")
import rtlib

TOP = os.path.dirname(os.path.dirname(os.path.dirname(os.path.abspath(__file__))))
HOLES = f"{tempfile.gettempdir()}/holes-of-{os.path.basename(TOP)}"
FUNCTION = r"(?:pub(?:\([^)]*\))?\s+)?(?:const\s+)?fn\s+(\w+)"
TYPE = r"(?m)^(?:pub(?:\([^)]*\))?\s+)?(?:struct|enum)\s+(\w+)"


def dependencies():
    """For each crate the names behind its colon in crates.txt."""
    with open(f"{TOP}/crates.txt", encoding="utf-8") as file:
        return {found[1]: found[2].split() for found in re.finditer(r"(?m)^(\w+)(?: staticlib)?:(.*)$", file.read())}


def paths_in(text, module):
    """The paths of the functions of a file, without those of an impl of a trait and those of tests."""
    owner, before = None, ""
    for line in text.split("\n"):
        head = re.match(r"impl(?:<.*?>)?\s+(.*?)\s*\{", line)
        if head:
            owner = None if " for " in head[1] else re.sub(r"<.*", "", head[1])
        elif line.startswith("}"):
            owner = None
        elif "cfg(test)" not in before:
            free, method = re.match(FUNCTION, line), re.match("    " + FUNCTION, line)
            if free:
                yield [*module, free[1]]
            elif method and owner:
                yield [*module, owner, method[1]]
        before = line


def without_bodies(text):
    """A file in the layout of rt fmt, in which the body of each function is `unreachable!()`, without those of an impl of a trait."""
    lines, out, owner, number = text.split("\n"), [], None, 0
    while number < len(lines):
        line = lines[number]
        head = re.match(r"impl(?:<.*?>)?\s+(.*?)\s*\{", line)
        if head:
            owner = None if " for " in head[1] else head[1]
        elif line.startswith("}"):
            owner = None
        number += 1
        out.append(line)
        found = re.match(rf"(|    ){FUNCTION}", line)
        if not found or "const fn" in line or found[1] and not owner:
            continue
        margin = found[1]
        while not re.match(rf"{margin}(?:\{{\}}?|[^ {{].*(?: \{{|\{{.*\}}|;))$", out[-1]):
            out.append(lines[number])
            number += 1
        if out[-1] == margin + "{" or out[-1].endswith(" {"):
            while lines[number] != margin + "}":
                number += 1
            out.append(f"{margin}    unreachable!()")
    # a function without its body is in no cycle of calls
    return re.sub(rf"(?m)^ *#\[cycle\(\w+\)\]\n(?=\s*{FUNCTION})", "", "\n".join(out))


def hole(crate, folder, path):
    """The proof of a function as a hole."""
    place = f"{folder}/proofs/{'/'.join(path)}"
    around = os.path.dirname(place)
    if os.path.isdir(f"{around}/+{path[-1]}"):
        return
    shutil.rmtree(place, ignore_errors=True)
    os.makedirs(place)
    with open(f"{place}/Proof.antt", "w", encoding="utf-8") as file:
        file.write(f"use Rattle.{crate}.proofs.{'.'.join(path)}.Statement.{{statement}}\n\n")
        file.write(f"pub {path[-1]}_spec : {{M : Type 1}} → statement M\n{path[-1]}_spec = ?\n")


def copied(crate):
    """A copy of the crate with holes; returns its first file."""
    folder = f"{HOLES}/{crate}"
    shutil.rmtree(folder, ignore_errors=True)
    for part in ("src", "specs", "proofs"):
        if os.path.isdir(f"{TOP}/crates/{crate}/{part}"):
            shutil.copytree(f"{TOP}/crates/{crate}/{part}", f"{folder}/{part}")
    texts, homes = [], {}
    for below, _, names in os.walk(f"{folder}/src"):
        for name in (it for it in names if it.endswith(".rt")):
            module = os.path.relpath(f"{below}/{name}", f"{folder}/src")[:-3].split("/")
            module = module[:-1] if module[-1] in ("lib", "mod") else module
            with open(f"{below}/{name}", encoding="utf-8") as file:
                text = file.read()
            with open(f"{below}/{name}", "w", encoding="utf-8") as file:
                file.write(without_bodies(text))
            texts.append((text, module))
            for it in re.finditer(TYPE, text):
                homes.setdefault(it[1], []).append(module)
    for text, module in texts:
        for path in paths_in(text, module):
            # a method's path begins with the module of its type, whichever module has the impl
            if len(path) == len(module) + 2 and module not in homes.get(path[-2], [module]):
                path = [*homes[path[-2]][0], *path[-2:]]
            hole(crate, folder, path)
    return f"{folder}/src/lib.rt"


def main():
    crate, used = sys.argv[1], dependencies()
    os.chdir(TOP)
    here = {it.name: it for it in rtlib.crates_below(TOP)}
    lower = here[crate].below()
    real = set()
    for low in lower:
        if low.is_built() and all(it in real or it not in here for it in used[low.name]):
            real.add(low.name)
    holes = [low.name for low in lower if low.name not in real]
    named = {it for name in [crate, *holes] for it in used[name]}
    words = [f"{KIT}/bin/rattle", "check", "--crate-name", crate, "src/main.rt" if here[crate].is_program else "src/lib.rt"]
    words += ["-L", f"dependency={KIT}/rlibs"]
    for name in ["std", "core", *sorted(named - set(here))]:
        words += ["--extern", f"{name}={KIT}/rlibs/{name}.rlib"]
    for low in (it for it in lower if it.name in real):
        words += ["-L", f"dependency={low.folder}/out/rlib"]
        words += ["--extern", f"{low.name}={low.folder}/out/rlib/{low.name}.rlib"] if low.name in named else []
    for name in holes:
        words += ["--lib", f"{name}:{','.join(['core', 'std', *used[name]])}={copied(name)}"]
    os.makedirs(f"{HOLES}/kept-{crate}", exist_ok=True)
    words += ["--antt-project", f"{KIT}/rattle/logic/antt-project.json", "--logic-built", f"{KIT}/logic_built"]
    words += ["--incremental", f"{HOLES}/kept-{crate}", "--allow-holes", "--progress", *sys.argv[2:]]
    print("with holes:", *holes, flush=True)
    while True:
        # a function that calls itself keeps its proof: its place is refused, and the next check goes without the hole
        refused = []
        with subprocess.Popen(words, cwd=f"{TOP}/crates/{crate}", stdout=subprocess.PIPE, stderr=subprocess.STDOUT, text=True) as run:
            for line in run.stdout:
                place = re.match(r"(\S+/Proof\.antt): error\[reserved-name\]", line)
                if place:
                    refused.append(place[1])
                else:
                    print(line, end="", flush=True)
        if not refused:
            return run.returncode
        for path in refused:
            os.remove(path)

sys.exit(main())
