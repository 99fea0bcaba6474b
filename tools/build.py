#!/usr/bin/env python3
"""Builds the program from the sources of this checkout by the Rattle kit, and puts it into build/.

dk and each crate below it are proved from nothing, as many side by side as there are processors and memory, by `rt ci` in a copy
that has no tests and no edits. Kit 13f keeps what is proved for the next run, also after an interruption; kit 13b does not.

usage: tools/build.py
"""
import os
import re
import shutil
import signal
import subprocess
import sys
import tempfile
import time

TOP = os.path.dirname(os.path.dirname(os.path.abspath(__file__)))


def say(text):
    print(f"dk: {text}", file=sys.stderr, flush=True)


def shell(command, folder):
    """What the functions of tools/dk/sources.sh say of the crates in this folder."""
    told = subprocess.run(["sh", "-c", f'. "$0" && {command}', f"{TOP}/tools/dk/sources.sh"], cwd=folder, stdout=subprocess.PIPE, check=True, text=True)
    return told.stdout.splitlines()


def copied(names, work):
    """Copies what determines the program into the folder, with the lines of crates.txt that name these crates; returns the whole text of it."""
    with open(f"{TOP}/crates.txt") as listed:
        lines = listed.readlines()
    with open(f"{work}/crates.txt", "w") as kept:
        kept.writelines(line for line in lines if re.match(r"\w*", line)[0] in names)
    shutil.copy(f"{TOP}/HANDLES", work)
    for name in names:
        shutil.copytree(f"{TOP}/crates/{name}", f"{work}/crates/{name}", ignore=shutil.ignore_patterns("out", "must-fail"))
    return "".join(lines)


def proved(process, count):
    """Follows `rt ci`, says which crates are proved, and returns whether all are."""
    number, last, said = 0, "", []
    for line in process.stdout:
        said.append(line)
        last = line.strip() or last
        done = re.match(r"rt: (\w+) (?:proved$|is kept)", line)
        if done:
            number += 1
            say(f"{done[1]} is proved ({number} of {count}, {int(time.monotonic() - START) // 60} min)")
    if process.wait() or not re.fullmatch(r"\d+ passed, 0 failed", last):
        sys.stderr.writelines(line for line in said if re.search(r"error|FAILED|NOT PROVED|not proved|killed|failed", line))
        return False
    return True


def main():
    if not shutil.which("rt"):
        say("the command rt of the Rattle kit is not there, so no program can be built (docs/BUILDING.md)")
        return 1
    names = shell("crates_of_dk", TOP)
    say(f"{len(names)} crates are proved and built; from nothing this takes nearly three hours of processor time")
    work, process = tempfile.mkdtemp(prefix="dk-build-"), None
    try:
        crates = copied(names, work)
        process = subprocess.Popen(["rt", "ci"], cwd=work, stdout=subprocess.PIPE, stderr=subprocess.STDOUT, text=True, start_new_session=True)
        if not proved(process, len(names)):
            say("the program was not built")
            return 1
        # (the sums are those of the copy and of the whole crates.txt, should a source change meanwhile)
        with open(f"{work}/crates.txt", "w") as text:
            text.write(crates)
        with open(f"{work}/dk.txt", "w") as text:
            text.writelines(f"{line}\n" for line in shell("program_lines crates/dk/out/dk", work))
        os.makedirs(f"{TOP}/build", exist_ok=True)
        for name, of in (("dk", "crates/dk/out/dk"), ("dk.txt", "dk.txt")):
            shutil.copy(f"{work}/{of}", f"{TOP}/build/{name}.new")
            os.replace(f"{TOP}/build/{name}.new", f"{TOP}/build/{name}")
        say(f"build/dk is built, in {int(time.monotonic() - START) // 60} min")
        return 0
    finally:
        if process and process.poll() is None:
            os.killpg(process.pid, signal.SIGTERM)
            process.wait()
        shutil.rmtree(work, ignore_errors=True)


START = time.monotonic()
for number in (signal.SIGINT, signal.SIGTERM, signal.SIGHUP):
    signal.signal(number, lambda number, frame: sys.exit(128 + number))
sys.exit(main())
