#!/usr/bin/env python3
"""Checks that the measuring scripts refuse a program that was not compiled by -O3, as the recorded flags of the compiler show it: a later -Os counts.
Passes over a compiler that is not installed. Names each case that fails, and ends with status 1 if there is one.

usage: python3 tests/flags.py
"""
import os
import shutil
import subprocess
import sys
import tempfile

TOP = os.path.join(os.path.dirname(os.path.abspath(__file__)), "..")
sys.dont_write_bytecode = True
sys.path.append(os.path.join(TOP, "bench"))
import machine  # noqa: E402

RECORD = machine.FLAGS[-1]
# The flags, and whether the program is accepted. Verilator's makefile puts -Os after the flags of its option -CFLAGS.
CASES = [
    (f"-O3 {RECORD}", True),
    (f"-Os -O3 {RECORD}", True),
    (f"-O3 -Os {RECORD}", False),
    (f"-O3 -march=native -O2 {RECORD}", False),
    (f"-march=native {RECORD}", False),
    ("-O3", False),
]


def is_accepted(path):
    """Whether a program passes the check, which ends the script where it does not."""
    try:
        machine.check_flags(path)
    except SystemExit:
        return False
    return True


def built(compiler, parts):
    """An object, or a program of several parts, of which each is compiled by flags of its own."""
    objects = []
    for number, flags in enumerate(parts):
        with open(f"{number}.c", "w", encoding="ascii") as file:
            file.write(f"int part{number}(void) {{ return {number}; }}\n" if number else "int main(void) { return 0; }\n")
        subprocess.run([compiler, *flags.split(), "-c", f"{number}.c", "-o", f"{number}.o"], check=True)
        objects.append(f"{number}.o")
    if len(objects) == 1:
        return objects[0]
    subprocess.run([compiler, *objects, "-o", "built"], check=True)
    return "built"


def main():
    failed = 0
    cases = [([flags], accepted) for flags, accepted in CASES] + [([f"-O3 {RECORD}", f"-Os {RECORD}"], False)]
    with tempfile.TemporaryDirectory() as room:
        os.chdir(room)
        for compiler, _ in machine.COMPILERS.values():
            if not shutil.which(compiler) or not shutil.which("readelf"):
                continue
            for parts, accepted in cases:
                if is_accepted(built(compiler, parts)) != accepted:
                    print(f"flags: {compiler} {' and '.join(parts)} was {'refused' if accepted else 'accepted'}")
                    failed = 1
    sys.exit(failed)


main()
