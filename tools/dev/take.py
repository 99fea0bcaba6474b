#!/usr/bin/env python3
"""take.py GATE LOG CLONE [NAME..]: takes into CLONE the libraries that a run of `rt ci` in the checkout GATE has proved
so far, by its output LOG, where the sources are the same: all of them, or those named with all below them. A check in
CLONE then uses them as they are. It needs the kit's rtlib.py, which lies beside the command `rt`."""
import os
import re
import shutil
import sys

# the kit lies where `rt doc` says
sys.path.insert(0, os.path.dirname(os.popen("rt doc").read()) + "/bin")
import rtlib

gate, log, clone = map(os.path.abspath, sys.argv[1:4])
names = set(sys.argv[4:])
proved = set(re.findall(r"^rt: (\w+) (?:proved$|is kept:)", open(log, encoding="utf-8").read(), re.M))
os.chdir(clone)
here = {it.name: it for it in rtlib.crates_below(clone)}
os.chdir(gate)
there = {it.name: it for it in rtlib.crates_below(gate)}
if names:
    names |= {low.name for name in names if name in here for low in here[name].below()}
taken, left = [], []
for name, it in here.items():
    if names and name not in names or it.is_program or it.is_built():
        continue
    if name not in proved or name not in there or it.stamp() != there[name].stamp():
        left.append(name)
        continue
    to = f"{it.folder}/out/rlib"
    shutil.rmtree(to, ignore_errors=True)
    os.makedirs(os.path.dirname(to), exist_ok=True)
    shutil.copytree(f"{gate}/crates/{name}/out/rlib", to)
    # rt ci writes no stamp, and without one a check builds the library anew
    with open(f"{to}/stamp", "w", encoding="utf-8") as stamp:
        stamp.write(it.stamp())
    taken.append(name)
print("taken:", *taken)
print("not taken:", *left)
