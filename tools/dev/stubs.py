#!/usr/bin/env python3
"""stubs.py TO CRATE [LEMMAS]: a repository TO with a stub (stub.py) of CRATE and of each crate below it, with no more
lemma files of these than those that the lemma files of CRATE named by LEMMAS (Name,Name; else all) stand on. In it the
lemma files of CRATE are checked in seconds (`rt all check`, then `rt check --allow-holes` in TO/crates/CRATE)."""
import os
import re
import shutil
import subprocess
import sys

top = os.path.dirname(os.path.dirname(os.path.dirname(os.path.abspath(__file__))))
to, crate = sys.argv[1:3]
wanted = set(sys.argv[3].split(",")) if len(sys.argv) > 3 else None
deps = {}
for line in open(f"{top}/crates.txt", encoding="utf-8"):
    match = re.match(r"(\w+)(?: staticlib)?:(.*)", line)
    if match:
        deps[match[1]] = match[2].split()
order = []


def below(name):
    for low in deps.get(name, []):
        below(low)
    if name in deps and name not in order:
        order.append(name)


def named(path):
    return re.findall(r"Rattle\.(\w+)\.proofs\.(\w+)", open(path, encoding="utf-8").read())


below(crate)
own = f"{top}/crates/{crate}/proofs"
lemmas = [name for name in os.listdir(own) if name.endswith(".antt") and (wanted is None or name[:-5] in wanted)]
work, kept = [pair for name in lemmas for pair in named(f"{own}/{name}")], set()
while work:
    pair = work.pop()
    path = f"{top}/crates/{pair[0]}/proofs/{pair[1]}.antt"
    if pair[0] in deps and pair not in kept and os.path.exists(path):
        kept.add(pair)
        work += named(path)
os.makedirs(f"{to}/crates", exist_ok=True)
for name in order:
    folder = f"{to}/crates/{name}"
    subprocess.check_call([sys.executable, f"{top}/tools/dev/stub.py", f"{top}/crates/{name}", folder])
    keep = sorted(low for owner, low in kept if owner == name)
    if name == crate:
        keep = sorted({file[:-5] for file in lemmas if file != "Lib.antt"} | set(keep))
    for file in os.listdir(f"{folder}/proofs"):
        if file[:-5] not in keep:
            os.remove(f"{folder}/proofs/{file}")
    if keep:
        with open(f"{folder}/proofs/Lib.antt", "w", encoding="utf-8") as lib:
            lib.writelines(f"pub mod {low}\n" for low in keep)
    else:
        shutil.rmtree(f"{folder}/proofs")
with open(f"{to}/crates.txt", "w", encoding="utf-8") as crates:
    crates.writelines(f"{name}: {' '.join(deps[name])}\n" for name in order)
