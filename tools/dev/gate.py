#!/usr/bin/env python3
"""The processor time of the merge gate by crate: of its proof, its tests, and the wrong changes that the proofs must refuse.

usage: tools/dev/gate.py watch PID FILE    notes the processes below PID (that of `rt ci`) in FILE every five seconds, until PID ends
       tools/dev/gate.py table FILE [ROWS] prints a table of the times of FILE, for docs/BENCH.md: of the ROWS crates of most time, or of all

A process is read each second, so one that ends sooner is not in the table; the last lines say how much of all time the table has.
It reads /proc, so it needs Linux.
"""
import os
import re
import sys
import time

TICKS = os.sysconf("SC_CLK_TCK")
KINDS = ["proof", "tests", "edits", "program"]


def stat(pid):
    """The parent of a process, its session, its seconds, those of its children that ended, and its start."""
    with open(f"/proc/{pid}/stat", encoding="utf-8", errors="replace") as file:
        words = file.read().rpartition(")")[2].split()
    return int(words[1]), int(words[3]), (int(words[11]) + int(words[12])) / TICKS, (int(words[13]) + int(words[14])) / TICKS, int(words[19])


def command(pid):
    """The folder of a process, and its words."""
    with open(f"/proc/{pid}/cmdline", encoding="utf-8", errors="replace") as file:
        words = file.read().replace("\0", " ").strip()
    return os.readlink(f"/proc/{pid}/cwd"), re.sub(r"\s", " ", words)[:2500]


def processes(root):
    """What `stat` says of the process root and of each one below it, or in its session."""
    rows = {}
    for name in os.listdir("/proc"):
        try:
            rows.update({int(name): stat(name)} if name.isdigit() else {})
        except OSError:
            pass
    own, before = {root} & set(rows), None
    while own != before:
        before = set(own)
        own |= {pid for pid, row in rows.items() if row[0] in before or row[1] == root}
    return {pid: rows[pid] for pid in own}


def note(out, pid, seen, state):
    parent, seconds, children, folder, words, since = seen
    out.write(f"{time.time():.0f}\t{state}\t{pid}\t{parent}\t{since:.0f}\t{seconds:.2f}\t{children:.2f}\t{folder}\t{words}\n")
    out.flush()


def watch(root, path):
    if root not in processes(root):
        raise OSError(f"no process {root}")
    seen, turn = {}, 0
    with open(path, "a", encoding="utf-8") as out:
        while True:
            rows = processes(root)
            alive = {(pid, row[4]): row for pid, row in rows.items()}
            for key, row in alive.items():
                since = seen[key][5] if key in seen else time.time()
                try:
                    # (a process that has just begun may still have the words of its parent)
                    named = seen[key][3:5] if key in seen and time.time() - since > 3 else command(key[0])
                except OSError:
                    continue
                seen[key] = (row[0], row[2], row[3], *named, since)
            for key in list(seen):
                if key not in alive:
                    note(out, key[0], seen.pop(key), "ended")
                elif turn % 5 == 0:
                    note(out, key[0], seen[key], "alive")
            if root not in rows:
                return
            turn += 1
            time.sleep(1)


def kind_of(folder, words):
    """The crate of a process and what it does, if it is a prover, a compiler or a program of tests."""
    crate = re.search(r"/rattle (?:build|check) .*?--crate-name (\w+)", words)
    if not crate:
        test = re.search(r"/rattle-test .*/(\w+)_tests$", words)
        return test and (test[1], "tests")
    if "/rt-edit-" in folder:
        return crate[1], "edits"
    if "--crate-checked" in words:
        return crate[1], "program"
    return crate[1], "tests" if " --test" in words else "proof"


def times_of(path):
    """The seconds of each crate and kind, and those of all processes."""
    last, whole = {}, 0.0
    with open(path, encoding="utf-8", errors="replace") as file:
        for line in file:
            parts = line.rstrip("\n").split("\t")
            if len(parts) == 9:
                last[parts[2], parts[4]] = parts
                if re.search(r"/rt ci( |$)", parts[8]):
                    whole = max(whole, float(parts[5]) + float(parts[6]))
    found = {}
    for parts in last.values():
        kind = kind_of(parts[7], parts[8])
        if kind:
            found[kind] = found.get(kind, 0.0) + float(parts[5]) + float(parts[6])
    return found, whole


def row(name, seconds):
    return f"| {name} | {' | '.join(f'{each:,.0f}' if each else '-' for each in seconds)} | {sum(seconds):,.0f} |"


def table(path, most):
    found, whole = times_of(path)
    rows = {crate: [found.get((crate, kind), 0.0) for kind in KINDS] for crate in {crate for crate, _ in found}}
    order = sorted(rows, key=lambda crate: (-sum(rows[crate]), crate))
    print(f"| Crate | {' | '.join(KINDS)} | all |\n|---|{'---|' * (len(KINDS) + 1)}")
    for crate in order[:most]:
        print(row(crate, rows[crate]))
    others = order[most:]
    if others:
        print(row(f"{len(others)} others", [sum(rows[crate][k] for crate in others) for k in range(len(KINDS))]))
    print(row("all", [sum(each[k] for each in rows.values()) for k in range(len(KINDS))]))
    print(f"\nSeconds of processor time of {len(rows)} crates. `rt ci` and all that it ran and that has ended: {whole:,.0f}.")


def main(words):
    try:
        if len(words) == 3 and words[0] == "watch" and words[1].isdigit():
            return watch(int(words[1]), words[2])
        if len(words) in (2, 3) and words[0] == "table" and "".join(words[2:]).isdigit() == (len(words) == 3):
            return table(words[1], int(words[2]) if len(words) == 3 else None)
    except OSError as fault:
        return f"gate: {fault}"
    return __doc__


if __name__ == "__main__":
    try:
        sys.exit(main(sys.argv[1:]))
    except KeyboardInterrupt:
        sys.exit(130)
