#!/usr/bin/env python3
"""stub.py FROM TO: a copy of a crate with specs, types and lemma files, and no function."""
import os, re, shutil, sys
src, to = sys.argv[1:3]
shutil.rmtree(to, ignore_errors=True)
os.makedirs(to)
shutil.copytree(f"{src}/specs", f"{to}/specs") if os.path.isdir(f"{src}/specs") else None
os.makedirs(f"{to}/proofs"); os.makedirs(f"{to}/src")
for f in (os.listdir(f"{src}/proofs") if os.path.isdir(f"{src}/proofs") else []):
    if f.endswith(".antt"): shutil.copy(f"{src}/proofs/{f}", f"{to}/proofs/{f}")
def skip_item(s, i):
    """from the start of an item to its end: the first ; or balanced {} at depth 0 that is the body"""
    depth = 0
    n = len(s)
    while i < n:
        c = s[i]
        if s.startswith("//", i):
            i = s.index("\n", i); continue
        if c == '"':
            i += 1
            while s[i] != '"':
                i += 2 if s[i] == "\\" else 1
            i += 1; continue
        if c == "'" and re.match(r"'(\\.|[^\\'])'", s[i:]):
            i += len(re.match(r"'(\\.|[^\\'])'", s[i:]).group(0)); continue
        if c in "([{": depth += 1
        if c in ")]}":
            depth -= 1
            if c == "}" and depth == 0:
                # a clause `requires name { .. }` or `ensures { .. }` is followed by more of the item; the body ends it
                yield i + 1
        if c == ";" and depth == 0:
            yield i + 1
        i += 1
def items(s):
    """cuts a module's text into items with what stands before them"""
    i, out = 0, []
    n = len(s)
    while i < n:
        m = re.compile(r"(?:\s|//[^\n]*\n|#!?\[(?:[^\[\]]|\[[^\]]*\])*\])*").match(s, i)
        start, j = i, m.end()
        if j >= n: out.append((start, n, s[start:n], "")); break
        head = s[j:j+200]
        is_fn = re.match(r"(pub(\([^)]*\))?\s+)?(const\s+)?fn\b", head)
        for e in skip_item(s, j):
            rest = s[e:].lstrip()
            while rest.startswith("//"): rest = rest[rest.index("\n")+1:].lstrip()
            if is_fn and s[e-1] == "}":
                # is it a clause's brace? the clause's brace follows requires/ensures NAME?
                k = e - 1
                d = 0
                p = k
                while True:
                    if s[p] == "}": d += 1
                    if s[p] == "{":
                        d -= 1
                        if d == 0: break
                    p -= 1
                before = s[j:p].rstrip()
                if re.search(r"(requires|ensures)(\s+\w+)?$", before) : continue
            break
        out.append((start, e, s[start:e], head)); i = e
    return out
# the derives that the types above need: keys of maps keep their comparisons and hashes
def kept_derives(m):
    derived = [d.strip() for d in m.group(1).split(",")]
    kept = ["Clone", "Copy", "Drop"] + (["PartialEq", "Eq", "Hash"] if "Hash" in derived else [])
    derived = [d for d in derived if d in kept]
    return "#[derive(" + ", ".join(derived) + ")]" if derived else ""
def strip(s):
    res = []
    for a, b, text, head in items(s):
        if not head: res.append(text); continue
        if re.match(r"(pub(\([^)]*\))?\s+)?(const\s+)?fn\b", head): continue
        if re.match(r"impl\b", head):
            if re.match(r"impl(<[^>]*>)?\s+(std::marker::)?Model\s+for", head): res.append(text)
            continue
        if re.match(r"(pub\s+)?use\b", head) or re.match(r"ghost use\b", head) or re.match(r"pub\(crate\) use", head):
            res.append(text); continue
        text = re.sub(r"#\[derive\(([^)]*)\)\]", kept_derives, text)
        text = re.sub(r"\s*#\[error\((?:[^()]|\([^()]*\))*\)\]", "", text)
        text = re.sub(r"\s*#\[(from|source)\]", "", text)
        res.append(text)
    return "".join(res)
gone = {}
files = [os.path.relpath(f"{folder}/{f}", f"{src}/src") for folder, _, names in os.walk(f"{src}/src") for f in names]
for f in files:
    s = open(f"{src}/src/{f}").read()
    t = strip(s)
    os.makedirs(os.path.dirname(f"{to}/src/{f}"), exist_ok=True)
    open(f"{to}/src/{f}", "w").write(t)
# drop uses of functions: names in lower case within use lists
names = set()
for f in files:
    p = f"{to}/src/{f}"; s = open(p).read()
    def fix(m):
        vis, body = m.group(1) or "", m.group(2)
        g = re.match(r"([\w:]+)::\{(.*)\}$", body, re.S)
        if g:
            keep = [x.strip() for x in g.group(2).split(",") if x.strip() and re.match(r"[A-Z]", x.strip().split("::")[-1].split(" ")[-1])]
            return f"{vis}use {g.group(1)}::{{{', '.join(keep)}}};" if keep else ""
        last = body.split("::")[-1].strip()
        return m.group(0) if re.match(r"[A-Z]", last) else ""
    s = re.sub(r"(?m)^(pub(?:\(crate\))? )?use ([^;]*);", fix, s)
    open(p, "w").write(s)
