#!/usr/bin/env python3
"""Compares the files of editors/ with docs/LANGUAGE.md and docs/EDITORS.md, and tries them. Says nothing where all is right, and else ends with status 1.

usage: python3 tests/editors.py [--vim]

Each byte of the examples, and of a text of hard cases, must have the group of its token: in the TextMate grammar, which this script applies line by line as an
editor does, and with --vim in Vim. The problem matcher, and with --vim `:make` and `:cgetfile` of Vim, must find the place of a fault in what ./dk writes.
"""
import json
import os
import re
import shutil
import subprocess
import sys
import tempfile
from pathlib import Path

TOP = Path(__file__).resolve().parent.parent
VIM = TOP / "editors/vim"
CODE = TOP / "editors/vscode"
FUNCTIONS = {"select", "min", "max", "abs", "sat"}
COORDINATES = {"x", "y"}
DELIMITERS = set("(),:")
# The names of a group in Vim, and in the TextMate grammar.
GROUPS = {
    "comment": ("dkComment", "comment.line.double-dash.dk"),
    "keyword": ("dkKeyword", "keyword.other.dk"),
    "function": ("dkFunction", "support.function.dk"),
    "coordinate": ("dkCoordinate", "variable.language.dk"),
    "type": ("dkType", "storage.type.dk"),
    "number": ("dkNumber", "constant.numeric.dk"),
    "operator": ("dkOperator", "keyword.operator.dk"),
    "delimiter": ("dkDelimiter", "punctuation.dk"),
    "declared": ("dkDeclared", "entity.name.function.dk"),
    "image": ("dkImage", "variable.other.dk"),
    "error": ("dkError", "invalid.illegal.dk"),
}
# Words next to numbers and symbols, comments, and bytes of no token.
HARD = """\
size 64 48--size
let outlet:u8=im(x,y)a(x-1,y)as u8 end
12ab 3as u8 u0 u08 u65 u64 s64 s1 s65 U8 u100 us8 xs yx x1 y_ _x X Y
a--b - -a <<= >>= == != < > ! | ^ & * / + , : ( )
input  second : u16
output\tlet_us
@ [ ] ; . ' ~ %
-- all: size 3 1 let f = im(x,y) a(x,y) end
"""


def page_words():
    """The reserved words and the symbols, as docs/LANGUAGE.md has them."""
    page = (TOP / "docs/LANGUAGE.md").read_text(encoding="utf-8")
    words = re.search(r"^- Reserved: `([^`]+)`", page, re.M)[1].split()
    row = re.search(r"^\| Symbol \| (.+) \|$", page, re.M)[1]
    return set(words), [symbol.replace("\\|", "|") for symbol in re.findall(r"`([^`]+)`", row)]


def tokens(line, words, symbols):
    """The group and the length of each token of a line, and None for a blank."""
    known = "|".join(map(re.escape, sorted(symbols, key=len, reverse=True)))
    kinds = re.compile(rf"(?P<comment>--.*)|(?P<word>[A-Za-z_]\w*)|(?P<number>\d+)|(?P<symbol>{known})|(?P<blank>\s+)|(?P<error>.)", re.A)
    before = None
    for match in kinds.finditer(line):
        kind, text = match.lastgroup, match[0]
        if kind == "word":
            if before in ("input", "output", "let"):
                kind = "declared"
            elif text in FUNCTIONS | COORDINATES:
                kind = "function" if text in FUNCTIONS else "coordinate"
            elif text in words:
                kind = "keyword"
            else:
                kind = "type" if re.fullmatch(r"[us]([1-9]|[1-5]\d|6[0-4])", text) else "image"
        elif kind == "symbol":
            kind = "delimiter" if text in DELIMITERS else "operator"
        if kind != "blank":
            before = text
        yield (None if kind == "blank" else kind), len(text)


def grammar_groups(line, patterns):
    """The scope of each character of a line by the grammar: the first match from each place on, and of those the first pattern."""
    scopes = [None] * len(line)
    at = 0
    while True:
        found = [(match.start(), order, match) for order, (regex, _) in enumerate(patterns) if (match := regex.search(line, at))]
        if not found:
            return scopes
        _, order, match = min(found, key=lambda item: item[:2])
        for group, name in patterns[order][1].items():
            for place in range(*match.span(group)) if match[group] is not None else ():
                scopes[place] = name
        at = max(match.end(), at + 1)


def grammar():
    """The patterns of the TextMate grammar, with the scope of each group of each."""
    rules = json.loads((CODE / "syntaxes/dk.tmLanguage.json").read_text(encoding="utf-8"))["patterns"]
    return [
        (re.compile(rule["match"], re.A), {int(group): name["name"] for group, name in rule["captures"].items()} if "captures" in rule else {0: rule["name"]})
        for rule in rules
    ]


def vim(work, *commands):
    """Runs Vim without a screen and without settings but the folder editors/vim."""
    settings = ["set nocompatible nomore", f"set runtimepath^={VIM}", "filetype plugin on", "syntax on"]
    script = work / "script.vim"
    script.write_text("\n".join([*settings, *commands, "qall!"]) + "\n", encoding="utf-8")
    subprocess.run(["vim", "-es", "-N", "-u", "NONE", "-i", "NONE", "-S", str(script)], cwd=work, stdin=subprocess.DEVNULL, stdout=subprocess.DEVNULL, timeout=100, check=False)


def vim_groups(work, files):
    """The groups that Vim has for each byte of each line of these files."""
    said = work / "groups.json"
    names = "{line -> map(range(1, strlen(getline(line))), {_, column -> synIDattr(synID(line, column, 1), 'name')})}"
    show = f"call writefile([json_encode(map(range(1, line('$')), {{_, line -> g:Names(line)}}))], '{said}', 'a')"
    vim(work, f"let g:Names = {names}", *(command for file in files for command in (f"edit {file}", show)))
    return [json.loads(line) for line in said.read_text(encoding="utf-8").splitlines()]


class Wrong(list):
    def add(self, text):
        print(f"editors: {text}", file=sys.stderr)
        self.append(text)


def compare(wrong, where, text, groups, column):
    """The groups of each line are those of its tokens; `column` is the place of an editor's name in GROUPS."""
    words, symbols = page_words()
    for number, line in enumerate(text.splitlines(), 1):
        at = 0
        for kind, length in tokens(line, words, symbols):
            expected = GROUPS[kind][column] if kind else None
            found = set(groups[number - 1][at:at + length])
            if kind and found != {expected}:
                wrong.add(f"{where}:{number}:{at + 1}: {line[at:at + length]} is {found}, not {expected}")
            at += length


def hard_text():
    """HARD, each reserved word with names that are nearly the same, each symbol, and the type words."""
    words, symbols = page_words()
    near = [line for word in sorted(words) for line in (f" {word} 1{word} (", f" {word}s {word}_ s{word}")]
    types = [" ".join(f"{kind}{width}" for width in range(66)) for kind in "us"]
    return "\n".join([HARD, *near, " ".join(symbols), "".join(symbol + "1" for symbol in symbols), *types]) + "\n"


def faulty(work):
    """What ./dk writes of two faulty programs, and where the faults are."""
    (work / "faulty.dk").write_text("-- a program\nsize 1 1\ninput a : u8\nlet f = im(x,y) b(x,y) end\noutput f\n", encoding="utf-8")
    (work / "short.dk").write_text("size 3 1 input a : u8 output", encoding="utf-8")
    said = ""
    for name in ("faulty.dk", "short.dk"):
        done = subprocess.run([TOP / "dk", "explain", name], cwd=work, capture_output=True, text=True, check=False)
        said += done.stdout
    return said, [("faulty.dk", 4, 17, "UnknownImage", "there is no image `b`"), ("short.dk", 1, 29, "Syntax", "expected a name")]


def matched(said):
    """What the problem matcher finds."""
    patterns = json.loads((CODE / "package.json").read_text(encoding="utf-8"))["contributes"]["problemMatchers"][0]["pattern"]
    lines = said.splitlines()
    for start in range(len(lines) - len(patterns) + 1):
        found = {}
        for pattern, line in zip(patterns, lines[start:]):
            match = re.search(pattern["regexp"], line, re.A)
            if not match:
                break
            found.update({key: match[group] for key, group in pattern.items() if key != "regexp"})
        else:
            yield found["file"], int(found["line"]), int(found["column"]), found["code"], found["message"]


def faults_are_found(wrong, found, expected, who):
    agree = len(found) == len(expected) and all(
        place[:3] == wanted[:3] and wanted[3] in place[3] and wanted[4] in place[4] for place, wanted in zip(found, expected)
    )
    if not agree:
        wrong.add(f"{who} finds {found}, not {expected}")


def vim_faults(work, said):
    """What Vim finds in these lines, and by :make in the first program."""
    (work / "said.txt").write_text(said, encoding="utf-8")
    os.symlink(TOP / "dk", work / "dk")
    out = work / "faults.json"
    places = "map(filter(getqflist(), 'v:val.valid'), '[bufname(v:val.bufnr), v:val.lnum, v:val.col, v:val.text, v:val.text]')"
    show = f"call writefile([json_encode({places})], '{out}', 'a')"
    vim(work, f"let $PATH = '{work}:' . $PATH", "edit faulty.dk", "compiler dk", "cgetfile said.txt", show, "silent make!", show)
    return [[tuple(place) for place in json.loads(line)] for line in out.read_text(encoding="utf-8").splitlines()]


def in_vim(wrong, work, texts, said, expected):
    files = []
    for name, text in texts.items():
        (work / name).write_text(text, encoding="utf-8")
        files.append(work / name)
    for (name, text), groups in zip(texts.items(), vim_groups(work, files), strict=True):
        compare(wrong, f"Vim: {name}", text, groups, 0)
    listed, made = vim_faults(work, said)
    faults_are_found(wrong, listed, expected, ":cgetfile of Vim")
    faults_are_found(wrong, made, expected[:1], ":make of Vim")


def main(arguments):
    if arguments not in ([], ["--vim"]):
        sys.exit(__doc__)
    wrong = Wrong()
    texts = {path.name: path.read_text(encoding="utf-8") for path in sorted((TOP / "examples/programs").glob("*.dk"))} | {"hard.dk": hard_text()}
    for name, text in texts.items():
        patterns = grammar()
        compare(wrong, f"the grammar: {name}", text, [grammar_groups(line, patterns) for line in text.splitlines()], 1)
    page = (TOP / "docs/EDITORS.md").read_text(encoding="utf-8")
    for names in GROUPS.values():
        if "| `{}` | `{}` |".format(*names) not in page:
            wrong.add(f"docs/EDITORS.md does not have the groups {names}")
    json.loads((CODE / "language-configuration.json").read_text(encoding="utf-8"))
    version = (TOP / "VERSION").read_text(encoding="utf-8").strip()
    if json.loads((CODE / "package.json").read_text(encoding="utf-8"))["version"] != version:
        wrong.add("editors/vscode/package.json is not of the version in VERSION")
    with tempfile.TemporaryDirectory() as folder:
        work = Path(folder)
        said, expected = faulty(work)
        faults_are_found(wrong, list(matched(said)), expected, "the problem matcher")
        if arguments and not shutil.which("vim"):
            print("editors: vim is not installed, and was passed over")
        elif arguments:
            in_vim(wrong, work, texts, said, expected)
    return 1 if wrong else 0


if __name__ == "__main__":
    sys.exit(main(sys.argv[1:]))
