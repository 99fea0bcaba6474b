#!/usr/bin/env python3
"""Makes the pages of the crates from crates.txt and the README of each crate: crates/README.md, and the lists of docs/ARCHITECTURE.md between the lines
`<!-- crates -->` and `<!-- end of crates -->`. Both have the stages, and one line a crate in the order in which they are proved.

usage: tools/dev/crates.py [--check]

--check compares instead, prints what is different, and then ends with status 1.

What a README must be, since both pages are made of it:
- Its first line is `# NAME`. The first sentence after it states what the crate is.
- Sections on claims have the names of SECTIONS, in this order. Others may be between them, with names that begin with no word of CLAIMING.
- `What is proved` begins with the sentence SAFE if no contract states more. That of a crate without code comes after the sentence NO_CODE.
"""

import re
import sys
from pathlib import Path

TOP = Path(__file__).resolve().parents[2]
SECTIONS = ["What a contract sees", "What is proved", "What is only tested", "Neither proved nor tested"]
CLAIMING = ("What", "Neither", "Not")
SAFE = "Each function is safe and returns"
NO_CODE = "There is no code."
BEGIN, END = "<!-- crates -->\n", "<!-- end of crates -->\n"
HEAD = """# Crates

The crates in the order in which they are proved: each comes after those that it uses. So the way of the data, from a text to a circuit and to the
picture that the circuit shows, goes from the top to the bottom. The README of each crate has what is proved of it, and what is not.
`python3 tools/dev/crates.py` makes this page from crates.txt and the README of each crate."""


class Fault(Exception):
    """Why the pages cannot be made."""


def text_of(path):
    try:
        return path.read_text(encoding="utf-8")
    except (OSError, UnicodeDecodeError) as fault:
        raise Fault(f"{path.relative_to(TOP)} cannot be read: {getattr(fault, 'strerror', None) or 'it is not UTF-8'}") from None


def stages():
    """The stages of crates.txt, each with its crates."""
    found = []
    for line in text_of(TOP / "crates.txt").splitlines():
        crate = re.match(r"(\w+)(?: staticlib)?:", line)
        if crate and not found:
            raise Fault(f"crates.txt has {crate[1]} before its first stage")
        if crate:
            found[-1][1].append(crate[1])
        elif line.startswith("# ") and not line.endswith("."):
            found.append((line[2:], []))
    return found


class Readme:
    """The README of a crate: its first paragraph, and its sections by name."""

    def __init__(self, crate):
        self.crate = crate
        head, *parts = re.split(r"^## (.*)\n", text_of(TOP / "crates" / crate / "README.md"), flags=re.M)
        self.head = head
        self.names = parts[::2]
        self.sections = dict(zip(self.names, parts[1::2]))
        paragraphs = [" ".join(part.split()) for part in head.split("\n\n")[1:] if part.strip()]
        self.first = paragraphs[0] if paragraphs else ""

    def faults(self):
        """What is not as the pages need it."""
        name = f"crates/{self.crate}/README.md"
        if not self.head.startswith(f"# {self.crate}\n\n") or not self.first:
            yield f"{name} does not begin with its crate and what it is"
        claims = [section for section in self.names if section.split(" ")[0] in CLAIMING]
        if claims != [section for section in SECTIONS if section in self.sections]:
            yield f"{name} has the sections {claims}, and not those of {SECTIONS} in their order"

    def sentence(self):
        """What the crate is: the first sentence."""
        return re.split(r"(?<=\.) ", self.first, maxsplit=1)[0].rstrip(":.") + "."

    def mark(self):
        """What a reader must know of the claims of the crate where they are no contracts of its calls."""
        if NO_CODE in self.head:
            return " (laws)"
        return " (safety)" if self.sections.get("What is proved", "").lstrip().startswith(SAFE) else ""


def lists(readmes, folder, level, mark):
    """The stages with a line for each crate, whose README is in this folder as the page sees it."""
    out = []
    for stage, crates in stages():
        out.append(f"\n{level} {stage}\n")
        out += [f"- [{crate}]({folder}{crate}/README.md){mark(readmes[crate])}: {readmes[crate].sentence()}" for crate in crates]
    return "\n".join(out) + "\n"


def architecture(text, readmes):
    """The page with its lists made anew."""
    before, begin, rest = text.partition(BEGIN)
    _, end, after = rest.partition(END)
    if not begin or not end:
        raise Fault(f"docs/ARCHITECTURE.md has no lines {BEGIN.strip()} and {END.strip()}")
    return before + begin + lists(readmes, "../crates/", "###", Readme.mark) + "\n" + end + after


def main(arguments):
    if arguments not in ([], ["--check"]):
        print("usage: tools/dev/crates.py [--check]", file=sys.stderr)
        return 2
    readmes = {crate: Readme(crate) for _, crates in stages() for crate in crates}
    wrong = [fault for readme in readmes.values() for fault in readme.faults()]
    page = TOP / "docs/ARCHITECTURE.md"
    for path, made in ((TOP / "crates/README.md", HEAD + "\n" + lists(readmes, "", "##", lambda _: "")), (page, architecture(text_of(page), readmes))):
        if not arguments:
            path.write_text(made, encoding="utf-8")
        elif not path.is_file() or text_of(path) != made:
            wrong.append(f"{path.relative_to(TOP)} is not that of crates.txt and the crates' READMEs: python3 tools/dev/crates.py")
    print("\n".join(wrong), end="\n" if wrong else "")
    return 1 if wrong else 0


if __name__ == "__main__":
    try:
        sys.exit(main(sys.argv[1:]))
    except Fault as fault:
        print(f"crates.py: {fault}", file=sys.stderr)
    except OSError as fault:
        print(f"crates.py: {fault.filename}: {fault.strerror}", file=sys.stderr)
    sys.exit(1)
