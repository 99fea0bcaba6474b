#!/usr/bin/env python3
"""The ladder: the clauses of the program's call, and each definition that they name, from the top down.

    python3 tools/dev/ladder.py            writes docs/LADDER.md and a file for each chapter, docs/ladder/NN-name.md
    python3 tools/dev/ladder.py --check    compares these files with the sources; ends with status 1 where one differs,
                                       is missing, or belongs to no chapter
    python3 tools/dev/ladder.py --counts   prints the number of definitions and lines of each chapter

It reads the sources and nothing else. A definition is shown once, in the first chapter that reaches it, after the
definition that names it first. Names of the toolchain's library are not shown.
"""
import glob
import os
import re
import sys
from typing import NamedTuple

TOP = os.path.join(os.path.dirname(os.path.abspath(__file__)), "..", "..")
INDEX = os.path.join(TOP, "docs", "LADDER.md")
FOLDER = os.path.join(TOP, "docs", "ladder")
WORD = re.compile(r"[^\s(){}\[\],;.]+")
MARKS = r"(?:(?:pub|abbrev|unfoldable)\s+)*"


class Chapter(NamedTuple):
    """A chapter: its file, its title, what it answers, and the definitions that it begins with."""

    file: str
    title: str
    sentence: str
    roots: list


# A chapter shows its roots and what these name, down to the roots of later chapters.
CHAPTERS = [
    Chapter("run-and-compile", "What `run` and `compile` promise",
            "Which program and image file fit together, which pictures the program means, which module it is compiled to, and which pixels that module shows at which clock.",
            ["IsCorrect", "IsGoodPair", "IsStoredRun", "NotedRun", "IsCompiledText"]),
    Chapter("run-faults", "When `run` ends otherwise, and what it leaves",
            "Which fault ends `run`, and which lines of the picture the output file then holds.",
            ["run_meaning", "IsRunAnswer", "CreatesRun", "HoldsAtWrite", "LeavesAtFault", "LeavesAtRead", "IsFaultAt", "IsImageFault"]),
    Chapter("modules", "What makes a module well formed, and its inside",
            "The rules that the nets, registers and arrays of a module keep, which nets and arrays of a compiled module hold which images, and what its registers are for.",
            ["IsCircuitOf", "BehavesAs", "IsWhole", "AreNetsOf", "AreComputed", "IsApart", "HasClockPaths", "HasRegisters", "IsReadOnce", "IsReadAndPut", "AreAccessedOnce", "CopyLongArrays", "ReadsDirectly", "HasBits", "IsBufferBits", "form_with", "shapes_of", "KeepsRules"]),
    Chapter("packed-memories", "Packed memories",
            "When a module is a circuit with its arrays packed, and how the contents of the circuit are seen in it.",
            ["IsPacking", "packed", "KeepsDepth", "View"]),
    Chapter("program-form", "The form of a program, its live reads and its limits",
            "How inline images are substituted, which images are kept, which live reads they make, and within which limits a program is accepted.",
            ["dk_compile.Sources.IsAccepted", "AreStencilsOf", "IsForm", "IsFront"]),
    Chapter("program-text", "Tokens, grammar and types of a program",
            "Which texts are programs, and which fault any other text has.",
            ["dk_compile.Sources.IsText", "dk_compile.Sources.IsSourceFault"]),
    Chapter("verilog-text", "Verilog texts",
            "Which texts of the Verilog subset stand for which module, how a module is printed, and which fault any other text has.",
            ["StandsFor", "port_names", "names_after_clock", "output_names", "verilog_layout.Layout.layout", "names_for", "verilog_text.Faults.IsFault"]),
    Chapter("files", "The frame of the outside",
            "Which files a command asks for, creates and leaves unchanged, and what it writes to standard error.",
            ["Performs", "OnCommand", "OnFiles", "UnlessFailed", "HasCauseIn", "Rose", "IsFresh", "AsksOnly", "AsksWhere", "CreatesNothing", "CreatesOut", "FilesStay", "GainsLine", "WritesNothing", "IsOrMemory"]),
    Chapter("eval-compile-make", "`eval`, `compile`, `nets` and `make`",
            "How these four commands end, and what they write.",
            ["eval_meaning", "compile_meaning", "nets_meaning", "make_meaning", "IsAnswer", "IsStoredOf", "IsProgramAnswer", "HoldsText", "AreNetLines", "IsMadeLine", "NotesMade"]),
    Chapter("rewriting", "`cut`, `narrow` and `widen`",
            "How the commands end that write another program, and what that program shows.",
            ["rewrite_meaning", "IsRewriteAnswer", "CanBeRewritten", "IsRewriteOf", "ReportsRewrite", "AreRewriteLines", "EndsWell"]),
    Chapter("plan-and-check", "`plan` and `check`",
            "Which report belongs to a program, and which line of a report is its first wrong one.",
            ["plan_meaning", "check_meaning", "IsCheckAnswer", "IsPlanOf", "IsClaimLine"]),
    Chapter("explain", "`explain`",
            "How the command ends, and what it prints of the first fault of a program.",
            ["explain_meaning", "IsExplainAnswer", "ReportsFault"]),
    Chapter("sim-and-trace", "`sim` and `trace`",
            "Which pictures and which value change dump a module's run shows, and which index stops it.",
            ["sim_meaning", "trace_meaning", "IsSimAnswer", "IsStoredSim", "NotesSim", "IsTraceAnswer", "IsStoredTrace"]),
    Chapter("words-and-endings", "Words, endings, and the table of all commands",
            "Which command the words name, which line each fault writes, and the tables that choose a definition for each command.",
            ["command_of", "meaning_of", "fault_line", "IsVerdict", "IsStored", "IsNoted", "IsReported", "IsGood", "HasOneVerdict"]),
]
REST = Chapter("rest", "What else the clauses name", "Definitions that the clauses name and no other chapter shows.", [])

# The most lines of the first chapter, which a reader should finish in an hour.
MOST_LINES = 1500


class Definition:
    def __init__(self, module, name, text, sentence):
        self.module, self.name, self.text, self.sentence = module, name, text, sentence


class Module:
    """A file of definitions: what it defines, and what its names refer to."""

    def __init__(self, name, path):
        self.name, self.path, self.uses, self.again, self.defined, self.order = name, path, {}, {}, {}, []
        self.lines = 0


def imports(text):
    """The names that `use` lines bring, each with the module and the name there."""
    found = []
    for mark, path in re.findall(r"^(pub )?use ([^\n]+)$", text, re.M):
        if " as " in path and "{" not in path:
            module, name = path.split(" as ")
            found.append((mark, name.strip(), module.strip(), None))
            continue
        if "{" not in path:
            continue
        module, names = path.split(".{", 1)
        for part in names.rstrip("}").split(","):
            old, _, new = part.strip().partition(" as ")
            found.append((mark, new or old, module, old))
    return found


def read_spec(crate, path):
    name = f"Rattle.{crate}.specs.{os.path.basename(path)[:-5]}"
    module = Module(name, os.path.relpath(path, TOP))
    text = open(path, encoding="utf-8").read()
    for mark, name, source, old in imports(text):
        module.uses[name] = (source, old)
    blocks, sentence, block = [], [], []
    for line in text.split("\n") + [""]:
        if line.startswith("--") and not block:
            sentence.append(line[2:].strip())
        elif line and not line.startswith(("use ", "pub use ", "pub mod", "--")):
            block.append(line)
        elif block and (not line or line.startswith("--")):
            blocks.append((sentence, block))
            block, sentence = [], [line[2:].strip()] if line.startswith("--") else []
        elif not line:
            sentence = []
    for sentence, block in blocks:
        head = re.match(MARKS + r"(?:(?:record|data)\s+)?([^\s:(){}]+)", block[0])
        if not head:
            continue
        item = Definition(module, head[1], "\n".join(block), " ".join(sentence))
        module.defined[head[1]] = item
        module.order.append(item)
        if re.match(MARKS + r"data\s", block[0]):
            for line in block[1:]:
                for made in re.findall(r"^  ([^\s:(){}]+)\s*(?:\{[^}]*\}\s*)*:", line):
                    module.defined.setdefault(made, item)
    return module


def read_types(crate, folder):
    """Structs and enums of the code, as clauses name them: by module and name."""
    found = {}
    for path in sorted(glob.glob(f"{folder}/src/*.rt")):
        text = open(path, encoding="utf-8").read()
        for match in re.finditer(r"((?:^[ \t]*///?(?!!)[^\n]*\n|^#\[[^\n]*\]\n)*)^(pub(?:\(crate\))? )?(struct|enum) (\w+)[^{;]*(\{\n.*?^\}|;)", text, re.M | re.S):
            doc = " ".join(line.strip().lstrip("/").strip() for line in match[1].split("\n") if line.strip().startswith("//"))
            module = Module(f"Rattle.{crate}.specs.declared", os.path.relpath(path, TOP))
            body = match[0][len(match[1]):]
            found[match[4]] = Definition(module, match[4], body, doc)
    return found


def clauses(path, name):
    """The clauses of a function of dk_top."""
    text = open(path, encoding="utf-8").read()
    start = text.index(f"pub fn {name}")
    head = text[start:text.index("\n{\n", start)]
    module = Module("top", os.path.relpath(path, TOP))
    for line in re.findall(r"^ghost use ([^;]+);", text, re.M):
        for _, name, source, old in imports("use " + line):
            module.uses[name] = (source, old)
    return module, Definition(module, name, head, "")


def load():
    modules, types = {}, {}
    for folder in sorted(glob.glob(f"{TOP}/crates/*")):
        crate = os.path.basename(folder)
        for path in sorted(glob.glob(f"{folder}/specs/*.antt")):
            if not path.endswith("/Lib.antt"):
                module = read_spec(crate, path)
                modules[module.name] = module
        types[crate] = read_types(crate, folder)
    return modules, types


def find(modules, types, module, name, seen=()):
    """The definition that a name refers to in a module, if this repository has it."""
    if name in module.defined:
        return module.defined[name]
    if name not in module.uses:
        return None
    source, old = module.uses[name]
    declared = re.match(r"Rattle\.(\w+)\.specs\.declared\.(.*)$", source)
    if declared:
        kind = [part for part in declared[2].split(".") if part[:1].isupper() and part not in ("TheVariants", "TheConstants")]
        return types.get(declared[1], {}).get(kind[-1] if kind else old)
    there = modules.get(source)
    if there is None or (source, old) in seen or old is None:
        return None
    return find(modules, types, there, old, (*seen, (source, old)))


def named(modules, types, item):
    """The definitions that this one names, in the order of its text."""
    text = re.sub(r"--[^\n]*|//[^\n]*", "", item.text)
    found, done = [], set()
    for match in WORD.finditer(text):
        word = match[0]
        owner = text[match.start() - 1 : match.start()] == "." and re.search(r"([^\s(){}\[\],;.]+)\.$", text[max(0, match.start() - 200) : match.start()])
        if owner and item.module.uses.get(owner[1], ("", ""))[1] is None and modules.get(item.module.uses[owner[1]][0]):
            # The word is a name of an imported module.
            other = find(modules, types, modules[item.module.uses[owner[1]][0]], word)
        else:
            other = find(modules, types, item.module, word)
        if other is None and "." in text[match.start() - 1 : match.end() + 1]:
            continue
        if other is not None and other is not item and id(other) not in done:
            done.add(id(other))
            found.append(other)
    return found


def renamed(modules, types, item):
    """The names that this definition uses under an alias, as sentences."""
    text = re.sub(r"--[^\n]*|//[^\n]*", "", item.text)
    found = []
    for match in WORD.finditer(text):
        source, old = item.module.uses.get(match[0], ("", None))
        other = find(modules, types, item.module, match[0])
        if old and old != match[0] and other is not None and match[0] not in other.module.defined:
            line = f"`{match[0]}` is `{old}` of {other.module.name.split('.')[1]}."
            if line not in found:
                found.append(line)
    return found


def chapter(modules, types, roots, shown):
    """From these definitions down: each one, then what it names, breadth first."""
    found, queue = [], [it for it in roots if id(it) not in shown]
    for it in queue:
        shown.add(id(it))
    while queue:
        item = queue.pop(0)
        found.append(item)
        for other in named(modules, types, item):
            if id(other) not in shown:
                shown.add(id(other))
                queue.append(other)
    return found


def root(modules, types, top, name):
    """The definition of this name that a chapter begins with: that of the clauses, of dk_top, or of any crate."""
    if "." in name:
        crate, file, name = name.split(".")
        return modules[f"Rattle.{crate}.specs.{file}"].defined[name]
    own = [it for it in modules.values() if it.name.startswith("Rattle.dk_top.")]
    for module in [top, *own, *(it for it in modules.values() if it not in own)]:
        item = find(modules, types, module, name)
        if item is not None:
            return item
    return sys.exit(f"ladder: there is no definition {name}")


def ladder():
    """The clauses, and each chapter with its definitions."""
    modules, types = load()
    top, main = clauses(f"{TOP}/crates/dk_top/src/top.rt", "dk_main")
    all_roots = [[root(modules, types, top, name) for name in each.roots] for each in CHAPTERS]
    shown = {id(it) for roots in all_roots for it in roots}
    chapters = []
    for each, roots in zip(CHAPTERS, all_roots):
        shown -= {id(it) for it in roots}
        chapters.append((each, chapter(modules, types, roots, shown)))
    rest = chapter(modules, types, named(modules, types, main), shown)
    if rest:
        chapters.append((REST, rest))
    first = sum(map(lines, chapters[0][1]))
    if first > MOST_LINES:
        sys.exit(f"ladder: the first chapter has {first} lines, and may have {MOST_LINES}")
    return modules, types, main, chapters


def lines(item):
    return item.text.count("\n") + 1 + (1 if item.sentence else 0)


def file_of(number, each):
    return f"{number:02}-{each.file}.md"


def counts(chapters, titled):
    """The table of chapters; `titled` writes the title of one."""
    rows = ["| Chapter | Definitions | Lines | Files |", "|---|---|---|---|"]
    for number, (each, items) in enumerate(chapters, 1):
        files = {it.module.path for it in items}
        rows.append(f"| {titled(number, each)} | {len(items)} | {sum(map(lines, items))} | {len(files)} |")
    total = [it for _, items in chapters for it in items]
    rows.append(f"| all | {len(total)} | {sum(map(lines, total))} | {len({it.module.path for it in total})} |")
    return rows


def places(chapters):
    """The file and the anchor of each definition. In a file, the second definition of a name gets the anchor NAME-2."""
    found = {}
    for number, (each, items) in enumerate(chapters, 1):
        used = {}
        for item in items:
            used[item.name] = used.get(item.name, 0) + 1
            found[id(item)] = (file_of(number, each), item.name if used[item.name] == 1 else f"{item.name}-{used[item.name]}")
    return found


def links(items, places, here):
    """Links to these definitions from the file `here` of docs/ladder/, or from docs/ where it is None."""
    found = []
    for item in items:
        file, anchor = places[id(item)]
        path = f"ladder/{file}" if here is None else "" if file == here else file
        found.append(f"[`{item.name}`]({path}#{anchor})")
    return ", ".join(found)


HEAD = """# The ladder

These pages show what a reader of the proof has to believe: the clauses of the program's one call, and each definition that they name, from the top down, each once. `python3 tools/dev/ladder.py` makes them from the sources, and `./check` compares them with the sources. Names of the toolchain's library (lists, options, numbers) are not shown. Structs and enums are those of the code.

The theorem of the compiler comes first, on this page. Then read the first chapter; it takes about an hour. It also states what the line buffers hold and why their bits are minimal. The later chapters have the rest: texts and tokens, the rules of a well formed module, the form of a program, and the other commands.

How to read a definition:

- `→` is if .. then, `×` is and, `⊎` is or, `¬` is not, `≡` is equal, `λ x. ..` is a function of x. `ℕ` has the whole numbers from 0. `⊤` is always true, `⊥` is never true.
- `f : A → B → Type 0` is a statement on an A and a B. A `record` holds if all its lines hold, a `data` if one of its lines does.
- `.old` is a value before the call, `.new` the value after it, `.now` a value that the call only reads.
- `IfSome v P` states nothing if v is None, `IfOk r P` nothing if r is an error.
- Below a definition, `Names:` lists the definitions that it names, each a link.

Names of the toolchain's library that the theorem uses:

- `slice_get xs k` is Some of item k of a list, counted from 0, and None past its end. `slice_index xs k` is item k of a list of numbers, and 0 past its end; `slice_index_or xs k d` is item k, and d past the end.
- `All P xs`: P holds of each item. `AllZip P xs ys`: the lists have the same length, and P holds of each pair. `xs ++ ys` is both lists joined, `x ∷ xs` the list with x before it.
- `a ≡ b` is a statement. `a == b` and `nat_lt a b` (a is less than b) are truth values, and `IsTrue b` is the statement that one is true.
- `pos n` is the natural number n as an integer.
"""

# Words that are read aloud in a minute.
WORDS_A_MINUTE = 130


def minutes(text):
    """How long reading a text aloud takes. A name or a number is a word; signs and the targets of links are not read."""
    return -(-len(re.findall(r"\w+", re.sub(r"\]\([^)]*\)", "]", text))) // WORDS_A_MINUTE)


def headline(modules, types, places):
    """The theorem of the compiler with its own definitions, those of their file."""
    _, law = clauses(f"{TOP}/crates/dk_laws/src/compiled.rt", "correct_law")
    own = modules["Rattle.dk_compile.specs.Correct"].order
    out = ["## The theorem", "", "If the call ends with Done, the text that `compile` leaves in OUT denotes one module. This module has the program's ports. From any contents it shows the program's pictures, and after a reset nothing changes in a clock with `en` 0. Its arrays have the fewest bits of all causal schedules.",
           "", f"`correct_law`, [{law.module.path}](../{law.module.path}):", "", "```", law.text, "```", "",
           f"`IsCompiledText` is what the clauses of `dk_main` state of OUT after Done of `compile`. The definitions of the theorem, [{own[0].module.path}](../{own[0].module.path}):"]
    for item in reversed(own):
        out += ["", *([item.sentence, ""] if item.sentence else []), "```", item.text, "```"]
    beyond = dict.fromkeys(other for item in reversed(own) for other in named(modules, types, item) if other not in own)
    unsaid = [item.name for item in [*own, *beyond] if not item.sentence]
    if unsaid:
        sys.exit(f"ladder: no sentence for {', '.join(unsaid)}")
    out += ["", "The definitions that these name, from which the first chapter goes on:", "", "| Name | What it is |", "|---|---|"]
    out += [f"| {links([item], places, None)} | {item.sentence.replace('|', chr(92) + '|')} |" for item in beyond]
    return [*out, "", f"Reading the theorem with these tables aloud takes about {minutes(chr(10).join(out))} minutes, at {WORDS_A_MINUTE} words a minute.", ""]


def index(modules, types, main, chapters, places):
    out = [HEAD, *headline(modules, types, places), "## The chapters", "", *counts(chapters, lambda number, each: f"[{number}. {each.title}](ladder/{file_of(number, each)})"), "", "What each chapter answers, and the definitions that it begins with:", ""]
    for number, (each, items) in enumerate(chapters, 1):
        roots = items[: len(each.roots)] if each.roots else items
        out.append(f"{number}. {each.sentence} It begins with {links(roots, places, None)}.")
    out += ["", "## The clauses", "", f"`dk_main`, [{main.module.path}](../{main.module.path}):", "", "```", main.text, "```", "", f"Names: {links(named(modules, types, main), places, None)}."]
    facts = next(item for _, items in chapters for item in items if item.name == "Performs")
    out += ["", f"The facts of `performs`, [{facts.module.path}](../{facts.module.path}):", "", "```", facts.text, "```", "", f"Names: {links(named(modules, types, facts), places, None)}."]
    return "\n".join(out) + "\n"


def page(modules, types, number, chapters, places):
    """The file of the chapter with this number."""
    each, items = chapters[number - 1]
    here = file_of(number, each)
    near = ["[All chapters](../LADDER.md)"]
    if number > 1:
        near.append(f"[before: {number - 1}. {chapters[number - 2][0].title}]({file_of(number - 1, chapters[number - 2][0])})")
    if number < len(chapters):
        near.append(f"[next: {number + 1}. {chapters[number][0].title}]({file_of(number + 1, chapters[number][0])})")
    out = [f"# {number}. {each.title}", "", each.sentence, "", " | ".join(near)]
    at = None
    for item in items:
        if item.module.path != at:
            at = item.module.path
            out += ["", f"## [{at}](../../{at})"]
        out += ["", f'### <a id="{places[id(item)][1]}"></a>`{item.name}`', "", *([item.sentence, ""] if item.sentence else []), "```", item.text, "```"]
        others = links(named(modules, types, item), places, here)
        notes = ([f"Names: {others}."] if others else []) + renamed(modules, types, item)
        out += ["", " ".join(notes)] if notes else []
    return "\n".join(out) + "\n"


def pages():
    """The text of each file, by its path."""
    modules, types, main, chapters = ladder()
    where = places(chapters)
    found = {INDEX: index(modules, types, main, chapters, where)}
    for number, (each, _) in enumerate(chapters, 1):
        found[os.path.join(FOLDER, file_of(number, each))] = page(modules, types, number, chapters, where)
    return found


def there():
    """The files that are in the place of the ladder."""
    return [path for path in [INDEX, *sorted(glob.glob(f"{FOLDER}/*"))] if os.path.exists(path)]


def write(found):
    os.makedirs(FOLDER, exist_ok=True)
    for path in there():
        if path not in found:
            os.remove(path)
    for path, text in found.items():
        with open(path, "w", encoding="utf-8") as file:
            file.write(text)


def differences(found):
    for path in there():
        if path not in found:
            yield f"{os.path.relpath(path, TOP)} is no chapter's"
    for path, text in found.items():
        if not os.path.exists(path):
            yield f"{os.path.relpath(path, TOP)} is missing"
        elif open(path, encoding="utf-8").read() != text:
            yield f"{os.path.relpath(path, TOP)} is not that of the sources"


def main(words):
    if words == ["--counts"]:
        print("\n".join(counts(ladder()[3], lambda number, each: f"{number}. {each.title}")))
    elif words == ["--check"]:
        found = list(differences(pages()))
        for line in found:
            print(f"ladder: {line}", file=sys.stderr)
        sys.exit(1 if found else 0)
    elif words:
        sys.exit(__doc__)
    else:
        write(pages())


if __name__ == "__main__":
    main(sys.argv[1:])
