#!/usr/bin/env python3
"""The words of the documentation: counts words that have a plainer word of the field, outside of code and quotations.
Says nothing where the pages of DONE have none of them, and else names each place and ends with status 1.
usage: python3 tests/words.py [--count]    (--count: how often each page has such words)
"""
import pathlib
import re
import sys

TOP = pathlib.Path(__file__).resolve().parent.parent

# A pattern, and the word to write in its place.
WORDS = [
    (r"stands?", "is, is in; of a theorem or a clause: holds, is proved"),
    (r"tells?|told", "reports, is reported; of a contract: specifies; of a wire: is driven by"),
    (r"wants? of memory|memory is wanting|wanting", "out of memory"),
    (r"behind", "after"),
    (r"ow(?:e|es|ed)", "what it must ensure"),
    (r"put in where", "substituted at each use"),
    (r"want(?:s|ed)?", "expects, is expected; requires; need"),
    (r"images' file", "image file"),
    (r"due(?! to)", "scheduled"),
    (r"takes? (?:the |these |no |its )?words?|words? (?:is|are) (?:not )?taken", "accepts, is accepted"),
    (r"gives?|gave", "returns"),
    (r"says?", "states"),
    (r"(?<!here )(?:is|are) no (?!longer|less|more|greater|wider|smaller|later|earlier)\w+", "is not a .."),
    (r"alone", "only, before the noun"),
    (r"undercut\w*", "minimal over all causal schedules"),
    (r"first that is passed|limit that is passed|passed first", "the first limit exceeded"),
    (r"(?:for|is|by|of|as) who|who reads|who takes it over", "a reader, a maintainer"),
    (r"so many", "n"),
]

# The pages that have none of these words. The list grows.
DONE = """
README.md
docs/README.md
docs/OTHER_TOOLS.md
CHANGELOG.md
docs/EDITORS.md
docs/HARDWARE.md
docs/LANGUAGE.md
docs/PGM.md
docs/REPORT.md
docs/VERILOG.md
docs/CIRCUIT.md
docs/DECISIONS.md
tests/README.md
examples/README.md
examples/pipelines/README.md
docs/BENCH.md
docs/ARCHITECTURE.md
docs/COMMANDS.md
docs/BUILDING.md
docs/PROMISES.md
crates/batch_code/README.md
crates/batch_guess/README.md
crates/batch_plan/README.md
crates/batch_rows/README.md
crates/batch_sim/README.md
crates/buffer_plan/README.md
crates/cycle_sim/README.md
crates/datapath/README.md
docs/GALLERY.md
docs/PIPELINES.md
docs/PROVING.md
crates/dk/README.md
crates/dk_base/README.md
crates/dk_compile/README.md
crates/dk_desk/README.md
crates/dk_endings/README.md
crates/dk_frames/README.md
crates/dk_grammar/README.md
crates/dk_inline/README.md
crates/dk_lexer/README.md
crates/dk_parser/README.md
crates/dk_plan/README.md
crates/dk_top/README.md
crates/dk_types/README.md
crates/dk_words/README.md
crates/edge_select/README.md
crates/flow_dual/README.md
crates/frame_paths/README.md
crates/latency_report/README.md
crates/library_tests/README.md
crates/made_program/README.md
crates/circuit/README.md
crates/line_buffer/README.md
crates/net_build/README.md
crates/net_names/README.md
crates/netlist/README.md
crates/pgm_codec/README.md
crates/pgm_rounds/README.md
crates/plan_check/README.md
crates/pointwise_eval/README.md
crates/pointwise_ir/README.md
crates/program_images/README.md
crates/raster_delay/README.md
crates/report_text/README.md
crates/row_stream/README.md
crates/source_names/README.md
crates/stencil_sets/README.md
crates/stimulus/README.md
crates/test_bench/README.md
crates/top_tests/README.md
crates/trace_bench/README.md
crates/value_ranges/README.md
crates/value_rows/README.md
crates/vcd_trace/README.md
crates/verilog_layout/README.md
crates/verilog_verdicts/README.md
crates/verilog_lexer/README.md
crates/verilog_parse/README.md
crates/verilog_print/README.md
crates/verilog_read/README.md
crates/verilog_text/README.md
crates/wiring/README.md
crates/worked_tests/README.md
""".split()


def pages():
    found = [*TOP.glob("docs/*.md"), TOP / "README.md", TOP / "CHANGELOG.md", *TOP.glob("crates/*/README.md"), TOP / "tests/README.md", TOP / "examples/README.md", TOP / "examples/pipelines/README.md"]
    return sorted(page for page in found if page != TOP / "docs/LADDER.md")


def prose(text):
    """The text without code and quotations, which become blanks; its lines stay where they are."""
    blank = lambda match: re.sub(r"[^\n]", " ", match.group())
    for pattern in (r"^```.*?^```", r"^(?: {4}|\t).*$", r"``.+?``", r"`[^`\n]+`", r"\"[^\"\n]+\"", r"«[^»\n]*»", r"(?<=\]\()[^)\s]+"):
        text = re.sub(pattern, blank, text, flags=re.M | re.S if "```" in pattern else re.M)
    return text


def places(page):
    text = prose(page.read_text(encoding="utf-8"))
    for pattern, better in WORDS:
        for match in re.finditer(rf"\b(?:{pattern})\b", text, re.I):
            yield text.count("\n", 0, match.start()) + 1, match.group(), better


def main(arguments):
    counted = {page.relative_to(TOP).as_posix(): sorted(places(page)) for page in pages()}
    if arguments == ["--count"]:
        for name, found in counted.items():
            print(f"{len(found):5} {name}{' (done)' if name in DONE else ''}")
    elif arguments:
        sys.exit(__doc__)
    wrong = [(name, *place) for name in DONE for place in counted.get(name, [(0, "no such page", "its name")])]
    for name, line, word, better in wrong:
        print(f"words: {name}:{line}: {word}: write: {better}", file=sys.stderr)
    return 1 if wrong else 0


if __name__ == "__main__":
    sys.exit(main(sys.argv[1:]))
