#!/usr/bin/env python3
"""The rules of AXI4-Stream video, proved of blocks of tools/axis by tools that were not written here. Yosys reads a block together with the
rules of tests/formal/streams.sv and writes them as an AIGER circuit. `pdr` of yosys-abc proves the rules for any number of clocks.

There are four blocks with frames of 3 by 2 words: one input and one output, two outputs of different latencies, with a consumer for each or one
that joins them, two inputs, and words of two pixels with different latencies. So that the proof is not of nothing, some cases must be reachable.
Wrong wrappers must be refuted.

Two rules are about one clock: the outputs follow no input, and no tready of an output reaches `en` or a tready of an input. Two copies of a block
with the same registers and different inputs must drive the same values, in any state, also one that is not reachable; the SAT solver of Yosys
proves it. It is a proof of values, since AXI4-Stream does not forbid a path that no value passes. The timing does: so no path may be there either.

usage: tests/axis_formal.py [-v] [NAME..]    -v: prints each name with its answer and its time
    NAME: a part of the name of a proof, of a case or of a wrong wrapper; without it all are tried
It needs Yosys with yosys-abc. The last line is `N passed, M failed`.
"""
import concurrent.futures
import os
import re
import shutil
import subprocess
import sys
import tempfile
import time

TESTS = os.path.dirname(os.path.realpath(__file__))
RULES = f"{TESTS}/formal/streams.sv"
# The blocks with their options.
BLOCKS = {"one": ["--age", "2"], "outputs": ["--age", "1"], "inputs": ["--age", "1"], "wide": ["--age", "1", "--pixels", "2"]}
# The seconds that a proof, or the search for a counterexample, may take.
LONGEST = 1800

# A name, the block, what streams.sv is compiled with, and the parts of the rules that are proved one by one.
PROOFS = [
    ("one input and one output", "one", [], [0, 1, 3]),
    ("two outputs", "outputs", ["OUTPUTS"], [0, 1, 2, 3]),
    ("two outputs and a joining consumer", "outputs", ["OUTPUTS", "JOINED"], [0, 1, 2, 3]),
    ("two inputs", "inputs", ["INPUTS"], [0, 1, 3]),
    ("the first pixel of two in a word", "wide", ["WIDE", "LANE=0"], [0, 1, 3]),
    ("the second pixel of two in a word", "wide", ["WIDE", "LANE=1"], [1]),
]
PARTS = ["the inputs", "the first output", "the second output", "no tvalid waits for a tready"]
CASES = ["two frames come out without a cut", "a cut frame and the next one come out", "a block comes to rest after a cut", "a source waits after a cut",
         "words wait for consumers that are not ready"]
# The rules about one clock: what the block drives, and the inputs that it must not follow.
REGISTERS, UNREACHED = "the outputs follow no input", "no tready reaches an input or en"
ONE_CLOCK = {
    REGISTERS: (["o:m*_axis_*"], r"aresetn|s\d*_axis_\w+|m\d*_axis_tready"),
    UNREACHED: (["o:s*_axis_tready", "o:core.en"], r"m\d*_axis_tready"),
}

# A name, the proof that it must break, the file, and the change.
WRONG = [
    ("tlast one column early", 0, "axis", "{user_2, last_2,", "{user_2, column_2 == 2'd1,"),
    ("tuser at each line", 0, "axis", "column_2 == 2'd0 & line_2 == 1'd0", "column_2 == 2'd0"),
    ("a word that changes while it waits", 0, "pair", "if (take) q <=", "q <="),
    ("a word lost at a full FIFO", 0, "pair", "assign room = ~full;", "assign room = 1'b1;"),
    ("a flush one clock short", 0, "axis", "room & count == 3'd1", "room & count == 3'd0"),
    ("a restart without a flush", 0, "axis", "state <= FLUSH", "state <= RESET"),
    ("a cut that is not seen", 0, "axis", "run & ~first & some_begin", "1'b0"),
    ("a cut frame filled one pixel short", 0, "axis", "ends = step & count == 3'd5", "ends = step & count == (fill ? 3'd4 : 3'd5)"),
    ("a cut frame filled with the next one", 0, "axis", " & {1{~fill}}", ""),
    ("the frame that cuts is shown", 0, "axis", "skip0 <= 1'b1", "skip0 <= 1'b0"),
    ("cut frames shown unequally", 1, "axis", "put0 = valid0 &", "put0 = valid0 & ~fill &"),
    ("a FIFO that repeats a word", 1, "fifo", "if (take) head <= next_head;", "if (take & ~full) head <= next_head;"),
    ("a FIFO of one word before a joining consumer", 2, "fifo", "assign room = ~full;", "assign room = ~(some | valid);"),
    ("inputs that are not in step", 3, "axis", "all_go_on = go_on0 & go_on1", "all_go_on = go_on0"),
    ("only one input drops the frame that cuts", 3, "axis", "if (cut) skip1", "if (cut & 1'b0) skip1"),
    ("a pixel that does not wait for its word", 4, "axis", "dout1, early0", "dout1, dout0"),
    ("the other pixel of a word", 5, "axis", "dout1, early0", "early0, early0"),
    ("one pixel of a cut frame filled with the next one", 5, "axis", "s_axis_tdata[8:8] & {1{~fill}}", "s_axis_tdata[8:8]"),
]
# Those that only the rules of the inputs refute, after many clocks of waiting: a circuit of these rules alone is searched faster.
WAITING = ["a cut that is not seen"]
# Wrong wrappers that all rules pass but those that are named: a name, the block, the rules, the file, and the changes.
HIDDEN = [
    ("a tvalid that waits for tready in the same clock", "one", [REGISTERS, PARTS[3]], "pair",
     [("output reg valid", "output wire valid"), ("  reg full;", "  reg full, held;\n  assign valid = held & ready;"), ("ready | ~valid", "ready | ~held"),
      ("valid <= 1'b0", "held <= 1'b0"), ("if (take) valid", "if (take) held")]),
    ("a tvalid that waits until tready was 1", "one", [PARTS[3]], "pair",
     [("output reg valid", "output wire valid"),
      ("  reg full;", "  reg full, held, seen;\n  assign valid = held & seen;\n  always @(posedge clk) seen <= resetn & (ready | valid);"),
      ("ready | ~valid", "ready & seen | ~held"), ("valid <= 1'b0", "held <= 1'b0"), ("if (take) valid", "if (take) held")]),
    ("a full FIFO that takes a word if its consumer does", "one", [UNREACHED], "pair",
     [("room = ~full", "room = ~full | ready"), ("full <= ~take & (full | put)", "full <= ~take & (full | put) | full & put")]),
    ("a flush that stops with the consumer", "one", [UNREACHED], "axis",
     [("flushed = flush & room", "flushed = flush & room & (m_axis_tready | ~m_axis_tvalid)"), ("if (room & count", "if (flushed & count")]),
]


def texts_of(work, block):
    """The Verilog of a block by the parts of its files' names. Each FIFO has the rule that nothing is put into it without room."""
    folder = f"{work}/{block}"
    subprocess.run([f"{TESTS}/../tools/axis", f"{TESTS}/formal/{block}.dk", folder, *BLOCKS[block]], check=True, stdout=subprocess.DEVNULL)
    texts = {}
    for file in os.listdir(folder):
        if file.endswith(".v"):
            part = file[len(block) + 1:-2]
            with open(f"{folder}/{file}") as opened:
                texts[part] = opened.read()
            if part in ("fifo", "pair"):
                texts[part] = texts[part].replace("endmodule", "  always @* if (resetn) assert (~put | room);\nendmodule")
    return texts


def written(folder, texts):
    """The files of a block in a new folder, as words of a command."""
    os.mkdir(folder)
    for part, text in texts.items():
        with open(f"{folder}/{part}.v", "w") as file:
            file.write(text)
    return " ".join(f"{folder}/{part}.v" for part in texts)


def yosys(steps):
    """What Yosys prints."""
    said = subprocess.run(["yosys", "-Q", "-p", "; ".join(steps)], stdout=subprocess.PIPE, stderr=subprocess.STDOUT, text=True)
    if said.returncode:
        raise RuntimeError(said.stdout[-500:])
    return said.stdout


def circuit(folder, texts, defined):
    """The block and its rules as an AIGER circuit with one output, which is 1 where a rule is broken, and constraints."""
    files = written(folder, texts)
    defines = " ".join(f"-D{word}" for word in defined)
    steps = [f"read_verilog -formal -sv {defines} {RULES}", f"read_verilog -formal -sv {files}", "hierarchy -check -top streams", "proc", "flatten", "opt -full",
             "memory_nordff", "memory_map", "opt -full", "async2sync", "opt -full", "dffunmap", "setundef -anyseq", "opt_clean", "simplemap", "techmap", "opt -fast",
             "dffunmap", "abc -g AND -fast", "opt_clean", f"write_aiger -I -B -zinit -no-startoffset {folder}/rules.aig"]
    yosys(steps)
    return f"{folder}/rules.aig"


def in_one_clock(folder, texts, rule):
    """Whether a rule about one clock holds: proved or refuted, or `a path` where no value passes one. Each register becomes an input of two copies
    of the block, `gold` and `gate`, and the inputs of the rule are other ones in `gate`."""
    driven, pattern = ONE_CLOCK[rule]
    module = re.search(r"^module (\w+_axis) \((.*?)\);", texts["axis"], re.M | re.S)
    inputs = [(name, int(high or 0) + 1) for high, name in re.findall(r"input wire (?:\[(\d+):0\] )?(\w+)", module.group(2)) if re.fullmatch(pattern, name)]
    steps = [f"read_verilog -sv {written(folder, texts)}", f"hierarchy -check -top {module.group(1)}", "proc", "flatten", "opt -full", "memory_nordff", "memory_map",
             "opt -full", "dffunmap", "chformal -remove", "expose w:core.en", "expose -evert-dff", "delete -output o:*.d o:*.c", "opt_clean"]
    steps += [f"select -assert-min 1 {output}" for output in driven]
    unions = lambda selections: " ".join(selections) + " %u" * (len(selections) - 1)
    steps += [f"select -set driven {unions(driven)}", "delete -output o:* @driven %d",
              f"tee -o {folder}/path select -list {unions(['i:' + name for name, _ in inputs])} %coe* @driven %i", f"rename {module.group(1)} gold", "copy gold gate"]
    for name, width in inputs:
        steps += ["cd gate", f"rename {name} other_{name}", "cd ..", f"add -input {name} {width} gate", f"add -input other_{name} {width} gold"]
    said = yosys([*steps, "miter -equiv -make_assert -flatten gold gate both", "hierarchy -top both", "sat -prove-asserts both"])
    if "model found: FAIL" in said:
        return "refuted"
    if "no model found: SUCCESS" not in said:
        return f"no answer: {said[-300:]}"
    with open(f"{folder}/path") as file:
        return "a path" if file.read().strip() else "proved"


def answer(path, engine):
    """proved or refuted, or what yosys-abc says."""
    script = f"read_aiger {path}; fold; strash; dc2; scorr; {engine} -T {LONGEST}"
    said = subprocess.run(["yosys-abc", "-c", script], stdout=subprocess.PIPE, stderr=subprocess.STDOUT, text=True).stdout
    if "Property proved" in said:
        return "proved"
    if re.search(r"was asserted in frame \d+", said):
        return "refuted"
    return f"no answer: {said[-300:]}"


def edited(texts, block, part, changes):
    """The texts of a block with changes of one file."""
    text = texts[block][part]
    for old, new in changes:
        if old not in text:
            raise RuntimeError(f"{block}_{part}.v has no '{old}'")
        text = text.replace(old, new, 1)
    return {**texts[block], part: text}


def proof(folder, texts, defined, engine):
    """A proof of the rules of streams.sv."""
    return answer(circuit(folder, texts, defined), engine)


def hidden(texts):
    """The tasks of the wrong wrappers that most rules pass: the others must refute them."""
    for name, block, refuting, part, changes in HIDDEN:
        wrong = edited(texts, block, part, changes)
        _, _, defined, parts = next(line for line in PROOFS if line[1] == block)
        for number in parts:
            refutes = PARTS[number] in refuting
            yield f"{name}: {PARTS[number]}", "refuted" if refutes else "proved", proof, wrong, [*defined, f"PART={number}"], "bmc3 -F 100" if refutes else "pdr"
        for rule in ONE_CLOCK:
            yield f"{name}: {rule}", "refuted" if rule in refuting else "proved", in_one_clock, wrong, rule


def tasks(texts):
    """A name, the answer that is required, the function that answers, and its arguments after the folder."""
    for name, block, defined, parts in PROOFS:
        for number in parts:
            yield f"{name}: {PARTS[number]}", "proved", proof, texts[block], [*defined, f"PART={number}"], "pdr"
        for number, case in enumerate(CASES, 1):
            yield f"{name}: {case}", "refuted", proof, texts[block], [*defined, f"COVER={number}"], "bmc3 -F 100"
    for block in BLOCKS:
        for rule in ONE_CLOCK:
            yield f"{block}: {rule}", "proved", in_one_clock, texts[block], rule
    for name, number, part, old, new in WRONG:
        _, block, defined, _ = PROOFS[number]
        yield name, "refuted", proof, edited(texts, block, part, [(old, new)]), [*defined, *(["PART=0"] if name in WAITING else [])], "bmc3 -F 100"
    yield from hidden(texts)


def tried(work, number, task):
    """The line of a task, and whether it passed."""
    name, required, function, *arguments = task
    begin = time.time()
    try:
        got = function(f"{work}/{number}", *arguments)
    except RuntimeError as fault:
        got = str(fault)
    return f"{name}: {got}, {time.time() - begin:.0f} s", got == required


def main():
    names = sys.argv[1:]
    loud = names[:1] == ["-v"]
    names = names[loud:]
    for tool in ("yosys", "yosys-abc"):
        if not shutil.which(tool):
            sys.exit(f"axis_formal: {tool} is not installed")
    passed = failed = 0
    with tempfile.TemporaryDirectory() as work:
        texts = {block: texts_of(work, block) for block in BLOCKS}
        chosen = [task for task in tasks(texts) if not names or any(name in task[0] for name in names)]
        if not chosen:
            sys.exit(f"axis_formal: nothing has a name with {' or '.join(names)}")
        with concurrent.futures.ThreadPoolExecutor(2) as pool:
            for line, good in pool.map(lambda item: tried(work, *item), enumerate(chosen)):
                passed, failed = passed + good, failed + (not good)
                if not good:
                    print(f"axis_formal: {line}", file=sys.stderr, flush=True)
                elif loud:
                    print(line, flush=True)
    print(f"{passed} passed, {failed} failed")
    sys.exit(failed > 0)


main()
