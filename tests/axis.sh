#!/bin/sh
# AXI4-Stream blocks: tools/axis of every example as it is, of some in frames of 40 by 12 with `--block 2` or `--block 32`, and of
# programs with outputs of different latencies, whose tests have a consumer that joins the outputs. Some have several pixels in a word.
# `make test` of each runs its cases under the simulators that are installed; most cases have random stalls.
# The core files of some blocks are run as FuseSoC would (cores.py), if PyYAML is installed.
# Verilator's lint must be clean but for the forms that docs/HARDWARE.md lists for the module of `compile`.
# A wrapper with one change must be refused by the tests. What the user may do wrong must end with one line, and without a folder.
# With names it tries only these programs, as they are and with `--block 2`, and no changes. With `--blocks` it passes over the examples as they are.
# It says how many blocks passed. It takes 15 to 25 minutes for all examples with both simulators, five with `--blocks`.
# usage: tests/axis.sh [--blocks | PROGRAM.dk..]
top=$(CDPATH='' cd -- "$(dirname -- "$0")/.." && pwd)
work=$(mktemp -d) || exit 2
trap 'rm -rf "$work"' EXIT
trap 'exit 130' INT TERM HUP
failed=0
passed=0
mode_of_null=$(find -L /dev/null -printf %m)

wrong() {
    echo "axis: $*" >&2
    failed=$((failed + 1))
}

has() {
    command -v "$1" >/dev/null
}

# tried PROGRAM OPTION..: a block and its tests; the block stays until the next one
tried() {
    rm -rf "$work/block"
    program=$1
    shift
    if said=$("$top/tools/axis" "$program" "$work/block" "$@" 2>&1) && said=$(make -s -C "$work/block" test 2>&1); then
        passed=$((passed + 1))
    else
        wrong "$program $*: $said"
    fi
}

# holds WORD..: a command that ends with 0; what it prints is shown if it does not
holds() {
    if said=$("$@" 2>&1); then
        passed=$((passed + 1))
    else
        wrong "$*: $said"
    fi
}

# core: the core files of this block, in each simulator that is installed and with the target `lint`
core() {
    python3 -c 'import yaml' 2>/dev/null || { echo 'axis: PyYAML is not installed, and the core files were passed over'; return; }
    for tool in icarus verilator; do
        has "$(echo $tool | sed 's/icarus/iverilog/')" || continue
        holds python3 "$top/tests/cores.py" "$work"/block/*_bench.core $tool
    done
    for file in "$work"/block/*.core; do
        case $file in *_bench.core) continue ;; esac
        ! has verilator || holds python3 "$top/tests/cores.py" "$file" lint
    done
}

# lints PROGRAM OPTION..: Icarus Verilog has no warning of the block, and Verilator none but those that HARDWARE lists, of the module of `compile`;
# each file of the wrapper allows no implicit net, and leaves the default as it was
lints() {
    rm -rf "$work/block"
    program=$1
    shift
    said=$("$top/tools/axis" "$program" "$work/block" "$@" 2>&1) || { wrong "$program $*: $said"; return; }
    set -- "$program" "$@"
    if has iverilog; then
        said=$(iverilog -g2005 -Wall -t null "$work"/block/*.v 2>&1)
        [ -z "$said" ] || wrong "iverilog on $*: $said"
    fi
    if has verilator; then
        said=$(CDPATH='' cd -- "$work/block" && verilator --lint-only -Wall --top-module "$(basename ./*_axis.v .v)" ./*.v 2>&1 | grep '^%Warning\|^%Error: [^E]' |
            grep -v '^%Warning-UNSIGNED: [a-z0-9_]*_core\.v:.*Comparison is constant due to unsigned arithmetic$' |
            grep -v "^%Warning-UNUSEDSIGNAL: [a-z0-9_]*_core\.v:.*Bits of signal are not used: 'n[0-9]*'" |
            grep -v "^%Warning-UNUSEDSIGNAL: [a-z0-9_]*_core\.v:.*Signal is not used: '\(clk\|din[1-7]*\)'$")
        [ -z "$said" ] || wrong "verilator on $*: $said"
    fi
    for file in "$work"/block/*.v; do
        case $file in *_core.v) continue ;; esac
        # shellcheck disable=SC2016 # the backquote is Verilog's
        [ "$(sed -n '1p;$p' "$file" | tr '\n' ' ')" = '`default_nettype none `default_nettype wire ' ] || wrong "$(basename "$file") of $* may have implicit nets"
    done
    passed=$((passed + 1))
}

# changed PROGRAM FILE WHAT OLD NEW [OLD NEW].. [-- OPTION..]: the tests of the block of this program must refuse these changes of a file
changed() {
    rm -rf "$work/block"
    if ! python3 - "$top/tools/axis" "$work" "$@" <<'PYTHON'
import subprocess
import sys
axis, work, program, file, _, *words = sys.argv[1:]
end = words.index("--") if "--" in words else len(words)
subprocess.run([axis, f"{work}/{program}.dk", f"{work}/block", "--block", "2", *words[end + 1:]], check=True, stdout=subprocess.DEVNULL)
text = open(f"{work}/block/{file}").read()
for old, new in zip(words[:end:2], words[1:end:2]):
    if old not in text:
        sys.exit(f"axis: {file} has no '{old}'")
    text = text.replace(old, new, 1)
open(f"{work}/block/{file}", "w").write(text)
PYTHON
    then
        wrong "$3 was not tried"
    elif make -s -C "$work/block" test >/dev/null 2>&1; then
        wrong "$3 is not noticed"
    else
        passed=$((passed + 1))
    fi
}

# meets WORDS: three blocks, of which the first has FIFOs of WORDS more words, whose streams divide and meet again, pass the tests of one
# block that does the same
meets() {
    rm -rf "$work/block" "$work/system"
    mkdir "$work/system"
    "$top/tools/axis" "$work/meet.dk" "$work/block" >/dev/null
    "$top/tools/axis" "$work/early.dk" "$work/system/early" --fifo "$1" >/dev/null
    "$top/tools/axis" "$work/blur.dk" "$work/system/blur" >/dev/null
    "$top/tools/axis" "$work/difference.dk" "$work/system/difference" >/dev/null
    rm "$work"/block/*.v
    cp "$top/tests/axis_meet.v" "$work"/system/*/*.v "$work/block"
    make -s -C "$work/block" test SOURCES="$(CDPATH='' cd -- "$work/block" && echo ./*.v) test/bench.v" >"$work/said" 2>&1
}

# refused WHAT STATUS LINE WORD..: tools/axis prints this line, the last one, ends with this status, and leaves no folder
refused() {
    what=$1 status=$2 line=$3
    shift 3
    said=$("$top/tools/axis" "$@" 2>&1 </dev/null)
    is=$?
    last=$(printf '%s\n' "$said" | tail -n 1)
    if [ $is != "$status" ] || [ "$last" != "$line" ]; then
        wrong "$what: status $is, and not $status: $said"
    elif [ -e "$work/none" ]; then
        wrong "$what: a folder was made"
        rm -rf "$work/none"
    else
        passed=$((passed + 1))
    fi
}

# accepted WHAT FILE WORD..: tools/axis makes this file; the folder stays until the next one
accepted() {
    what=$1 file=$2
    shift 2
    if said=$("$@" 2>&1) && [ -f "$file" ]; then
        passed=$((passed + 1))
    else
        wrong "$what: $said"
    fi
}

if [ $# -gt 0 ] && [ "$1" != --blocks ]; then
    for program; do
        tried "$program"
        tried "$program" --block 2
    done
    echo "$passed passed, $failed failed"
    [ $failed = 0 ]
    exit
fi

# An early output of latency 0 and a late one of 8; one bit at latency 1 and three at 18, of two inputs; one input of 11 bits at latency 0.
cat >"$work/early.dk" <<'DK'
size 8 4
input a : u8
let f = im(x,y) a(x,y) end
let g = im(x,y) ((a(x,y-1) edge clamp + a(x,y) + a(x,y+1) edge clamp) / 4) as u8 end
output f
output g
DK
cat >"$work/pairs.dk" <<'DK'
size 9 5
input a : u8
input b : u3
let f = im(x,y) a(x,y) > a(x+1,y) end
let g = im(x,y) b(x,y+2) ^ b(x,y) end
let h = im(x,y) (a(x,y) + b(x,y)) end
output g
output f
output h
output a
DK
cat >"$work/point.dk" <<'DK'
size 5 3
input a : u11
let f = im(x,y) (a(x,y) >= 0) & (a(x,y) > 700) end
output f
DK
printf 'size 1 1\ninput a : u8\noutput a\n' >"$work/dot.dk"
# With four pixels in a word a line is one word: the first pixel of the first output comes three clocks after the others of its word.
cat >"$work/waits.dk" <<'DK'
size 4 6
input a : u11
input b : u3
let f = im(x,y) (a(x+3,y+3) + b(x,y)) as u9 end
let g = im(x,y) b(x+2,y) edge clamp == a(x-1,y) end
output f
output g
DK
# early, then blur of latency 9 after its second output, then the difference from its first one
blur='im(x,y) ((g(x-1,y-1) + g(x+1,y+1)) / 2) as u8 end'
difference='im(x,y) abs(b(x,y) - f(x,y)) as u8 end'
printf 'size 8 4\ninput g : u8\nlet b = %s\noutput b\n' "$blur" >"$work/blur.dk"
printf 'size 8 4\ninput b : u8\ninput f : u8\nlet d = %s\noutput d\n' "$difference" >"$work/difference.dk"
printf '%s\nlet b = %s\nlet d = %s\noutput d\n' "$(grep -v ^output "$work/early.dk")" "$blur" "$difference" >"$work/meet.dk"
sed 's/^size .*/size 40 12/' "$top/examples/programs/sobel.dk" >"$work/sobel.dk"

[ $# -gt 0 ] || for program in "$top"/examples/programs/*.dk; do
    tried "$program"
done
while read -r name words; do
    sed 's/^size .*/size 40 12/' "$top/examples/programs/$name.dk" >"$work/$name.dk"
    tried "$work/$name.dk" --block "$words"
    case $name in two_cameras | gaussian3) core ;; esac
done <<'BLOCKS'
two_cameras 2
harris 2
harris 32
gaussian3 32
stereo 2
local_threshold 32
BLOCKS
tried "$work/early.dk"
tried "$work/early.dk" --block 2 --fifo 2
tried "$work/pairs.dk"
tried "$work/pairs.dk" --age 1 --fifo 5
tried "$work/point.dk"
tried "$work/dot.dk"
# the test bench of a frame of more than 8,192 pixels has a smaller copy, also if a comment is inside `size`
sed 's/^size .*/size -- 8 4\n640--size 2 2\n  480/' "$top/examples/programs/sobel.dk" >"$work/large.dk"
tried "$work/large.dk" --block 32
core
# several pixels in a word; of the copy for tests of the large frame, a line has whole words too
tried "$work/sobel.dk" --pixels 2
tried "$work/sobel.dk" --pixels 4 --age 1 --block 2
tried "$work/sobel.dk" --pixels 8 --fifo 5
tried "$work/two_cameras.dk" --pixels 2
tried "$work/two_cameras.dk" --pixels 4 --age 1
tried "$work/waits.dk" --pixels 4
tried "$work/waits.dk" --pixels 2 --age 1
tried "$work/large.dk" --pixels 5 --block 32
core

# WORDS as docs/HARDWARE.md has it: the latency and 4; with fewer words than the latency the system must hang
if meets 13; then
    passed=$((passed + 1))
else
    wrong "streams that meet again: $(cat "$work/said")"
fi
if meets 8; then
    wrong 'streams that meet again: a FIFO too short is not noticed'
else
    passed=$((passed + 1))
fi

for name in point dot sobel early pairs; do
    lints "$work/$name.dk"
    lints "$work/$name.dk" --age 1
    lints "$work/$name.dk" --fifo 3
    lints "$work/$name.dk" --fifo 100
done

for name in sobel waits; do
    lints "$work/$name.dk" --pixels 2
    lints "$work/$name.dk" --pixels 4 --age 1
done

# a code of `state` that is no state resets the core and the count; a block of latency 0 has one
cat >"$work/illegal.v" <<'V'
module illegal;
  reg clk = 0, resetn = 0;
  wire ready, valid, user, last;
  wire [7:0] data;
  point_axis block(.aclk(clk), .aresetn(resetn), .s_axis_tdata(16'd0), .s_axis_tvalid(1'b1), .s_axis_tready(ready), .s_axis_tuser(1'b1), .s_axis_tlast(1'b0),
    .m_axis_tdata(data), .m_axis_tvalid(valid), .m_axis_tready(1'b1), .m_axis_tuser(user), .m_axis_tlast(last));
  always #5 clk = ~clk;
  initial begin
    repeat (2) @(negedge clk);
    resetn = 1;
    repeat (5) @(negedge clk);
    if (block.count < 2) $display("FAILED: no pixel was taken");
    block.state = 2'd3;
    #1 if (block.core.rst !== 1'b1 || ready !== 1'b0) $display("FAILED: the core is not reset");
    @(negedge clk) if (block.state !== 2'd1 || block.core.rst !== 1'b0 || block.count !== 0) $display("FAILED: the block does not run again");
    $display("ended");
    $finish;
  end
endmodule
V
if has iverilog; then
    rm -rf "$work/block"
    "$top/tools/axis" "$work/point.dk" "$work/block" >/dev/null
    said=$(iverilog -g2005 -o "$work/illegal.vvp" "$work/illegal.v" "$work"/block/*.v 2>&1 && vvp -n "$work/illegal.vvp" 2>&1)
    if [ "$said" = ended ]; then
        passed=$((passed + 1))
    else
        wrong "a code that is no state: $said"
    fi
fi

changed sobel sobel_axis.v 'a pixel that is taken without room' 'run & room &' 'run &'
changed sobel sobel_axis.v 'a flush that ends a clock early' "FLUSH: if (room & count == 9'd40)" "FLUSH: if (room & count == 9'd39)"
changed sobel sobel_axis.v 'a cut frame that goes on' '~first & some_begin' "1'b0"
changed sobel sobel_axis.v 'a cut frame that is filled one pixel short' "ends = step & count == 9'd479" "ends = step & count == (fill ? 9'd478 : 9'd479)"
changed sobel sobel_axis.v 'a cut frame that is filled up with other pixels than 0' '& {8{~fill}}' ''
changed sobel sobel_axis.v 'a frame that cuts another and is not dropped' "skip0 <= 1'b1" "skip0 <= 1'b0"
changed sobel sobel_axis.v 'a count of pixels that no restart resets' 'reset | ends' 'ends'
changed sobel sobel_pair.v 'an output that changes while it waits' 'if (take) q' 'q'
changed early early_axis.v 'a consumer that joins the outputs waits for ever' ".LAST(4'd8)" ".LAST(4'd6)"
changed early early_axis.v 'an early output that shows a pixel too many in a flush' 'valid0 & ~flush' 'valid0'
changed early early_fifo.v 'a word that is put into a full FIFO' 'assign room = ~full;' "assign room = 1'b1;"
changed sobel sobel_axis.v 'pixels of a word at the wrong places' 'dout1, early0' 'early0, dout1' -- --pixels 2
changed sobel sobel_axis.v 'a pixel that does not wait for its word' 'dout1, early0' 'dout1, dout0' -- --pixels 2
changed waits waits_axis.v 'a pixel that waits a clock less than its word' 'early1[26:18]' 'early1[17:9]' -- --pixels 4
changed sobel sobel_axis.v 'one pixel of a cut frame that is filled up with another pixel than 0' 's_axis_tdata[15:8] & {8{~fill}}' 's_axis_tdata[15:8]' -- --pixels 2
# A tvalid may not wait for tready, in the same clock or for longer, and no tready of an output may reach a tready of an input.
changed sobel sobel_pair.v 'a tvalid that waits for tready in the same clock' 'output reg valid' 'output wire valid' \
    '  reg full;' '  reg full, held; assign valid = held & ready;' 'ready | ~valid' 'ready | ~held' "valid <= 1'b0" "held <= 1'b0" 'if (take) valid' 'if (take) held'
changed sobel sobel_pair.v 'a tvalid that waits until tready was 1' 'output reg valid' 'output wire valid' \
    '  reg full;' '  reg full, held, seen; assign valid = held & seen; always @(posedge clk) seen <= resetn & (ready | valid);' \
    'ready | ~valid' 'ready & seen | ~held' "valid <= 1'b0" "held <= 1'b0" 'if (take) valid' 'if (take) held'
changed early early_fifo.v 'a tvalid of a longer FIFO that waits until tready was 1' 'output reg valid' 'output wire valid' \
    '  reg some, full;' '  reg held, seen; assign valid = held & seen; always @(posedge clk) seen <= resetn & (ready | valid);  reg some, full;' \
    'ready | ~valid' 'ready & seen | ~held' "valid <= 1'b0" "held <= 1'b0" 'if (ready | ~valid) valid' 'if (ready & seen | ~held) held'
changed sobel sobel_pair.v 'a full FIFO that takes a word if its consumer does' 'room = ~full' 'room = ~full | ready' \
    'full <= ~take & (full | put)' 'full <= ~take & (full | put) | full & put'

none=$work/none
printf 'size 1 1\ninput a : u8\nlet f = im(x,y) b(x,y) end\noutput f\n' >"$work/unknown.dk"
cp "$work/early.dk" "$work/müller.dk"
cp "$work/early.dk" "$work/3x3.dk"
refused 'a faulty program' 3 'program 38-39: UnknownImage' "$work/unknown.dk" "$none"
refused 'a program that is missing' 7 'cannot read' "$work/missing.dk" "$none"
refused 'a folder that is a file' 1 "axis: $work/early.dk: Not a directory" "$work/pairs.dk" "$work/early.dk"
refused 'a folder below a file' 1 "axis: $work/early.dk/block: Not a directory" "$work/pairs.dk" "$work/early.dk/block"
refused 'a folder where none can be made' 1 'axis: /proc/block: No such file or directory' "$work/pairs.dk" /proc/block
refused 'a name that begins with a digit' 1 "axis: '3x3' is not a name of Verilog: give one with --name, of ASCII letters, digits and _, which does not begin with a digit" \
    "$work/3x3.dk" "$none"
refused 'a name of other letters' 1 "axis: 'müller' is not a name of Verilog: give one with --name, of ASCII letters, digits and _, which does not begin with a digit" \
    "$work/early.dk" "$none" --name müller
refused 'a FIFO of one word' 2 'tools/axis: error: argument --fifo: 1 is not a number from 2 to 16,777,216' "$work/early.dk" "$none" --fifo 1
refused 'a FIFO of more words than a frame has pixels' 2 'tools/axis: error: argument --fifo: 16777217 is not a number from 2 to 16,777,216' "$work/early.dk" "$none" --fifo 16777217
refused 'words that do not fill a line' 11 'widen: Width 40' "$work/sobel.dk" "$none" --pixels 3
refused 'more pixels in a word than there are ports' 11 'widen: Inputs 16' "$work/two_cameras.dk" "$none" --pixels 8
refused 'a word of nine pixels' 2 'tools/axis: error: argument --pixels: 9 is not a number from 1 to 8' "$work/sobel.dk" "$none" --pixels 9
refused 'an age that no circuit has' 2 'tools/axis: error: argument --age: 65 is not a number from 0 to 64' "$work/early.dk" "$none" --age 65
rm -rf "$work/block"
accepted 'a name with a letter outside ASCII' "$work/block/m_ller_axis.v" "$top/tools/axis" "$work/müller.dk" "$work/block"
refused 'a second block in one folder' 1 "axis: $work/block holds the block m_ller; each block needs a folder of its own" "$work/early.dk" "$work/block"
accepted 'the same block again' "$work/block/m_ller_pair.v" "$top/tools/axis" "$work/müller.dk" "$work/block" --fifo 2
refused 'a folder with other files' 1 "axis: $work has other files; a block needs a folder of its own" "$work/early.dk" "$work"
# the copy for tests keeps the three lines: with more of them its reads would be others
printf 'size 4096 3\ninput a : u8\nlet f = im(x,y) a(x,y+2) end\noutput f\n' >"$work/thin.dk"
rm -rf "$work/block"
accepted 'a program of three long lines' "$work/block/test/small.v" "$top/tools/axis" "$work/thin.dk" "$work/block"
grep -q 'frames of 64 by 3,' "$work/block/test/small.v" || wrong 'the copy of a program of three long lines has more lines'
rm -rf "$work/block"
ln -s "$top/tools/axis" "$work/link"
accepted 'a call by a symbolic link' "$work/block/early_axis.v" "$work/link" "$work/early.dk" "$work/block"
for option in --age --block --pixels --name --fifo PROG OUT_DIR; do
    "$top/tools/axis" --help >"$work/said"
    grep -q "^  $option.*[a-z]" "$work/said" || wrong "--help does not explain $option"
done
# 8 words by which the early output leads and 2, and 2 of the late one, of 8 bits, tuser and tlast; 16 words of 8 bits in line buffers
"$top/tools/axis" "$work/early.dk" "$work/block" >"$work/said"
grep -q '128 bits of line buffers (the plan), 120 bits of FIFOs' "$work/said" || wrong 'the bits of the FIFOs are not printed'
cp -R "$work/block" "$work/without"
"$top/tools/axis" "$work/early.dk" "$work/block" --pixels 1 >/dev/null
diff -r "$work/without" "$work/block" >/dev/null || wrong 'one pixel in a word is not the block without --pixels'
# words of two pixels: 4 by which the early output leads and 2, and 2 of the late one, of 16 bits, tuser and tlast
"$top/tools/axis" "$work/early.dk" "$work/block" --pixels 2 >"$work/said"
grep -q '2 pixels in a word; 128 bits of line buffers (the plan), 144 bits of FIFOs' "$work/said" || wrong "the bits of the FIFOs of two pixels are not printed: $(cat "$work/said")"
# the name of a block may have the words that stand for texts in the files
rm -rf "$work/block"
accepted 'a name with words of the files' "$work/block/NAME_TEXTS_FOLDER_WHOLE_axis.v" "$top/tools/axis" "$work/early.dk" "$work/block" --name NAME_TEXTS_FOLDER_WHOLE
holds make -s -C "$work/block" test
grep -q 'files: \[NAME_TEXTS_FOLDER_WHOLE_core.v, ' "$work"/block/NAME_TEXTS_FOLDER_WHOLE.core || wrong 'a name with words of the files is changed in the core file'
# of a large frame Icarus Verilog tries a small copy, so that the tests end within a minute, and Verilator the block itself
rm -rf "$work/block"
accepted 'the block of a large program' "$work/block/test/icarus/small.v" "$top/tools/axis" "$top/examples/pipelines/isp.dk" "$work/block"
grep -q '^// .*: frames of 16 by 12,' "$work/block/test/icarus/small.v" || wrong 'the copy for Icarus Verilog has no frames of 16 by 12'
grep -q '^SOURCES = isp_core.v isp_pair.v isp_axis.v test/bench.v$' "$work/block/Makefile" || wrong 'Verilator does not try the block itself'
# a compiler that runs as root and replaces its output changes the mode of /dev/null for all users
if [ "$(find -L /dev/null -printf %m)" = "$mode_of_null" ]; then
    passed=$((passed + 1))
else
    wrong "the mode of /dev/null is $(find -L /dev/null -printf %m), and was $mode_of_null"
fi
echo "$passed passed, $failed failed"
[ $failed = 0 ]
