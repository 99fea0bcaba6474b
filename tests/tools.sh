#!/bin/sh
# Shows the texts that `compile` writes to the tools of the field, as far as they are installed, and says which it passed over:
# of all examples and pipelines, and of the programs of `make` from 0 to COUNT, as they are, with `--enable`, with `--age 1` and with both, and with `--block 2`, without and with `--enable`.
# - Icarus Verilog (-g2005 -Wall) and Verilator (--lint-only -Wall) may warn of nothing but the forms that "warnings" below names.
# - From random contents at power-up, both simulators must show the picture that `run` writes; with `--enable`, with clocks that are held at random.
# - Yosys must find each array as one memory, with as many memory bits in all as `plan` says, and must synthesize the text.
#   With `--block 32` it must make at least one block memory of each array of 512 words and more, in each of five families (tools/dev/memories.py).
# - trace.py must write the trace that `trace` writes.
# - The design of examples/design must show the pictures of `eval`.
# - Vim must show the groups of tests/editors.py.
# It says nothing else where all is as it should be. COUNT 0 takes about ten minutes, without COUNT it takes about 30.
# usage: tests/tools.sh PROGRAM [COUNT]
. "$(dirname -- "$0")/lib.sh" && program=$(whole "$1") || exit 2
count=${2-200}
in_folder
cp "$examples"/programs/*.dk "$examples"/programs/*.pgm . || exit 2

has() {
    command -v "$1" >/dev/null
}

for tool in iverilog verilator yosys vim; do
    has $tool || echo "tools: $tool is not installed, and was passed over"
done

# warnings: what Verilator says of dk.v beside what the subset's form makes, which is
# - UNSIGNED: a comparison of the program has only one result;
# - UNUSEDSIGNAL of some bits: each operator has operands of one width, so a sum is made whole and then cut;
# - UNUSEDSIGNAL of clk or a din: a module without state has the one, and a program that never reads an input has the other.
warnings() {
    verilator --lint-only -Wall dk.v 2>&1 | grep '^%Warning' |
        grep -v '^%Warning-UNSIGNED: .*Comparison is constant due to unsigned arithmetic$' |
        grep -v "^%Warning-UNUSEDSIGNAL: .*Bits of signal are not used: 'n[0-9]*'" |
        grep -v "^%Warning-UNUSEDSIGNAL: .*Signal is not used: '\(clk\|din[1-7]*\)'$"
}

# lints WHAT: the text in dk.v
lints() {
    if has iverilog; then
        said=$(iverilog -g2005 -Wall -t null dk.v 2>&1)
        [ -z "$said" ] || wrong "iverilog on $*: $said"
    fi
    if has verilator; then
        said=$(warnings)
        [ -z "$said" ] || wrong "verilator on $*: $said"
    fi
}

# shows SIMULATOR WHAT: what the bench saw is the picture in wanted.pgm
shows() {
    said=$(python3 "$tests/bench.py" picture dk.v "$input" seen.txt seen.pgm 2>&1) && cmp -s seen.pgm wanted.pgm || wrong "$* shows another picture: $said"
}

# icarus SEED WHAT: the text in dk.v, on $input
icarus() {
    seed=$1
    shift
    rm -f seen.txt
    python3 "$tests/bench.py" write dk.v "$input" "$clocks" "$seed" --random
    iverilog -g2005 -o bench.vvp dk.v bench.v && vvp -n bench.vvp >said.txt || wrong "iverilog on $*: $(cat said.txt)"
    shows iverilog "$@"
}

# verilated SEED WHAT: the same; the runtime is built once, in obj. A build takes longer than its few clocks, so it is not optimized.
verilated() {
    seed=$1
    shift
    rm -f seen.txt
    python3 "$tests/bench.py" write dk.v "$input" "$clocks" "$seed"
    verilator --binary --timing -Wno-fatal -Wno-lint -Wno-style --x-initial unique --x-assign unique --top-module bench --Mdir obj -MAKEFLAGS OPT_FAST=-O0 -o bench dk.v bench.v >said.txt 2>&1 &&
        obj/bench "+verilator+seed+$seed" +verilator+rand+reset+2 >said.txt 2>&1 || wrong "verilator on $*: $(tail -n 3 said.txt)"
    shows verilator "$@"
}

# memories PROGRAM: Yosys finds the arrays of dk.v, one memory each, with the plan's bits
memories() {
    yosys -q -p 'read_verilog dk.v; hierarchy -check -top dk; proc; opt_clean; tee -o stat.txt stat' >said.txt 2>&1 || wrong "yosys on $1: $(cat said.txt)"
    found=$(sed -n 's/^ *Number of memories: *//p' stat.txt) bits=$(sed -n 's/^ *Number of memory bits: *//p' stat.txt)
    arrays=$(grep -c '^  reg .* \[0:[0-9]*\];$' dk.v)
    [ "$found" = "$arrays" ] && [ "$bits" = "$("$program" plan "$1" | sed -n 's/^bits //p')" ] || wrong "yosys finds $found memories of $bits bits in $1, whose text has $arrays arrays"
}

# tried PROGRAM INPUT SEED: all of it but Verilator's build
tried() {
    input=$2
    for option in '' '--enable' '--age 1' '--enable --age 1' '--block 2' '--enable --block 2'; do
        # shellcheck disable=SC2086
        "$program" compile "$1" dk.v $option || wrong "compile $1 $option"
        lints "$1 $option"
        age=$(echo "$option" | sed 's/--enable//; s/--block 2//')
        # shellcheck disable=SC2086
        clocks=$("$program" plan "$1" $age | sed -n 's/^clocks //p')
        # shellcheck disable=SC2086
        "$program" run "$1" "$2" wanted.pgm $age || wrong "run $1 $age"
        ! has iverilog || icarus "$3" "$1 $option"
        case $option in '' | '--block 2') ! has yosys || memories "$1" ;; esac
    done
}

# built PROGRAM INPUT SEED OPTION..: under Verilator
built() {
    built=$1 input=$2 seed=$3
    shift 3
    has verilator || return
    "$program" compile "$built" dk.v "$@"
    clocks=$("$program" plan "$built" | sed -n 's/^clocks //p')
    "$program" run "$built" "$input" wanted.pgm
    verilated "$seed" "$built $*"
}

# synthesized PROGRAM: the text is taken through all of Yosys's steps
synthesized() {
    has yosys || return
    "$program" compile "$1" dk.v
    yosys -q -p 'read_verilog dk.v; synth -top dk; check -assert' >said.txt 2>&1 || wrong "yosys synth on $1: $(cat said.txt)"
}

while read -r name source <&3; do
    tried "$name.dk" "$source.pgm" 1
    built "$name.dk" "$source.pgm" 2
    built "$name.dk" "$source.pgm" 3 --enable
    built "$name.dk" "$source.pgm" 4 --enable --block 2
    synthesized "$name.dk"
    "$program" compile "$name.dk" dk.v
    "$program" trace dk.v 200 "$source.pgm" out.vcd
    python3 "$tests/trace.py" dk.v 200 "$source.pgm" wanted.vcd
    cmp -s out.vcd wanted.vcd || wrong "the trace of $name.dk is not that of trace.py"
done 3<"$examples/programs/pictures.txt"
while read -r name source <&3; do
    cp "$examples/pipelines/$name.dk" "pipeline_$name.dk" && cp "$examples/pipelines/$source.pgm" . || exit 2
    tried "pipeline_$name.dk" "$source.pgm" 1
done 3<"$examples/pipelines/pictures.txt"
for name in copy double; do
    tried $name.dk gradient.pgm 1
    built $name.dk gradient.pgm 2
    synthesized $name.dk
done
number=0
while [ "$number" -le "$count" ]; do
    python3 "$tests/made.py" write "$number" || exit 2
    tried made.dk made.pgm "$number"
    [ $((number % 50)) != 49 ] || built made.dk made.pgm "$number" --enable
    [ $((number % 20)) != 19 ] || synthesized made.dk
    number=$((number + 1))
done
# two modules in one design, with `dk compile` as a step of make
if has verilator; then
    mkdir -p examples && cp -r "$examples/design" examples || exit 2
    make -s -C examples/design DK="$program" PROGRAMS="$examples/programs" test >said.txt 2>&1 || wrong "examples/design: $(tail -n 3 said.txt)"
fi
! has yosys || python3 "$tests/../tools/dev/memories.py" --check "$program" || wrong "memories.py"
! has vim || python3 "$tests/editors.py" --vim || wrong "editors.py"
[ "$failed" = 0 ]
