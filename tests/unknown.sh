#!/bin/sh
# Unknown values: each example under Icarus Verilog, whose registers and arrays are x at power-up, at ages 0, 1 and 3, without and with `--enable`
# (then with held clocks at random), and with `--block 2` at ages 0 and 1. No dout may be x in a clock in which it is valid, no valid may be x, and the picture must be the one that `run` writes.
# It says nothing else where all is as it should be. It takes two to four minutes.
# usage: tests/unknown.sh PROGRAM
. "$(dirname -- "$0")/lib.sh" && program=$(whole "$1") || exit 2
in_folder
cp "$examples"/programs/*.dk "$examples"/programs/*.pgm . || exit 2
command -v iverilog >/dev/null || { echo 'unknown: iverilog is not installed' >&2; exit 1; }
tried=0

# shown NAME IN OPTION..: one text, with x everywhere at power-up
shown() {
    name=$1 input=$2
    shift 2
    aged=$(echo "$*" | sed 's/--enable//; s/--block 2//')
    "$program" compile "$@" "$name.dk" dk.v || wrong "compile $* $name"
    # shellcheck disable=SC2086
    clocks=$("$program" plan $aged "$name.dk" | sed -n 's/^clocks //p')
    # shellcheck disable=SC2086
    "$program" run $aged "$name.dk" "$input" wanted.pgm || wrong "run $aged $name"
    python3 "$tests/bench.py" write dk.v "$input" "$clocks" 5
    rm -f seen.txt seen.pgm
    iverilog -g2005 -o bench.vvp dk.v bench.v && vvp -n bench.vvp >said.txt || wrong "iverilog on $name $*: $(cat said.txt)"
    # a line has en, where there is such a port, and then each valid with its dout
    first=1
    case " $* " in *' --enable '*) first=2 ;; esac
    said=$(awk -v first=$first '{ for (k = first; k < NF; k += 2) if ($k !~ /^[01]$/ || ($k == 1 && $(k + 1) !~ /^[0-9]+$/)) { print "line " NR ": " $0; exit } }' seen.txt)
    [ -z "$said" ] || wrong "$name $*: $said"
    python3 "$tests/bench.py" picture dk.v "$input" seen.txt seen.pgm && cmp -s seen.pgm wanted.pgm || wrong "$name $* shows another picture"
    tried=$((tried + 1))
}

while read -r name source <&3; do
    for age in 0 1 3; do
        shown "$name" "$source.pgm" --age $age
        shown "$name" "$source.pgm" --enable --age $age
    done
    for age in 0 1; do
        shown "$name" "$source.pgm" --block 2 --age $age
        shown "$name" "$source.pgm" --enable --block 2 --age $age
    done
done 3<"$examples/programs/pictures.txt"
[ "$tried" -gt 0 ] || wrong 'no text was tried'
[ "$failed" = 0 ]
