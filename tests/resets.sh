#!/bin/sh
# Clocks the text of reports/square.dk, a sum of squares and of the picture two rows below, under Icarus Verilog: from zeros, from ones and from random contents,
# with a second reset clock after each of the clocks 0 to 19 and with none, as it is, with `--age 1`, and with `--enable` and clocks that are held at random,
# and each of these with `--block 2`.
# The next 12 valid pixels must be the picture's, which was worked out by hand. It says nothing where they are.
# usage: tests/resets.sh PROGRAM
. "$(dirname -- "$0")/lib.sh" && program=$(whole "$1") || exit 2
command -v iverilog >/dev/null || {
    echo "resets: iverilog is not installed"
    exit 0
}
in_folder
printf 'P5\n4 3\n255\n\001\002\003\004\005\006\007\010\011\012\013\014' >in.pgm
printf 'P5\n4 3\n65535\n\0\012\0\016\0\024\0\034\0\031\0\044\0\061\0\100\0\121\0\144\0\171\0\220' >wanted.pgm
for option in '' '--age 1' --enable '--enable --age 1' '--block 2' '--block 2 --age 1' '--block 2 --enable' '--block 2 --enable --age 1'; do
    # shellcheck disable=SC2086
    "$program" compile "$tests/reports/square.dk" dk.v $option || exit 2
    age=$(echo "$option" | sed 's/--enable//; s/--block 2//')
    # shellcheck disable=SC2086
    clocks=$("$program" plan "$tests/reports/square.dk" $age | sed -n 's/^clocks //p')
    for contents in zeros ones random; do
        python3 "$tests/bench.py" write dk.v in.pgm "$clocks" 7 --$contents && iverilog -g2005 -o bench.vvp dk.v bench.v || exit 2
        early=0
        while [ $early -le 20 ]; do
            rm -f seen.txt seen.pgm
            said=$(vvp -n bench.vvp +early=$early 2>&1 && python3 "$tests/bench.py" picture dk.v in.pgm seen.txt seen.pgm 2>&1)
            cmp -s seen.pgm wanted.pgm || {
                wrong "$option from $contents, $early clocks before the second reset: another picture $said"
            }
            early=$((early + 1))
        done
    done
done
[ "$failed" = 0 ]
