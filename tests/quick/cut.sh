#!/bin/sh
# `cut`: written texts, the pictures of the examples after it, and where there is no room.
# usage: tests/quick/cut.sh PROGRAM
. "$(dirname -- "$0")/cases.sh"

# cuts NAME LINES LEVELS PROGRAM: the program is cut into out.dk, and these lines are printed, with bytes as printf reads them
cuts() {
    cases=$((cases + 1))
    rm -f out.dk
    "$program" cut "$3" "$4" out.dk >stdout 2>stderr
    got=$?
    if [ "$got" != 0 ] || [ -s stderr ] || [ "$(cat stdout)" != "$(printf '%b' "$2")" ]; then
        wrong "$1, cut at $3: status $got, '$(cat stdout)', '$(cat stderr)', expected '$2'"
    fi
}

# Each line of calls/cuts.txt is what it shows, a number of levels, the lines that `cut` prints, the program and the text that is wanted, with bytes as printf reads them.
while IFS=$tab read -r name levels line text wanted <&3; do
    printf '%b' "$text" >text.dk
    printf '%b' "$wanted" >wanted.dk
    cuts "$name" "$line" "$levels" text.dk
    is "$name: the cut text is '$(cat out.dk)'" cmp -s out.dk wanted.dk
done 3<"$tests/calls/cuts.txt"

# The examples show the same pictures where their bodies are cut. No body has more levels than asked, or the two of one operator.
while read -r name input <&3; do
    for levels in 1 2 4; do
        cases=$((cases + 1))
        "$program" cut $levels "$name.dk" cut.dk >stdout 2>stderr || wrong "$name is not cut at $levels: $(cat stderr)"
        set -- $(cat stdout)
        is "$name, cut at $levels: '$*'" [ "$1 $2 $4" = 'cut: definitions levels' ]
        is "$name, cut at $levels, has not $3 definitions" [ "$(grep -c 'let ' cut.dk)" = "$3" ]
        is "$name, cut at $levels, has $5 levels" [ "$5" -le $((levels < 2 ? 2 : levels)) ]
        ends 0 '' eval cut.dk "$input.pgm" out.pgm
        holds "$name.pgm" "cut at $levels"
        ends 0 '' run --age 1 cut.dk "$input.pgm" out.pgm
        holds "$name.pgm" "cut at $levels, at age 1"
    done
done 3<"$examples/programs/pictures.txt"

# 255 definitions of one level and one of three: there is room for one piece more, so the deepest body stays whole where it needs two.
{
    printf 'size 4 1\ninput a : u8\n'
    k=1
    while [ $k -le 254 ]; do
        printf 'let c%d = im(x,y) a(x,y) + a(x-1,y) end\n' $k
        k=$((k + 1))
    done
    printf 'let f = im(x,y) a(x,y) + a(x-1,y) + a(x-2,y) + a(x-3,y) end\noutput f\n'
} >many.dk
cuts 'room for a piece' 'cut: definitions 256 levels 2' 2 many.dk
cuts 'no room for two pieces' 'cut: definitions 255 levels 3\ncut: over 1: f limit' 1 many.dk
is 'a program that cannot be cut was changed' cmp -s many.dk out.dk

# Inline images that nothing reads can be deeper than any limit: 22 of 505 casts each.
awk 'BEGIN {
    print "size 4 1\ninput a : u8"
    for (k = 1; k <= 22; k++) {
        body = k == 1 ? "a(x,y)" : "d" k - 1 "(x,y)"
        for (cast = 1; cast <= 505; cast++) body = body " as u8"
        print "inline let d" k " = im(x,y) " body " end"
    }
    print "let f = im(x,y) a(x,y) + a(x-1,y) + a(x+1,y) end\noutput f"
}' >deep.dk
cuts 'inline images that nothing reads' 'cut: definitions 24 levels 1' 1 deep.dk

ends 2 "$usage" cut 0 many.dk out.dk
ends 2 "$usage" cut 65 many.dk out.dk
ends 2 "$usage" cut 1 many.dk many.dk

finish
