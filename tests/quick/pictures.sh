#!/bin/sh
# `eval` and `run`: the pictures of the examples, of written programs and of each operator, and faults of programs and of images.
# usage: tests/quick/pictures.sh PROGRAM
. "$(dirname -- "$0")/cases.sh"

ends 0 '' run copy.dk gradient.pgm out.pgm
holds gradient.pgm
ends 0 '' run double.dk gradient.pgm out.pgm
holds doubled.pgm
ends 0 '' run -- copy.dk gradient.pgm out.pgm
holds gradient.pgm

# Each line of pictures.txt names a program and its input; the picture that is wanted has the program's name.
while read -r name input <&3; do
    for command in eval run; do
        ends 0 '' "$command" "$name.dk" "$input.pgm" out.pgm
        holds "$name.pgm"
    done
done 3<"$examples/programs/pictures.txt"

# Each line of calls/pictures.txt is what it shows, a program, its input and the picture that is wanted, with bytes as printf reads them.
while IFS='|' read -r name text input wanted <&3; do
    printf '%b' "$text" >text.dk
    printf '%b' "$input" >input.pgm
    printf '%b' "$wanted" >wanted.pgm
    for command in eval run; do
        ends 0 '' "$command" text.dk input.pgm out.pgm
        holds wanted.pgm "$name"
    done
    # its compiled text shows the same from ones, with a held clock before each counted one
    rounds=$(($(grep -a -o P5 input.pgm | wc -l) / $(grep -o 'input ' text.dk | wc -l)))
    pixels=$(($(sed -n '1s/^.*size \([0-9]*\) \([0-9]*\).*$/\1 * \2/p' text.dk)))
    for age in 0 1; do
        ends 0 '' compile --enable --age $age text.dk text.v
        clocks=$(($("$program" plan --age $age text.dk | sed -n 's/^clocks //p') + (rounds - 1) * pixels))
        ends 0 '' sim text.v $clocks input.pgm out.pgm --fill ones --hold 1
        holds wanted.pgm "$name, compiled at age $age"
    done
done 3<"$tests/calls/pictures.txt"

# Each line of calls/faults.txt is a status, a line on standard error, the program and the input that end so, and what `run` has written before the fault, if anything.
while IFS='|' read -r status line text input left <&3; do
    printf '%b' "$text" >text.dk
    printf '%b' "$input" >input.pgm
    ends "$status" "$line" eval text.dk input.pgm out.pgm
    none
    ends "$status" "$line" run text.dk input.pgm out.pgm
    if [ -n "$left" ]; then
        printf '%b' "$left" >wanted.pgm
        holds wanted.pgm "$line"
    else
        none
    fi
done 3<"$tests/calls/faults.txt"

# Each line of calls/values.txt is an operand P by its type and a number that stands for it modulo 2^N, an operand Q, an expression and its value; B is 1.
# The expression is made over images, which a bit chooses, and over constants; both have the value.
printf 'P5 1 1 1\n\001' >input.pgm
printf 'P5\n1 1\n1\n\001' >wanted.pgm
while IFS=$tab read -r left p right q expression value <&3; do
    nets=$(printf '%s\n' "$expression" | sed 's/P/p(x,y)/g; s/Q/q(x,y)/g; s/B/b(x,y)/g')
    numbers=$(printf '%s\n' "$expression" | sed "s/P/(($p) as $left)/g; s/Q/(($q) as $right)/g; s/B/1/g")
    {
        printf 'size 1 1 input b : u1 let p = im(x,y) select(b(x,y),(%s) as %s,0 as %s) end ' "$p" "$left" "$left"
        printf 'let q = im(x,y) select(b(x,y),(%s) as %s,0 as %s) end ' "$q" "$right" "$right"
        printf 'let r = im(x,y) ((%s)==(%s))&((%s)==(%s)) end output r\n' "$nets" "$value" "$numbers" "$value"
    } >text.dk
    for command in eval run; do
        ends 0 '' "$command" text.dk input.pgm out.pgm
        holds wanted.pgm "$expression, P being $p of $left, Q $q of $right"
    done
done 3<"$tests/calls/values.txt"

finish
