#!/bin/sh
# The memory of `run` of a program with one input and one output does not grow with the height or the number of the pictures: all of the program's address
# space, its code and libraries included, is limited to MEMORY KiB, for frames of 4,096 by 4,096 and for 1,000 rounds. The pictures are those of `eval`.
# The last line is `N passed, M failed`.
# usage: tests/run_memory.sh PROGRAM
. "$(dirname -- "$0")/lib.sh" && program=$(whole "$1") && in_folder || exit 2
MEMORY=6144

# within WORD..: the program in this much address space
within() {
    (ulimit -v $MEMORY && exec "$program" "$@")
}

awk 'BEGIN { for (k = 0; k < 4096; k++) printf "%c", 32 + k * k % 95 }' >line
repeated() {
    cat "$1" "$1" "$1" "$1" "$1" "$1" "$1" "$1"
}
for step in 1 2 3 4; do
    repeated line >lines && mv lines line
done
{ printf 'P5\n4096 4096\n255\n' && cat line; } >large.pgm
cat large.pgm large.pgm >two.pgm
{ repeated "$examples/programs/scene.pgm" && cat "$examples/programs/scene.pgm" "$examples/programs/scene.pgm"; } >ten.pgm
for step in 1 2 3 4 5 6 7 8 9 10; do cat ten.pgm; done >hundred.pgm
for step in 1 2 3 4 5 6 7 8 9 10; do cat hundred.pgm; done >many.pgm
for name in gaussian3 sobel median; do
    sed 's/^size .*/size 4096 4096/' "$examples/programs/$name.dk" >large.dk
    is "run of $name needs more than $MEMORY KiB for two frames of 4,096 by 4,096" within run large.dk two.pgm out.pgm
    is "run of $name writes another picture than eval" sh -c '"$1" eval large.dk two.pgm expected.pgm && cmp -s out.pgm expected.pgm' sh "$program"
    is "run of $name needs more than $MEMORY KiB for 1,000 rounds" within run "$examples/programs/$name.dk" many.pgm out.pgm
    is "run of $name writes another picture than eval" sh -c '"$1" eval "$2" many.pgm expected.pgm && cmp -s out.pgm expected.pgm' sh "$program" "$examples/programs/$name.dk"
done
finish
