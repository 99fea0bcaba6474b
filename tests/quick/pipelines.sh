#!/bin/sh
# The pipelines: small frames by `eval`, by `run` and after `cut 1`, and programs that a script prints.
# usage: tests/quick/pipelines.sh PROGRAM
. "$(dirname -- "$0")/cases.sh"
pipelines=$examples/pipelines

# Each line of pictures.txt names a program and its input; the picture that is expected has the program's name. tests/pipelines.py made them.
while read -r name input <&3; do
    for command in eval run; do
        ends 0 '' "$command" "$pipelines/$name.dk" "$pipelines/$input.pgm" out.pgm
        holds "$pipelines/$name.pgm"
    done
    cases=$((cases + 1))
    "$program" cut 1 "$pipelines/$name.dk" cut.dk >stdout 2>stderr || wrong "$name is not cut: $(cat stderr)"
    set -- $(cat stdout)
    is "$name, cut at 1, has $5 levels" [ "$5" -le 2 ]
    ends 0 '' run --age 1 cut.dk "$pipelines/$input.pgm" out.pgm
    holds "$pipelines/$name.pgm" 'cut at 1, at age 1'
    is "the plan of $name does not hold" plan_holds "$pipelines/$name.dk"
done 3<"$pipelines/pictures.txt"

# NAME.py prints NAME.dk.
if command -v python3 >/dev/null; then
    for script in "$pipelines"/*.py; do
        python3 "$script" >printed.dk 2>stderr
        is "$(basename "$script") does not print its program" cmp -s printed.dk "${script%.py}.dk"
    done
else
    echo 'pipelines: python3 is not installed, and the scripts that print programs were passed over'
fi
finish
