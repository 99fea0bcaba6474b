#!/bin/sh
# Compares `make N`, for numbers chosen by a seed, with `eval` and `run` on the same program and image, which made.py makes a second time,
# and with `eval` and `run --age 1` of the program whose bodies are cut at 1, 2 and 4 levels.
# It says nothing where the sums and the statuses agree, and else names each number where they do not.
# usage: tests/made.sh PROGRAM COUNT [SEED]
. "$(dirname -- "$0")/lib.sh" && program=$(whole "$1") || exit 2
in_folder
for number in $(python3 "$tests/made.py" numbers "$2" "${3-1}"); do
    python3 "$tests/made.py" write "$number" || exit 2
    line=$("$program" make "$number" 2>fault)
    status=$?
    for command in eval run; do
        rm -f out.pgm
        "$program" $command made.dk made.pgm out.pgm 2>stderr
        got=$?
        if [ $got != $status ] || ! cmp -s stderr fault; then
            wrong "$command of $number: status $got, '$(cat stderr)' where make has $status, '$(cat fault)'"
        elif [ $status = 0 ] && [ "${line##* sum }" != "$(python3 "$tests/made.py" sum out.pgm)" ]; then
            wrong "the sum of $command is not that of '$line'"
        fi
    done
    [ $status = 0 ] || continue
    mv out.pgm wanted.pgm
    for levels in 1 2 4; do
        "$program" cut $levels made.dk cut.dk >stdout 2>stderr || wrong "$number is not cut at $levels: $(cat stderr)"
        for command in eval 'run --age 1'; do
            rm -f out.pgm
            # shellcheck disable=SC2086
            "$program" $command cut.dk made.pgm out.pgm 2>stderr
            if ! cmp -s out.pgm wanted.pgm; then
                wrong "$command of $number, cut at $levels, shows another picture: '$(cat stderr)'"
            fi
        done
    done
done
[ "$failed" = 0 ]
