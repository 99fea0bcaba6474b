#!/bin/sh
# The quick tests: each file of tests/quick/ runs a built program on cases of one kind, all at once, and compares pictures, lines and statuses.
# They name each case that is not as it should be. The last line is `N passed, M failed`.
# usage: tests/quick.sh PROGRAM
. "$(dirname -- "$0")/lib.sh" && program=$(whole "$1") && in_folder || exit 2
for file in "$tests"/quick/*.sh; do
    kind=$(basename "$file" .sh)
    [ "$kind" = cases ] || sh "$file" "$program" >"$kind.said" &
done
wait
for said in *.said; do
    last=$(tail -n 1 "$said")
    case $last in
    [0-9]*' passed, '[0-9]*' failed')
        rest=${last#* passed, }
        cases=$((cases + ${last%% *} + ${rest%% *}))
        failed=$((failed + ${rest%% *}))
        ;;
    *) wrong "$said ended without its count" ;;
    esac
done
finish
