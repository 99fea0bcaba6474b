# Sourced by the tests of this folder, and of tests/quick/: where things are, a folder to work in, and cases that are counted.
# shellcheck shell=sh disable=SC2034
folder=$(CDPATH='' cd -- "$(dirname -- "$0")" && pwd) || exit 2
test_name=$(basename -- "$0" .sh)
top=${folder%/tests*}
tests=$top/tests
examples=$top/examples
cases=0
failed=0
unset DK_EXPLAIN

# whole NAME: the name of a file that there is, from the root on
whole() {
    printf '%s/%s\n' "$(CDPATH='' cd -- "$(dirname -- "$1")" && pwd)" "$(basename -- "$1")"
}

# in_folder: makes a folder, which goes at the end, and goes into it
in_folder() {
    work=$(mktemp -d) || exit 2
    trap 'rm -rf "$work"' EXIT
    trap 'exit 130' INT TERM HUP
    CDPATH='' cd -- "$work" || exit 2
}

# wrong TEXT..: a case is not as it should be
wrong() {
    echo "$test_name: $*" >&2
    failed=$((failed + 1))
}

# is TEXT WORD..: a case, which holds where the command WORD.. succeeds; TEXT says what is wrong where it does not
is() {
    said=$1
    shift
    cases=$((cases + 1))
    "$@" || wrong "$said"
}

# usage_line: the line of words that name no command, as docs/COMMANDS.md has it
usage_line() {
    grep -m 1 '^usage: ' "$top/docs/COMMANDS.md"
}

# finish: the line that a test ends with, and its status
finish() {
    echo "$((cases - failed)) passed, $failed failed"
    [ "$failed" = 0 ]
}
