# Sourced by the files of this folder, each of which tries the program of its first word, in a folder of its own with the examples, the texts of
# tests/reports and those of examples/sim. It names each case that is not as it should be. Its last line is `N passed, M failed` (`finish`).
# shellcheck shell=sh disable=SC2034
. "$(dirname -- "$0")/../lib.sh" && program=$(whole "$1") && in_folder || exit 2
cp "$examples"/programs/*.dk "$examples"/programs/*.pgm "$tests"/reports/*.dk "$tests"/reports/*.txt "$examples"/sim/*.v . || exit 2
# Every call here has 4 MiB of stack: the deepest accepted programs need between 1 and 2.
ulimit -S -s 4096 || exit 2
tab=$(printf '\t')
usage=$(usage_line)

# ends STATUS LINE WORD..: the program with these words ends with this status, prints nothing, and says this line on standard error
ends() {
    status=$1
    line=$2
    shift 2
    [ ! -e out.pgm ] || rm -f out.pgm
    cases=$((cases + 1))
    "$program" "$@" >stdout 2>stderr
    got=$?
    # (most calls say nothing, and a process takes as long as the call)
    said=
    [ ! -s stderr ] || said=$(cat stderr)
    if [ "$got" != "$status" ] || [ -s stdout ] || [ "$said" != "$line" ]; then
        wrong "dk $*: status $got, '$(cat stderr)', expected $status, '$line'"
    fi
}

# holds FILE [NAME]: the output is this file, byte for byte; NAME says what it shows
holds() {
    is "the output is not $1 ${2-}" cmp -s out.pgm "$1"
}

# none: nothing was created
none() {
    is "something was created" [ ! -e out.pgm ]
}

# prints TEXT WORD..: the program with these words is done, prints this text and says nothing
prints() {
    text=$1
    shift
    cases=$((cases + 1))
    "$program" "$@" >stdout 2>stderr
    got=$?
    if [ "$got" != 0 ] || [ -s stderr ] || [ "$(cat stdout)" != "$text" ]; then
        wrong "dk $*: status $got, '$(cat stdout)', '$(cat stderr)', expected '$text'"
    fi
}

# repeat COUNT FORMAT: the format for each number from 1 to COUNT
repeat() {
    k=1
    while [ $k -le "$1" ]; do
        # shellcheck disable=SC2059
        printf "$2" $k
        k=$((k + 1))
    done
}

# plan_holds PROG: `check` says yes to the report of `plan`
plan_holds() {
    "$program" plan "$1" >plan.txt 2>stderr && "$program" check "$1" plan.txt >stdout 2>stderr
}
