#!/bin/sh
# How ./check runs its parts, in small checkouts with the scripts of this one and parts of their own: counts, time limits, signals, and what is left.
# Says nothing where all is right, and else names each case. With `--whole` it runs all of ./check in copies of this checkout too: at a path with
# an apostrophe, after an edit of a source, and twice at once. That takes some minutes.
# usage: tests/check.sh [--whole]
. "$(dirname -- "$0")/lib.sh" || exit 2
in_folder
# (stale.sh calls ./dk as another user, who must reach its folder)
chmod 711 "$work" || exit 2
unset DK_CHECK_SECONDS

# checkout FOLDER: a checkout whose parts are those of standard input
checkout() {
    mkdir -p "$1/tests" "$1/tools/dk" && cp "$top/check" "$1" && cp "$top/tools/dk/sources.sh" "$1/tools/dk" && cp "$top/tests/parts.sh" scripts/* "$1/tests" || exit 2
    cat >"$1/tests/parts.txt"
}

# part NAME: a script for parts, which is standard input
mkdir scripts
part() {
    cat >"scripts/$1"
}

# run WORD..: runs a command with a folder for its files; the status is in `got`, the output in stdout and stderr
run() {
    rm -rf files
    mkdir files
    TMPDIR=$work/files "$@" >stdout 2>stderr
    got=$?
}

# ends STATUS LINE NAME: the last run ended with the status and the last line
ends() {
    [ "$got" = "$1" ] && [ "$(tail -n 1 stdout)" = "$2" ] || wrong "$3: status $got, '$(tail -n 1 stdout)' where $1, '$2' was expected: $(cat stderr)"
}

# says TEXT NAME: one line of standard error is this text
says() {
    grep -qxF -e "$1" stderr || wrong "$2: no line '$1' in: $(cat stderr)"
}

# leaves_nothing NAME: no process of a part is left, and no file. (Parts that sleep do so for these seconds, which no other call of this test has.)
export seconds="98765.$$"
leaves_nothing() {
    left=$(grep -lszx "98765\.$$" /proc/[0-9]*/cmdline)
    [ -z "$left" ] || wrong "$1: a process is left"
    # shellcheck disable=SC2046
    [ -z "$left" ] || kill -s KILL $(printf '%s\n' "$left" | cut -d / -f 3) 2>/dev/null
    [ -z "$(ls -A files)" ] || wrong "$1: files are left: $(ls -A files)"
}

part good <<'end'
exit 0
end
part bad <<'end'
echo 'a reason' >&2
exit 1
end
part counted <<'end'
echo 'case 2 is wrong' >&2
echo '3 passed, 1 failed'
end
part wrongly <<'end'
echo '2 passed, 0 failed'
exit 3
end
part uncounted <<'end'
echo 'no count'
end
part slow <<'end'
timeout "$seconds" sleep "$seconds" &
echo 'begins'
sleep "$seconds"
end
part leaving <<'end'
mkdir "$TMPDIR/closed"
: >"$TMPDIR/closed/file"
chmod 0 "$TMPDIR/closed"
sleep "$seconds" &
end
for name in first second; do
    printf 'for word in 1 2 3; do echo %s $word; sleep 0.2; done\n' $name | part lines_$name
done

# Counts, reasons, and a line for each part that fails. Odd names of the folder; and parts without tests of their own.
newline=$(printf 'a\nb')
# shellcheck disable=SC2016
for name in plain "it's a folder" "$newline" -x 'a"$(b)' "$(printf '\377')"; do
    checkout "./$name" <<end
# a comment

counts|sh tests/counted|
holds|sh tests/good|this is good
holds|sh tests/bad|this is bad
counts|sh tests/uncounted|
end
    run "./$name/check"
    ends 1 '4 passed, 3 failed' "in $name"
    for line in "check: sh tests/bad: this is bad" "check: sh tests/counted: 1 failed" "check: sh tests/uncounted: ended without its count: no count" 'a reason' 'case 2 is wrong'; do
        says "$line" "in $name"
    done
    leaves_nothing "in $name"
done
checkout one <<end
holds|sh tests/good|this is good
end
run one/check
ends 0 '1 passed, 0 failed' 'one part'
[ ! -s stderr ] && [ "$(wc -l <stdout)" = 1 ] || wrong "one part writes more than its count: $(cat stdout stderr)"

# A part that fails after a count without a failure; a table whose last line has no end; and no table, or none of its parts
checkout count <<end
counts|sh tests/wrongly|
end
printf 'holds|sh tests/good|this is good' >>count/tests/parts.txt
run count/check
ends 1 '3 passed, 1 failed' 'a count and a status'
says 'check: sh tests/wrongly: ended with status 3' 'a count and a status'
: >count/tests/parts.txt
run count/check
ends 1 '0 passed, 0 failed' 'no parts'
rm count/tests/parts.txt
run count/check
ends 2 '' 'no table of parts'
leaves_nothing 'no table of parts'

# What two parts write at once is not mixed.
checkout lines <<end
holds|sh tests/lines_first|
holds|sh tests/lines_second|
end
run lines/check
ends 0 '2 passed, 0 failed' 'two parts at once'
[ "$(cut -d ' ' -f 1 stdout | uniq | sort)" = '2
first
second' ] || wrong "the lines of two parts are mixed: $(cat stdout)"

# A part that takes too long is ended with all its processes, and the others are tried. So is what a part leaves.
checkout slow <<end
holds|sh tests/slow|
holds|sh tests/leaving|this leaves a process
holds|sh tests/good|
end
run env DK_CHECK_SECONDS=1 timeout 20 slow/check
ends 1 '2 passed, 1 failed' 'a slow part'
says "check: sh tests/slow: took more than 1 seconds, or was killed" 'a slow part'
grep -qx begins stdout || wrong 'what a slow part has written is not shown'
leaves_nothing 'a slow part'

# A signal ends ./check with its parts, as soon as it began and later, also a signal to it only. (`timeout` gives its command the signals that a
# shell in the background ignores, and without --foreground it ends the whole group, as a terminal does.)
while read -r signal status after group; do
    rm -rf files
    mkdir files
    # shellcheck disable=SC2086
    TMPDIR=$work/files timeout $group --preserve-status -k 20 -s "$signal" "$after" slow/check >stdout 2>stderr
    got=$?
    [ "$got" = "$status" ] || wrong "$signal $group after $after s: status $got: $(cat stderr)"
    leaves_nothing "$signal $group after $after s"
done <<'end'
INT 130 0.02
INT 130 0.05
INT 130 0.1
INT 130 0.8
INT 130 0.8 --foreground
TERM 143 0.1
TERM 143 0.8
TERM 143 0.8 --foreground
HUP 129 0.5
end

# An output that is closed by its reader, or full
checkout talks <<end
counts|sh tests/uncounted|
holds|sh tests/lines_first|
holds|sh tests/slow|
end
rm -rf files
mkdir files
{ TMPDIR=$work/files DK_CHECK_SECONDS=2 timeout 30 talks/check 2>stderr; } | true
leaves_nothing 'a closed pipe'
for words in '>/dev/full' '>&-' '>&- 2>&- <&-'; do
    rm -rf files
    mkdir files
    eval "TMPDIR=\$work/files timeout 30 one/check $words 2>stderr"
    [ $? != 0 ] || wrong "with $words nothing is wrong"
    leaves_nothing "$words"
done

# A folder for files that is not there
TMPDIR=$work/none timeout 10 one/check >stdout 2>stderr
got=$?
ends 2 '' 'no folder for files'
[ "$(wc -l <stderr)" = 1 ] || wrong "no folder for files: $(cat stderr)"

# Without python3 its parts are passed over.
mkdir tools
for tool in $(sed -n '/^for tool in/,/; do$/p' "$top/check" | tr -d '\\\\;' | sed 's/^for tool in//; s/ do$//') sh; do
    ln -s "$(command -v "$tool")" tools
done
checkout python <<end
holds|python3 tests/good|
holds|sh tests/good|
end
run env PATH="$work/tools" python/check
ends 0 '1 passed, 0 failed' 'without python3'
grep -q 'python3 is not installed' stdout || wrong 'without python3 nothing says so'

# Two at once in one checkout
run one/check &
timeout 20 lines/check >stdout_2 2>&1 &
timeout 20 lines/check >stdout_3 2>&1
wait
[ "$(tail -qn 1 stdout_2 stdout_3 | uniq)" = '2 passed, 0 failed' ] || wrong "two at once: $(cat stdout_2 stdout_3)"

# copied NAME: a copy of this checkout with the files that git has, and the folder for the files of ./check
copied() {
    mkdir -p "$1" && (CDPATH='' cd -- "$top" && git ls-files -z | tar -c --null -T - -f -) | tar -x -C "$1" -f - || exit 2
}

if [ "${1-}" = --whole ]; then
    copied "it's a copy"
    run timeout 400 "it's a copy/check"
    case $got,$(tail -n 1 stdout) in
    0,*' passed, 0 failed') ;;
    *) wrong "at a path with an apostrophe: status $got: $(cat stderr)" ;;
    esac
    echo '// changed' >>"it's a copy/crates/dk/src/main.rt"
    run timeout 400 "it's a copy/check"
    ends 1 "$(tail -n 1 stdout)" 'an edited checkout'
    says 'check: sh tests/shipped.sh: the shipped program is not of these sources (tools/dev/ship.sh)' 'an edited checkout'
    leaves_nothing 'an edited checkout'
    copied twice
    timeout 400 twice/check >stdout_2 2>&1 &
    timeout 400 twice/check >stdout_3 2>&1
    wait
    [ "$(tail -qn 1 stdout_2 stdout_3 | uniq | grep -c ' 0 failed')" = 1 ] || wrong "two at once: $(cat stdout_2 stdout_3)"
    [ -z "$(find twice -name __pycache__)" ] || wrong 'something was written into the checkout'
fi
[ "$failed" = 0 ]
