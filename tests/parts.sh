# Sourced by `check`: runs the parts of a table side by side. What a part writes is printed whole when it ends.
# Each part has its own folder for files (TMPDIR), a time limit, and no input. Its processes carry a mark in their environment, by which those
# that it leaves are found, also in another process group or session.
# shellcheck shell=sh
passed=0
failed=0
# The slowest part takes half a minute of one processor, and a machine may be busy. DK_CHECK_SECONDS is for tests of this file.
limit=${DK_CHECK_SECONDS:-600}
# Modules of Python are not written into the checkout.
export PYTHONDONTWRITEBYTECODE=1

# begin_parts: makes the folder of the parts, which goes at the end, after their processes
begin_parts() {
    started=0
    running=0
    work=
    trap end_parts EXIT
    trap 'exit 129' HUP
    trap 'exit 130' INT
    trap 'exit 141' PIPE
    trap 'exit 143' TERM
    # (mktemp says which folder it has made, whatever signal comes)
    work=$(trap '' HUP INT PIPE TERM && mktemp -d) || exit 2
    mark=${work##*/}.$$
    # (tests of calls by other users make their folders below)
    chmod 711 "$work" || exit 2
    mkfifo "$work/ended" && exec 3<>"$work/ended" || exit 2
}

# end_parts: ends what is running, and removes the folder
end_parts() {
    trap '' HUP INT PIPE TERM
    [ -n "$work" ] || return
    # (a part that was just begun has its mark a moment later)
    for _ in 1 2 3 4 5 6 7 8 9; do
        has_running || break
        stop '.*'
    done
    remove "$work"
}

# has_running: a part was begun that has not ended
has_running() {
    number=0
    while [ "$number" -lt "$started" ]; do
        number=$((number + 1))
        [ -e "$work/$number/status" ] || return 0
    done
    return 1
}

# remove FOLDER: removes it, also where a part that was ended has left a folder without permissions
remove() {
    rm -rf "$1" 2>/dev/null || {
        chmod -R u+rwx "$1"
        rm -rf "$1"
    }
}

# processes PART: those that carry the mark of this part, a pattern
processes() {
    grep -lszx "DK_CHECK_PART=$mark/$1" /proc/[0-9]*/environ | cut -d / -f 3
}

# stop PART: ends its processes, at first by TERM, so that they can tidy up
stop() {
    signal=TERM
    for _ in 1 2 3 4 5 6 7 8 9 10 11 12 13 14 15 16 17 18 19 20; do
        left=$(processes "$1")
        [ -n "$left" ] || return 0
        # shellcheck disable=SC2086
        [ -z "$signal" ] || kill -s "$signal" $left 2>/dev/null
        signal=
        sleep 0.1
    done
    # shellcheck disable=SC2086
    kill -s KILL $left 2>/dev/null
}

# begin_part LINE: begins the part of this line of the table
begin_part() {
    started=$((started + 1))
    running=$((running + 1))
    here=$work/$started
    mkdir -m 711 "$here" "$here/files" && printf '%s\n' "$1" >"$here/line" || exit 2
    words=${1#*|}
    (
        # The status is written whatever signal comes. The part has none of these traps.
        trap : HUP INT PIPE TERM
        # shellcheck disable=SC2086
        TMPDIR=$here/files DK_CHECK_PART=$mark/$started timeout -k 5 "$limit" ${words%%|*} </dev/null >"$here/out" 2>"$here/err" 3>&-
        echo $? >"$here/status.new"
        mv "$here/status.new" "$here/status"
        echo "$started" >&3
    ) &
}

# end_part: waits until a part ends, and reports it
end_part() {
    read -r ended <&3
    running=$((running - 1))
    here=$work/$ended
    stop "$ended"
    IFS='|' read -r kind words text <"$here/line"
    read -r status <"$here/status"
    case $kind,$status in
    *,124 | *,137) fails "$words: took more than $limit seconds, or was killed" ;;
    counts,*) counts "$words" ;;
    *,0) passed=$((passed + 1)) ;;
    *) fails "$words: $text" ;;
    esac
    cat "$here/out"
    cat "$here/err" >&2
    remove "$here/files"
}

# fails TEXT: a part of one case has failed
fails() {
    failed=$((failed + 1))
    echo "check: $1" >&2
}

# counts WORDS: adds what the last line of a part says, which is not printed
counts() {
    before=$failed
    counted "$1" "$(tail -n 1 "$here/out")"
    [ "$status" = 0 ] || [ "$failed" != "$before" ] || fails "$1: ended with status $status"
    head -n -1 "$here/out" >"$here/rest"
    mv "$here/rest" "$here/out"
}

# counted WHAT LINE: adds what the last line of a test says
counted() {
    case $2 in
    [0-9]*' passed, '[0-9]*' failed')
        rest=${2#* passed, }
        passed=$((passed + ${2%% *}))
        failed=$((failed + ${rest%% *}))
        [ "${rest%% *}" = 0 ] || echo "check: $1: ${rest%% *} failed" >&2
        ;;
    *) fails "$1: ended without its count: $2" ;;
    esac
}

# run_parts: runs the parts of standard input, as many at once as there are processors. A line is KIND|WORDS|TEXT: of the kind `counts` a part
# ends with its count; of the kind `holds` it is one case, and TEXT says what is wrong where it fails.
run_parts() {
    processors=$(nproc)
    while IFS= read -r line || [ -n "$line" ]; do
        case $line in '' | '#'*) continue ;; esac
        [ "$running" -lt "$processors" ] || end_part
        begin_part "$line"
    done
    while [ "$running" -gt 0 ]; do
        end_part
    done
}
