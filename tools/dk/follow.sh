# Sourced by the script dk: runs the program `built` of the folder `top` with the words of the call, and ends as it did. If a fault is to be
# explained, the program is a child, which has the descriptors of the call, and which a signal to this script ends too.

# explains: a fault is to be explained, by DK_EXPLAIN or because standard error is a terminal, and can be. That takes the descriptor 9.
explains() {
    case ${DK_EXPLAIN-} in
    '' | auto) [ -t 2 ] || return ;;
    always) ;;
    never) return 1 ;;
    *)
        echo 'dk: DK_EXPLAIN must be always, never or auto' >&2
        exit 1
        ;;
    esac
    { true 9<&0; } 2>/dev/null && ! { true <&9; } 2>/dev/null
}

# explain_module FILE: `explain` of a Verilog text, which the program does not have: what `trace` says of it, in the same form. IN is empty, so a
# text in order ends with a fault of the images.
explain_module() {
    # shellcheck disable=SC2034
    verilog=$1
    # (in a file of its own it would need a folder for such files)
    line=$("$built" trace -- "$verilog" 0 /dev/null /dev/./null 2>&1 >/dev/null)
    status=$?
    [ "$status" != 4 ] || exit 0
    printf '%s\n' "$line" >&2
    [ "$status" != 5 ] || {
        LC_ALL=C
        export LC_ALL
        said=
        . "$top/tools/dk/explain.sh"
        explain_fault
    }
    exit "$status"
}

# begins_with_module FILE: the first word of the text is `module`, behind comments of whole lines
begins_with_module() {
    [ -f "$1" ] && [ -r "$1" ] || return
    case $(head -c 65536 <"$1" | sed 's:^ *//.*::; s:^ */\*.*\*/::' | tr '\000\n\t\r' '    ' | sed 's/^ *//' | head -c 7) in
    'module ') return 0 ;;
    esac
    return 1
}

# read_explain WORD..: sets `file` to the one word of `explain` that is a file; `--` may come before or after it. Other words are the program's.
read_explain() {
    [ "${1-}" = explain ] || return
    shift
    case $#${1+" $1"} in
    '2 --') file=$2 ;;
    '1 -'?* | '2 -'?*) return 1 ;;
    '1 '*) file=$1 ;;
    *) [ "$# ${2-}" = '2 --' ] && file=$1 ;;
    esac
}

[ -x "$built" ] || {
    echo "dk: ${built#"$top/"} may not be executed: its mode or its file system does not allow it" >&2
    exit 1
}
if read_explain "$@" && begins_with_module "$file"; then
    explain_module "$file"
fi
explains || exec "$built" "$@"
exec 9<&0
status=
signal=
child=

# pass_on SIGNAL: ends the child. A child in the background ignores SIGINT and SIGQUIT. The program catches no signal, so SIGKILL does what any
# of them would do.
pass_on() {
    signal=$1
    [ -z "$child" ] || kill -s KILL "$child" 2>/dev/null
}
for name in HUP INT QUIT PIPE ALRM TERM USR1 USR2; do
    # shellcheck disable=SC2064
    trap "pass_on $name" "$name"
done

# follow WORD..: runs this command as a child and waits for its end, and sets `status`
follow() {
    { exec "$@"; } <&9 9<&- &
    child=$!
    [ -z "$signal" ] || pass_on "$signal"
    begin_to_watch "$@"
    # (the shell would write how a signal ended the child)
    wait "$child" 2>/dev/null
    status=$?
    [ -z "$signal" ] || wait "$child" 2>/dev/null
    end_to_watch
    child=
}

# begin_to_watch PROGRAM WORD..: at a terminal, and if the command may take long, a process shows how far it is
begin_to_watch() {
    watcher=
    case ${2-} in run | eval | sim | trace) ;; *) return ;; esac
    [ -t 2 ] && [ -r /proc/uptime ] || return 0
    shift
    (
        . "$top/tools/dk/progress.sh"
        watch "$@"
    ) 9<&- </dev/null >/dev/null &
    watcher=$!
}

# end_to_watch: ends that process, which clears its line if it has written one
end_to_watch() {
    [ -n "$watcher" ] || return 0
    kill "$watcher" 2>/dev/null
    wait "$watcher" 2>/dev/null
    return 0
}

# ask_to_explain: sets `said` to what `explain` prints of the program, if its text is a regular file. It has five seconds of processor time at most.
ask_to_explain() {
    [ -n "${program+set}" ] && [ -f "$program" ] || return 0
    messages=$(mktemp 2>/dev/null) || return 0
    # shellcheck disable=SC2016
    follow sh -c 'ulimit -t 5 && exec "$0" "$@"' "$built" explain -- "$program" >"$messages" 2>/dev/null
    [ "$status" != 3 ] || said=$(cat "$messages")
    rm -f "$messages"
    status=3
}

# ask_again WORD..: sets `line` to the fault line of this call. The program runs once more, on regular files only and with /dev/null as its
# output, for five seconds of processor time at most. The line is empty where that is not possible, or ends otherwise.
ask_again() {
    line=
    said=
    ended=$status
    read_words "$@"
    [ "$status" != 3 ] || ask_to_explain
    [ -z "$said" ] || return 0
    case $status in
    3 | 5 | 11)
        # Nothing was read but the program or the Verilog text.
        [ -z "${images+set}" ] || images=/dev/null
        [ -z "${report+set}" ] || report=/dev/null
        ;;
    4 | 6 | 10) ;;
    *) return ;;
    esac
    for file in ${program+"$program"} ${verilog+"$verilog"} ${images+"$images"} ${report+"$report"}; do
        [ -f "$file" ] || [ "$file" = /dev/null ] || return
    done
    set -- "$command" ${age+--age "$age"} ${hold+--hold "$hold"} ${fill+--fill "$fill"} -- ${count+"$count"} ${program+"$program"} \
        ${verilog+"$verilog"} ${clocks+"$clocks"} ${images+"$images"} ${report+"$report"} ${out+/dev/./null}
    answer=$(mktemp 2>/dev/null) || return
    # shellcheck disable=SC2016
    follow sh -c 'ulimit -t 5 && exec "$0" "$@"' "$built" "$@" >/dev/null 2>"$answer"
    [ "$status" != "$ended" ] || read -r line <"$answer"
    rm -f "$answer"
    status=$ended
}

follow "$built" "$@"
# (what `explain` has printed of a fault is not printed again)
if [ -z "$signal" ] && [ "$status" != 0 ] && [ "${1-} $status" != 'explain 3' ]; then
    . "$top/tools/dk/explain.sh"
    ask_again "$@"
    [ -n "$signal" ] || explain "$status" "$line" "$@"
fi
[ -n "$signal" ] || [ "$status" -le 128 ] || signal=$(kill -l "$status")
[ -z "$signal" ] || {
    ulimit -c 0
    trap - "$signal"
    kill -s "$signal" "$$"
}
exit "$status"
