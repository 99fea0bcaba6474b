# Sourced by tools/dk/follow.sh, in a process of its own beside the program: shows at a terminal how far a long call is. `child` is the process of the
# program. Nothing is asked of the program: its place in IN and the end of VCD are read from outside.

# shellcheck shell=sh disable=SC1091,SC2154,SC3013
. "${top:?}/tools/dk/words.sh"

# now: the time in hundredths of a second since the machine began
now() {
    read -r seconds _ </proc/uptime
    printf '%s' "${seconds%.*}${seconds#*.}"
}

# place_in FILE: how many bytes of the file the program has read
place_in() {
    for link in /proc/"$child"/fd/*; do
        if [ "$link" -ef "$1" ]; then
            while read -r word value; do
                [ "$word" != pos: ] || printf '%s' "$value"
            done <"/proc/$child/fdinfo/${link##*/}"
            return
        fi
    done
}

# set_image: `image` has the bytes of the first image of IN, from its header
set_image() {
    # shellcheck disable=SC2046
    set -- $(head -c 512 <"$images" | sed 's/#.*//' | tr '\000\n\t\r' '    ' | awk 'NR == 1 { print $2, $3, $4 }')
    image=0
    case ${1-} in '' | *[!0-9]*) return ;; esac
    case ${2-} in '' | *[!0-9]*) return ;; esac
    case ${3-} in '' | *[!0-9]*) return ;; esac
    image=$(($1 * $2 * ($3 > 255 ? 2 : 1) + 12))
}

# rate DONE: how many of these a second, with one decimal
rate() {
    tenths=$(($1 * 1000 / ($(now) - begun)))
    printf '%s.%s a second' $((tenths / 10)) $((tenths % 10))
}

# how_far: what is done, by command
how_far() {
    case $command in
    run)
        place=$(place_in "$images")
        if [ -n "$place" ] && [ "$image" -gt 0 ] && [ $((size / image)) -gt 1 ]; then
            done=$((place / image))
            printf '%s of %s images of IN, %s' "$done" $((size / image)) "$(rate "$done")"
            return
        fi
        ;;
    trace)
        done=$(tail -c 65536 <"$out" 2>/dev/null | sed -n 's/^#\([0-9]*\)$/\1/p' | tail -n 1)
        if [ -n "$done" ]; then
            printf '%s of %s clocks, %s' "$done" "$clocks" "$(rate "$done")"
            return
        fi
        ;;
    esac
    printf '%s s' $((($(now) - begun) / 100))
}

# watch WORD..: after two seconds a line each half second. SIGTERM ends this process; it clears its line then, if it has written one.
watch() {
    begun=$(now)
    # (the calls below are of this folder's text tools, which read bytes)
    LC_ALL=C
    export LC_ALL
    sleep 2 2>/dev/null
    read_words "$@" >/dev/null 2>&1
    image=0
    if [ "$command" = run ] && [ -f "$images" ]; then
        size=$(($(wc -c <"$images")))
        set_image
    fi
    trap 'printf "\r\033[K" >&2; exit' TERM
    while kill -0 "$child" 2>/dev/null; do
        printf '\r%s: %s\033[K' "$called" "$(how_far)" >&2
        # (a signal ends the wait, and would not end a sleep in front)
        sleep 0.5 2>/dev/null &
        wait "$!"
    done
}
