# Explains the faults of dk to a reader. The script dk sources this file after a fault; `top`, `called` and `docs` are those of tools/dk/answer.sh.
# It uses the shell and coreutils only, so that it works wherever the program does. No loop goes over the bytes of a file.
#
# explain STATUS LINE WORD..    writes what helps next, to standard error; LINE is the fault line, or empty where it is not known, and the
#                               words are those of the call; the variable `said` has what the program itself says of a program's fault
# help_page                     writes the commands and options to standard output (tools/dk/words.sh)

. "${top:?}/tools/dk/words.sh"
. "$top/tools/dk/faults.sh"

# The body is a subshell, so that no variable of the script dk is changed.
explain() (
    LC_ALL=C
    export LC_ALL
    set -f
    exec >&2
    status=$1
    line=$2
    shift 2
    read_words "$@"
    case $status in
    2) explain_usage "$@" ;;
    3 | 4 | 5 | 6 | 10 | 11) explain_fault ;;
    7) explain_read ;;
    8) explain_write ;;
    9) put 'The system refused memory, and nothing was written; raise the limit (`ulimit -v`), or use a smaller program or image file.' ;;
    139) put 'The system ended the program (SIGSEGV): a limit on its stack or its memory is too low.' ;;
    esac
)

# put WORD: writes a line; `echo` would read the backslashes in it.
put() {
    printf '%s\n' "$1"
}

explain_usage() {
    for word in "$@"; do
        is_utf8 "$word" || note_wrong "$(quoted "$word") is not UTF-8."
    done
    put "${wrong:-This script finds no wrong word.}"
}

# Faults of files.

explain_read() {
    refused=
    for name in PROG VERILOG IN REPORT; do
        set_file "$name"
        [ -n "${file+set}" ] || continue
        reason=
        if [ -z "$file" ]; then
            reason='an empty word names no file.'
        elif [ ! -e "$file" ]; then
            reason='there is no such file.'
        elif [ -d "$file" ]; then
            reason='it is a folder.'
        elif [ ! -r "$file" ]; then
            reason='you have no permission to read it.'
        fi
        [ -z "$reason" ] || {
            put "$name, $(quoted "$file"), cannot be read: $reason"
            return
        }
        refused="$refused${refused:+ or }$name, $(quoted "$file")"
    done
    put "The system refused the read of $refused."
}

explain_write() {
    [ -n "${out+set}" ] || {
        put 'The system refused the write to standard output: the device may be full, or the pipe closed.'
        return
    }
    put "${expected##* }, $(quoted "$out"), cannot be written: $(why_not_written)"
}

why_not_written() {
    folder=$(dirname -- "$out")
    for name in PROG VERILOG IN; do
        set_file "$name"
        if [ -f "$out" ] && [ -n "${file+set}" ] && [ "$file" -ef "$out" ]; then
            put "it is the same file as $name, $(quoted "$file")."
            return
        fi
    done
    if [ -z "$out" ]; then
        put 'an empty word names no file.'
    elif [ -d "$out" ]; then
        put 'it is a folder.'
    elif [ -e "$out" ] && [ ! -w "$out" ]; then
        put 'you have no permission to write it.'
    elif [ -e "$out" ]; then
        put 'the system refused the write; the device may be full, or the pipe closed.'
    elif [ ! -d "$folder" ]; then
        put "there is no folder $(quoted "$folder")."
    elif [ ! -w "$folder" ]; then
        put "you have no permission to create a file in the folder $(quoted "$folder")."
    else
        put 'the system refused the write.'
    fi
}

# Faults of texts and images.

# A fault of a program is explained by the program itself: `said` has what its `explain` prints, or is empty where it was not asked or accepts the
# program, as with Bits and Latency at another age. The line of other faults is `TEXT START-STOP: FAULT`, or `TEXT: FAULT` with numbers after the
# fault's name. The first line of what is shown is of the form that editors read: FILE:LINE:COLUMN: error: KIND: SENTENCE.
explain_fault() {
    [ -z "${said-}" ] || {
        put "$said"
        return
    }
    sentence=
    [ -z "$line" ] || read_fault
    [ -n "$sentence" ] || {
        put "$docs/COMMANDS.md (\"What to do about a fault\") has the kinds of faults."
        return
    }
    number=
    if [ -n "${file+set}" ]; then
        find_fault
        put "$(printf '%s' "$file" | shown):${number:+$number:$column:} error: ${fault%% *}: $sentence"
        [ -z "$number" ] || show_place "${span#*-}"
    else
        put "$sentence"
    fi
}

# read_fault: the parts of the fault line, the file that it is about, and its sentence
read_fault() {
    text=${line%%[ :]*}
    span=${line%%:*}
    span=${span#"$text"}
    span=${span# }
    fault=${line#*: }
    case $text in
    program | widen) set_file PROG ;;
    verilog | stopped) set_file VERILOG ;;
    image) set_file IN ;;
    report) set_file REPORT ;;
    esac
    # The fault is split at its blanks, into its name and its numbers.
    sentence=$(meaning "$text" $fault)
    [ "$text" != image ] || sentence=$(with_size $fault)
}

# find_fault: the place of the fault in the file
find_fault() {
    if [ -n "$span" ]; then
        find_place "${span%-*}"
    else
        case $fault in
        line*) find_line "${fault#line }" ;;
        esac
    fi
}

# with_size FAULT NUMBER..: the sentence on images; of Size it has the program's own size, which the first words of its text are
with_size() {
    if [ "$1" = Size ] && [ -n "${program+set}" ] && [ -f "$program" ]; then
        size=$(head -c 4096 <"$program" | sed 's/--.*//' | tr '\n\t\r' '   ' | sed -n 's/^ *size *\([0-9]*\) *\([0-9]*\) .*/\1 by \2/p')
        [ -z "$size" ] || {
            put "The program wants images of $size pixels, and this one has $2 by $3."
            return
        }
    fi
    meaning image "$@"
}

# find_place START: `number` and `column` are those of this byte of the file, and `first` is the byte from which its line is shown
find_place() {
    start=$1
    [ -f "$file" ] && [ -r "$file" ] && [ "$start" -le "$(wc -c <"$file")" ] || return
    number=$(($(head -c "$start" <"$file" | wc -l) + 1))
    before=$(($(head -c "$start" <"$file" | tail -n "+$number" | wc -c)))
    column=$(($(head -c "$start" <"$file" | tail -n "+$number" | tr -d '\200-\277' | wc -c) + 1))
    # A long line is shown from 40 bytes before the span.
    cut=
    first=$((start - before))
    [ "$before" -le 80 ] || {
        cut='.. '
        first=$((start - 40))
    }
}

# find_line NUMBER: the same of this line of the file, if it has one
find_line() {
    [ -f "$file" ] && [ -r "$file" ] || return
    start=$(($(head -n "$(($1 - 1))" <"$file" | wc -c)))
    [ "$start" -lt "$(wc -c <"$file")" ] || return
    number=$1
    column=1
    cut=
    first=$start
}

# show_place [STOP]: the line of a place, and carets below it up to this byte
show_place() {
    more=
    [ "$(window | wc -c)" -lt 100 ] || more=' ..'
    put "$(printf '%4d' "$number") | $cut$(window | shown)$more"
    [ -n "$span" ] || return 0
    indent=$(window | head -c "$((start - first))" | shown | tr -d '\200-\277' | tr '\000-\377' '[ *]')
    carets=$(window | tail -c "+$((start - first + 1))" | head -c "$(($1 - start))" | shown | tr -d '\200-\277' | tr '\000-\377' '[^*]')
    put "     | ${cut:+   }$indent${carets:-^}"
}

# The bytes of the line from `first` on, 100 at most. A TAB is one blank, as it is one column.
window() {
    tail -c "+$((first + 1))" <"$file" 2>/dev/null | head -c 100 | head -n 1 | tr -d '\n' | tr '\t' ' '
}

quoted() {
    put "\`$(shown_word "$1")\`"
}

shown_word() {
    printf '%s' "$1" | head -c 200 | shown
    [ "${#1}" -le 200 ] || printf ' ..'
}

is_utf8() {
    [ -z "$(printf '%s' "$1" | {
        shown >/dev/null
        printf '%s' "$spoiled"
    })" ]
}

# Standard input as a terminal can show it: without ends of lines, and with `?` for each other control character, for each byte that is not part
# of a character of UTF-8, and for characters that reorder a line or are not visible.
shown() {
    held=
    held_bytes=
    clean=
    spoiled=
    for byte in $(od -A n -v -t o1); do
        take_byte "$byte"
    done
    drop_held
    printf '%b' "$clean"
}

# take_byte OCTAL: `held` has the octal digits of a character that is not whole yet.
take_byte() {
    case $held$1 in
    012 | 015) ;;
    # These are C1 controls, U+00AD, U+034F, U+061C; fillers of Hangul and vowels of Khmer without a form; selectors of Mongolian; U+200B to
    # U+200F, U+2028 to U+202E, U+2060 to U+206F; a filler, variation selectors, U+FEFF, a filler, U+FFF0 to U+FFFB; formats of shorthand
    # and of music; tags and more selectors, U+E0000 to U+E0FFF.
    3022[0-3]? | 302255 | 315217 | 330234 | 341205237 | 341205240 | 34123626[45] | 34124021[3-7] | \
        34220021[3-7] | 34220025[0-6] | 3422012[45]? | \
        343205244 | 3572702[01]? | 357273277 | 357276240 | 35727726? | 35727727[0-3] | \
        36023326224[0-3] | 36023520526[3-7] | 36023520527[0-2] | 3632402??2??)
        clean="$clean?" held= held_bytes=
        ;;
    0[4-7]? | 1[0-6]? | 17[0-6] | 3022[4-7]? | 30[3-7]2?? | 3[1-3]?2?? | 3[45]?2??2?? | 36?2??2??2??)
        clean="$clean$held_bytes\\0$1" held= held_bytes=
        ;;
    30[2-7] | 3[1-5]? | 36[0-4] | 3402[4-7]? | 34[1-7]2?? | 35[0-467]2?? | 3552[0-3]? | 3602[2-7]? | 36[1-3]2?? | 3642[01]? | 36?2??2??)
        held=$held$1 held_bytes="$held_bytes\\0$1"
        ;;
    [23]??) clean="$clean?" spoiled=yes ;;
    ???) clean="$clean?" ;;
    *) drop_held && take_byte "$1" ;;
    esac
}

# drop_held: these bytes are the beginning of a character that does not go on.
drop_held() {
    spoiled=$spoiled$held
    case ${#held} in
    3) clean="$clean?" ;;
    6) clean="$clean??" ;;
    9) clean="$clean???" ;;
    esac
    held=
    held_bytes=
}

# The folder of an installed page can have any name.
[ "$docs" = docs ] || docs=$(printf '%s' "$docs" | shown)
