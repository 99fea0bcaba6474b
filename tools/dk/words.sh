# The words of a call of dk, for tools/dk/explain.sh: what each is, and which is wrong; and the help page.
# `called` is the script's name for its caller, and `docs` is the folder of the pages, as both are shown.

commands='run compile nets plan sim eval make check trace cut narrow widen explain'
see_help="\`${called:?} --help\` shows the commands and options."
case ${docs:?} in
*/..*) docs=$(CDPATH='' cd -- "$docs" 2>/dev/null && pwd) || docs=docs ;;
esac

# read_words COMMAND WORD..: sets a variable for each word but --enable and --block; `wrong` is a sentence on the first wrong word.
read_words() {
    unset program verilog images report out clocks count age hold fill
    wrong=
    given=
    command=${1-}
    find_command || return
    expected=$names
    shift
    while [ $# -gt 0 ] && [ "$1" != -- ]; do
        case $1 in
        --age | --block | --fill | --hold)
            take_next_value "$@"
            [ $# -lt 2 ] || shift
            ;;
        --enable) take_option "$1" '' ;;
        --*=*) take_option "${1%%=*}" "${1#*=}" "$1" ;;
        -?*) take_option "$1" '' ;;
        *) take_word "$1" ;;
        esac
        shift
    done
    [ $# -eq 0 ] || shift
    for word in "$@"; do
        take_word "$word"
    done
    [ -z "$names" ] || note_wrong "Missing: $names. $command expects $expected."
    compare_words
}

# find_command: the names of the words that the command expects, and its options.
find_command() {
    options=
    case $command in
    run) names='PROG IN OUT' options='--age' ;;
    compile) names='PROG OUT' options='--enable --age --block' ;;
    nets) names='PROG' options='--enable --age --block' ;;
    plan) names='PROG' options='--age' ;;
    sim) names='VERILOG CLOCKS IN OUT' options='--fill --hold' ;;
    eval) names='PROG IN OUT' ;;
    make) names='N' ;;
    check) names='PROG REPORT' ;;
    trace) names='VERILOG CLOCKS IN VCD' ;;
    cut) names='N PROG OUT' ;;
    narrow) names='PROG OUT' ;;
    widen) names='P PROG OUT' ;;
    explain) names='PROG' ;;
    '') note_wrong "The command is missing. $see_help" && return 1 ;;
    -*) note_wrong "The command comes first, but $(quoted "$command") begins with a hyphen. $see_help" && return 1 ;;
    *) note_wrong "There is no command $(quoted "$command"). The commands are: $commands. $see_help" && return 1 ;;
    esac
}

note_wrong() {
    [ -n "$wrong" ] || wrong=$1
}

# take_next_value OPTION [WORD..]: the option with the next word as its value.
take_next_value() {
    case ${2+given}${2-} in
    given- | given[!-]* | given) take_option "$1" "$2" ;;
    '') has_option "$1" && note_wrong "The value of $1 is missing." ;;
    *) has_option "$1" && note_wrong "The value of $1 is missing: $(quoted "$2") begins with a hyphen." ;;
    esac
}

has_option() {
    case " $options " in
    *" $1 "*) return 0 ;;
    esac
    note_wrong "$command has no option $(quoted "$1")${options:+; it has: $options}. Write \`--\` before a file name that begins with a hyphen. $see_help"
    return 1
}

# take_option OPTION VALUE [WORD]: WORD is the whole word where the value is part of it.
take_option() {
    has_option "$1" || return
    case " $given " in
    *" $1 "*) note_wrong "$1 is given twice." ;;
    esac
    given="$given $1"
    case $1 in
    --age) age=$2 ;;
    --hold) hold=$2 ;;
    --fill) fill=$2 ;;
    esac
    case $1 in
    --age) is_within "$2" 0 64 || note_wrong "The value of --age is a number from 0 to 64, but is $(quoted "$2")." ;;
    --block) is_within "$2" 2 67108864 || note_wrong "The value of --block is a number from 2 to 67,108,864, but is $(quoted "$2")." ;;
    --hold) is_within "$2" 1 1000000 || note_wrong "The value of --hold is a number from 1 to 1,000,000, but is $(quoted "$2")." ;;
    --fill) [ "$2" = zeros ] || [ "$2" = ones ] || note_wrong "The value of --fill is \`zeros\` or \`ones\`, but is $(quoted "$2")." ;;
    --enable) [ -z "${3-}" ] || note_wrong "--enable has no value." ;;
    esac
}

take_word() {
    case $names in
    PROG*) program=$1 ;;
    VERILOG*) verilog=$1 ;;
    IN*) images=$1 ;;
    REPORT) report=$1 ;;
    OUT | VCD) out=$1 ;;
    CLOCKS*) clocks=$1 ;;
    N* | 'P '*) count=$1 ;;
    esac
    case $names in
    CLOCKS*) is_within "$1" 0 100000000 || note_wrong "CLOCKS is a number from 0 to 100,000,000, but is $(quoted "$1")." ;;
    N) is_within "$1" 0 4194303 || note_wrong "N is a number from 0 to 4,194,303, but is $(quoted "$1")." ;;
    N*) is_within "$1" 1 64 || note_wrong "N is a number from 1 to 64, but is $(quoted "$1")." ;;
    'P '*) is_within "$1" 2 8 || note_wrong "P is a number from 2 to 8, but is $(quoted "$1")." ;;
    '') note_wrong "$(quoted "$1") is one word too many. $command expects $expected." ;;
    esac
    case $names in
    *' '*) names=${names#* } ;;
    *) names= ;;
    esac
}

# is_within WORD LOW HIGH: the word is decimal digits, and their value is in the range.
is_within() {
    case $1 in
    '' | *[!0123456789]*) return 1 ;;
    esac
    number=${1#"${1%%[!0]*}"}
    [ "${#number}" -le 9 ] && [ "${number:-0}" -ge "$2" ] && [ "${number:-0}" -le "$3" ]
}

compare_words() {
    for name in PROG VERILOG IN; do
        set_file "$name"
        if [ -n "${out+set}" ] && [ -n "${file+set}" ] && [ "$file" = "$out" ]; then
            note_wrong "${expected##* } is the same word as $name: $(quoted "$out"). Write the output to a file of its own."
        fi
    done
}

# set_file NAME: `file` is the word of that name; it is unset where the command has none.
set_file() {
    unset file
    case $1 in
    PROG) [ -z "${program+set}" ] || file=$program ;;
    VERILOG) [ -z "${verilog+set}" ] || file=$verilog ;;
    IN) [ -z "${images+set}" ] || file=$images ;;
    REPORT) [ -z "${report+set}" ] || file=$report ;;
    esac
}

# help_page: a line for each command and each option, to standard output.
help_page() {
    cat <<end
usage: $called COMMAND [OPTION..] WORD..

  compile PROG OUT             write the Verilog of a program
  run PROG IN OUT              clock that circuit over images
  eval PROG IN OUT             compute the same pictures without a circuit
  plan PROG                    print delays and buffer bits, proved minimal
  nets PROG                    print which net of the Verilog is which image
  check PROG REPORT            check what plan printed
  sim VERILOG CLOCKS IN OUT    clock a Verilog text over images
  trace VERILOG CLOCKS IN VCD  clock a Verilog text, write a value change dump
  cut N PROG OUT               divide bodies of more than N levels of operators
  narrow PROG OUT              store images in fewer bits, where values allow it
  widen P PROG OUT             write a program of P pixels a clock
  explain PROG                 print the faults of a program, with what helps
  make N                       make a program from a number, and run it
  help [COMMAND]               print this page, or the help of a command
  --version                    print the version, the kit and the sources

  --age K      compile, nets, run, plan: reads at least K clocks old, 0 to 64
  --enable     compile, nets: the module has a clock enable, the port en
  --block N    compile, nets: arrays of N or more words fit block RAM,
               2 to 67,108,864
  --fill FILL  sim: registers and memories start as zeros (default) or ones
  --hold K     sim: a held clock after every K clocks, 1 to 1,000,000
  --help, -h   print the help of the command before it, or this page
  --           ends the options; a later word may begin with a hyphen

PROG is a program (LANGUAGE.md), IN a file of PGM images (PGM.md).
CLOCKS is 0 to 100,000,000. N of make is 0 to 4,194,303, N of cut 1 to 64,
P 2 to 8.
DK_EXPLAIN in the environment is always, never or auto: whether a fault is
explained below its line. auto: if standard error is a terminal.
More: $docs/COMMANDS.md.
end
}
