# Writes the help of the script dk to standard output. tools/dk/answer.sh sources this file for words that ask for help.
# shellcheck shell=sh disable=SC1091,SC2154

. "${top:?}/tools/dk/explain.sh"

# help HELP [COMMAND]: the page of all commands, or the help of one
help() {
    LC_ALL=C
    export LC_ALL
    if [ $# -gt 2 ]; then
        put "$(quoted "$3") is one word too many. help expects the name of a command, or nothing. $see_help" >&2
        return 2
    fi
    case ${2-} in
    '' | help | --help | -h | --version) help_page ;;
    *) help_on "$2" ;;
    esac
}

help_on() {
    command=$1
    wrong=
    find_command || {
        put "$wrong" >&2
        return 2
    }
    awk -v command="$command" -v called="$called" -f "$top/tools/dk/help.awk" "$page" 2>/dev/null || {
        help_page
        return
    }
    printf '\nMore: %s/COMMANDS.md.\n' "$docs"
}
