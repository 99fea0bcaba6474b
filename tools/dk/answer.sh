# Sourced by the script dk: answers the words for help and for the version, which the program does not have.
# `top` is the folder of tools/ and VERSION, `called` is the script's name for its caller, `docs` has the pages, and `page` is the man page.
# shellcheck shell=sh disable=SC2154,SC2167

# answer_help WORD..: ends the script if the words ask for help: `help`, `--help` or `-h` first, or `--help` or `-h` after a command and
# before `--`, where each of them is Usage for the program. A file may have the name `help`.
answer_help() {
    topic=${1-}
    case $topic in
    help | --help | -h)
        . "$top/tools/dk/help.sh"
        help "$@"
        exit
        ;;
    esac
    for word; do
        case $word in
        --) return ;;
        --help | -h)
            . "$top/tools/dk/help.sh"
            help help "$topic"
            exit
            ;;
        esac
    done
}

# answer_version WORD..: ends the script if the first word is `--version`. `built` is the program, which the text beside it describes.
answer_version() {
    [ "${1-}" = --version ] || return 0
    read -r version <"$top/VERSION" && [ -r "$built.txt" ] || exit 1
    echo "dk $version"
    while read -r word rest; do
        case $word in
        kit | sources) printf '%s %s\n' "$word" "$rest" ;;
        esac
    done <"$built.txt"
    exit
}
