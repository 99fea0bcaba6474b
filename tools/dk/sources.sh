# What determines the program, to be sourced in the top folder: crates.txt, and src/, specs/ and proofs/ of dk and of each crate below it.

# The crates of crates.txt that dk stands on, and dk itself, in the order of the file.
crates_of_dk() {
    wanted=' dk '
    before=
    while [ "$wanted" != "$before" ]; do
        before=$wanted
        while IFS=: read -r name deps; do
            case $wanted in
            *" $name "*) for dep in $deps; do
                case $wanted in
                *" $dep "*) ;;
                *) wanted="$wanted$dep " ;;
                esac
            done ;;
            esac
        done <crates.txt
    done
    while IFS=: read -r name deps; do
        case $wanted in
        *" $name "*) echo "$name" ;;
        esac
    done <crates.txt
}

# unsummed CRATE..: what sums_of would pass over: what is not a regular file, and what is deeper than its patterns reach. Names that begin
# with a dot are not part of a crate.
unsummed() {
    for crate; do
        shift
        set -- "$@" "crates/$crate/src" "crates/$crate/specs" "crates/$crate/proofs"
    done
    find -L "$@" -name '.*' -prune -o ! -type f ! -type d -print -o -path '*/*/*/*/*/*/*/*/*/*' -print 2>/dev/null
}

# files_of CRATE..: the files of these crates, each followed by NUL, in the order of their sums: by crate, by src, specs and proofs, by depth, and
# by the bytes of the path. The last one is crates.txt, if `find` could read all folders. For `sort` each folder's path has one slash fewer than
# that of the folder before, since a slash is less than a letter.
files_of() {
    slashes=
    for crate; do
        slashes=$slashes///
    done
    for crate; do
        shift
        for part in src specs proofs; do
            if [ -e "crates/$crate/$part" ] || [ -L "crates/$crate/$part" ]; then
                set -- "$@" "crates/$slashes$crate/$part"
            fi
            slashes=${slashes#/}
        done
    done
    {
        if [ $# -gt 0 ]; then
            find -L "$@" -name '.*' -prune -o -type f -printf '%H\t%d\t%p\0'
        fi && printf 'last\t0\tcrates.txt\0'
    } | sort -z -t "$(printf '\t')" -k 1,1 -k 2,2n -k 3 | cut -z -f 3-
}

# The SHA-256 of each file of these crates, a line each as sha256sum prints it, in the order of the C locale. Status 1: a file would be passed
# over, so these sources have no sum. Status 2: the sums could not be computed, and a tool says why.
sums_of() (
    export LC_ALL=C
    [ $# -gt 0 ] && [ -z "$(unsummed "$@")" ] || exit 1
    lines=$(files_of "$@" | xargs -0 sha256sum) || exit 2
    case $lines in
    *'  crates.txt') printf '%s\n' "$lines" | sed -e '$d' -e 's://*:/:' || exit 2 ;;
    *) exit 2 ;;
    esac
)

# sum_of LINE..: the sum of these lines, or of none
sum_of() {
    sum=$(if [ $# -gt 0 ]; then printf '%s\n' "$@"; fi | sha256sum) && echo "${sum%% *}"
}

# The sum of all sources; its status is that of sums_of.
sum_of_all() {
    crates=$(crates_of_dk) && list=$(sha256sum crates.txt) || return 2
    # shellcheck disable=SC2086
    sums=$(sums_of $crates) || return
    sum_of "$list" "$sums" || return 2
}

# parts_of LINES CRATES: the name and the sum of each of these crates, of which there is one a line; LINES are those of sums_of
parts_of() (
    crates=$2
    set -f
    IFS='
'
    # shellcheck disable=SC2086
    set -- $1
    for crate in $crates; do
        part=
        while [ $# -gt 0 ]; do
            case ${1#* ?} in
            "crates/$crate/"*) part=$part${part:+$IFS}$1 ;;
            *) break ;;
            esac
            shift
        done
        echo "$crate $(sum_of ${part:+"$part"})"
    done
)

# The lines that tell the sources: the sum of all, that of crates.txt, and that of each crate. Where a file would be passed over, there is no sum
# of all, and that of its crate is the sum of no lines.
source_lines() {
    crates=$(crates_of_dk) && list=$(sha256sum crates.txt) || return 2
    # shellcheck disable=SC2086
    sums=$(sums_of $crates)
    status=$?
    [ "$status" != 2 ] || return 2
    echo "sources $([ "$status" != 0 ] || sum_of "$list" "$sums")"
    echo "crates.txt ${list%% *}"
    [ "$status" != 0 ] || {
        parts_of "$sums" "$crates"
        return
    }
    for crate in $crates; do
        sums=$(sums_of "$crate")
        [ "$?" != 2 ] || return 2
        echo "$crate $(sum_of ${sums:+"$sums"})"
    done
}

# program_lines FILE: what is told of a program that the kit which is installed here has built from these sources
program_lines() {
    echo "kit $(rt version)"
    echo "compiler $(compiler_of_kit)"
    echo "program $(sha256sum "$1" | cut -d ' ' -f 1)"
    source_lines
}

# The sum of the kit's compiler, which its file WHAT or KIT-ID names.
compiler_of_kit() {
    kit=$(dirname "$(rt doc)")
    cat "$kit/WHAT" "$kit/KIT-ID" 2>/dev/null | while read -r word sum; do
        [ "$word" != compiler ] || echo "$sum"
    done
}

# is_described FILE SUM: the text FILE.txt describes the program FILE, and sources with this sum. Status 2: the program could not be summed.
is_described() {
    [ -f "$1" ] && [ -f "$1.txt" ] && [ "$(value_of sources "$1.txt")" = "$2" ] || return 1
    sum=$(sha256sum "$1") || return 2
    [ "$(value_of program "$1.txt")" = "${sum%% *}" ]
}

# is_of_sources FILE: the program that the text FILE.txt describes is FILE, and was built from exactly these sources. Status 2: a sum that this
# needs could not be computed.
is_of_sources() {
    sources=$(sum_of_all) || return
    is_described "$1" "$sources" && [ -x "$1" ]
}

# value_of WORD FILE: what follows this word on its line
value_of() {
    while read -r word rest; do
        if [ "$word" = "$1" ]; then
            printf '%s\n' "$rest"
            return
        fi
    done <"$2"
}
