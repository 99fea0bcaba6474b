#!/bin/sh
# Installs dk below a prefix: the program that was built from these sources, the script that calls it, its man page, completions, files for
# editors, pages, examples, and the scripts of tools/ that users call. It replaces what it installed there before.
# usage: tools/install.sh [--prefix FOLDER] [--dest FOLDER] [--uninstall]
#   --prefix FOLDER   the folder in which dk will be used, from the root on; without it /usr/local
#   --dest FOLDER     a folder before the prefix, to make a package in; without it $DESTDIR, or none
#   --uninstall       removes exactly what was installed there
#
# PREFIX/lib/dk/installed lists what was installed: the line `prefix PREFIX`, and then a line `folder PATH` or `file PATH` for each, in the
# order in which they were made. A folder is in the list only if this script made it. A file that is not in the list is of others: it is never
# replaced and never removed.
#
# All files are made in a new folder, PREFIX/lib/dk/new.XXXXXX, and then put in place by renames. If one cannot be, those before it are taken
# back. While this is under way the list has the files of before, the new ones and those of the new folder: should the system end this script,
# the next call removes what is left.
top=$(CDPATH='' cd -- "$(dirname -- "$0")/.." && pwd) || exit 2
umask 022
newline='
'

# The pages for users of the program.
pages='CIRCUIT COMMANDS CUT EDITORS GALLERY HARDWARE LANGUAGE PGM PICTURES PIPELINES PROMISES REPORT VERILOG WIDEN'

# The scripts that the pages show to users, and the modules of these.
scripts='axis kept.py look names.py phases.py plan.py png.py waves'

# (a folder may have control characters in its name)
say() {
    printf '%s' "$*" | LC_ALL=C tr '\000-\037\177' '[?*]'
    echo
}

fail() {
    say "install: $*" >&2
    exit 1
}

usage() {
    sed -n '/^# usage/,/^#$/s/^# \{0,1\}//p' "$0" >&2
    exit 2
}

# read_options WORD..: sets `prefix`, `dest` and `is_removal`
read_options() {
    prefix=/usr/local
    dest=${DESTDIR-}
    is_removal=
    while [ $# -gt 0 ]; do
        case $1 in
        --prefix | --dest) [ $# -gt 1 ] || usage ;;
        esac
        case $1 in
        --prefix) prefix=$2 && shift ;;
        --prefix=*) prefix=${1#*=} ;;
        --dest) dest=$2 && shift ;;
        --dest=*) dest=${1#*=} ;;
        --uninstall) is_removal=yes ;;
        *) usage ;;
        esac
        shift
    done
    case $prefix$dest in
    *"$newline"*) fail 'a folder may not have an end of line in its name' ;;
    esac
    case $prefix in
    /*) prefix=${prefix%"${prefix##*[!/]}"} ;;
    *) fail 'the prefix must begin with /' ;;
    esac
    case $prefix/ in
    */./* | */../*) fail 'the prefix may not go through . or ..' ;;
    esac
    case $dest in
    '' | /*) ;;
    *) dest=$PWD/$dest ;;
    esac
}

# paths KIND LIST: the paths of this kind in a list
paths() {
    printf '%s\n' "$2" | sed -n "s/^$1 //p"
}

# is_inside PATH: this path of a list is below the prefix, or the prefix is below it
is_inside() {
    case $1/ in
    */../* | */./*) return 1 ;;
    "$prefix"/*) return 0 ;;
    esac
    case $prefix/ in
    "$1"/*) return 0 ;;
    esac
    return 1
}

# has_file LIST PATH: the list has this file
has_file() {
    case $newline$1$newline in
    *"${newline}file $2$newline"*) return 0 ;;
    esac
    return 1
}

# remove_files LIST [KEPT]: removes the files of the list that the second list does not have, and what Python has compiled of them
remove_files() {
    paths file "$1" | (
        status=0
        while IFS= read -r path; do
            is_inside "$path" && ! has_file "${2-}" "$path" || continue
            rm -f -- "$dest$path" 2>/dev/null || status=1
            case $path in
            *.py)
                name=${path##*/}
                cache=$dest${path%/*}/__pycache__
                rm -f -- "$cache/${name%.py}".*.pyc
                rmdir -- "$cache" 2>/dev/null
                ;;
            esac
        done
        exit "$status"
    )
}

# remove_folders LIST: removes the folders that are empty, from the last to the first. A folder may have files of others.
remove_folders() {
    paths folder "$1" | tac | while IFS= read -r path; do
        ! is_inside "$path" || rmdir -- "$dest$path" 2>/dev/null
    done
}

# make_folder PATH: makes this folder and those above it, and notes each one that it made
make_folder() {
    [ -n "$1" ] && [ ! -d "$dest$1" ] || return 0
    make_folder "${1%/*}" && mkdir -- "$dest$1" 2>/dev/null && made="$made${newline}folder $1"
}

# stage_folder FOLDER: makes this folder of the prefix in the new folder, and a second one for what it replaces
stage_folder() {
    mkdir -p -- "$stage/new/$1" "$stage/old/$1" 2>/dev/null || fail "cannot make a folder in $stage"
}

# put MODE FILE PATH: makes this file of the checkout ready for PREFIX/PATH
put() {
    stage_folder "${3%/*}"
    files="$files${newline}file $prefix/$3"
    install -T -m "$1" -- "$top/$2" "$stage/new/$3" 2>/dev/null || fail "cannot copy $top/$2"
}

# put_all FOLDER FILE..: makes these files ready for PREFIX/FOLDER
put_all() {
    folder=$1
    stage_folder "$folder"
    shift
    for file; do
        files="$files${newline}file $prefix/$folder/${file##*/}"
    done
    install -m 644 -t "$stage/new/$folder" -- "$@" 2>/dev/null || fail "cannot copy the files of $folder"
}

put_program() {
    put 755 "$built" lib/dk/bin/dk
    put 644 "$built.txt" lib/dk/bin/dk.txt
    put 644 VERSION lib/dk/VERSION
    for name in answer.sh explain.sh faults.sh follow.sh help.awk help.sh progress.sh words.sh; do
        put 644 "tools/dk/$name" "lib/dk/tools/dk/$name"
    done
    put 755 tools/dk/installed.sh bin/dk
}

put_texts() {
    put 644 docs/dk.1 share/man/man1/dk.1
    put 644 tools/dk/completions/dk.bash share/bash-completion/completions/dk
    put 644 tools/dk/completions/_dk share/zsh/site-functions/_dk
    put 644 tools/dk/completions/dk.fish share/fish/vendor_completions.d/dk.fish
    for kind in compiler ftdetect ftplugin syntax; do
        put 644 "editors/vim/$kind/dk.vim" "share/dk/editors/vim/$kind/dk.vim"
    done
    put_all share/dk/editors/vscode "$top"/editors/vscode/*.json
    put_all share/dk/editors/vscode/syntaxes "$top"/editors/vscode/syntaxes/*
}

# put_pages: pages, and all that they refer to by its place in the checkout: examples, scripts, and `./dk`
put_pages() {
    put 644 CHANGELOG.md share/doc/dk/CHANGELOG.md
    for page in $pages; do
        put 644 "docs/$page.md" "share/doc/dk/docs/$page.md"
    done
    put_all share/doc/dk/docs/gallery "$top"/docs/gallery/*
    put_all share/doc/dk/examples "$top"/examples/README.md "$top"/examples/bench.v
    for folder in pipelines programs sim verilog; do
        put_all "share/doc/dk/examples/$folder" "$top/examples/$folder"/*
    done
    put_all share/doc/dk/tests/waves "$top"/tests/waves/*
    for name in $scripts; do
        put 755 "tools/$name" "share/doc/dk/tools/$name"
    done
    files="$files${newline}file $prefix/share/doc/dk/dk"
    ln -s ../../../bin/dk "$stage/new/share/doc/dk/dk" 2>/dev/null || fail "cannot make a link in $stage"
}

# write_list LINES: replaces the list as a whole
write_list() {
    printf '%s\n' "$1" >"$stage/list" && mv -fT -- "$stage/list" "$list"
} 2>/dev/null

# staged_lines: the lines of all that is in the new folder, and of what may come into it
staged_lines() {
    inside=$prefix/lib/dk/${stage##*/}
    echo "folder $inside"
    find "$stage" -mindepth 1 -type d -printf '%P\n' | while IFS= read -r path; do
        echo "folder $inside/$path"
    done
    paths file "$files" | while IFS= read -r path; do
        echo "file $inside/new/${path#"$prefix/"}"
        echo "file $inside/old/${path#"$prefix/"}"
    done
    echo "file $inside/list"
}

# judge_place PATH: a file of others, or a folder, is not replaced
judge_place() {
    if [ -d "$dest$1" ] && [ ! -L "$dest$1" ]; then
        fail "a folder is in the place of $dest$1"
    fi
    [ ! -e "$dest$1" ] && [ ! -L "$dest$1" ] || has_file "$before" "$1" || fail "$dest$1 is not of dk, so nothing is installed"
}

# place PATH: puts this file in its place. What it replaces is kept until all are in place.
place() {
    inner=${1#"$prefix/"}
    make_folder "${1%/*}" || fail "cannot make the folder $dest${1%/*}"
    if [ -e "$dest$1" ] || [ -L "$dest$1" ]; then
        ln -P -- "$dest$1" "$stage/old/$inner" 2>/dev/null || cp -pP -- "$dest$1" "$stage/old/$inner" 2>/dev/null || fail "cannot keep $dest$1"
        option=-fT
    else
        option=-nT
    fi
    placed="$placed$1$newline"
    # (`-n` ends with status 0 also where a file has come there meanwhile)
    mv "$option" -- "$stage/new/$inner" "$dest$1" 2>/dev/null && [ ! -e "$stage/new/$inner" ] && [ ! -L "$stage/new/$inner" ] ||
        fail "cannot install $dest$1"
}

# take_back: makes all as it was before this call
take_back() {
    printf '%s' "$placed" | while IFS= read -r path; do
        inner=${path#"$prefix/"}
        # (a file that is still in the new folder was not put in place)
        if [ -e "$stage/new/$inner" ] || [ -L "$stage/new/$inner" ]; then
            continue
        elif [ -e "$stage/old/$inner" ] || [ -L "$stage/old/$inner" ]; then
            mv -fT -- "$stage/old/$inner" "$dest$path"
        else
            rm -f -- "$dest$path"
        fi
    done
    if [ -n "$before" ]; then
        write_list "$before"
    elif [ -n "$is_listed" ]; then
        rm -f -- "$list"
    fi
    [ -z "$stage" ] || rm -rf -- "$stage"
    remove_folders "$made"
}

missing=
for tool in cat cp cut dirname find install ln mkdir mktemp mv rm rmdir sed sha256sum sort tac tr xargs; do
    command -v "$tool" >/dev/null || missing="$missing $tool"
done
[ -z "$missing" ] || {
    echo "install: missing tools:$missing" >&2
    exit 1
}
read_options "$@"
list=$dest$prefix/lib/dk/installed
before=
[ ! -f "$list" ] || before=$(cat -- "$list") || exit 1
[ -z "$before" ] || [ "${before%%"$newline"*}" = "prefix $prefix" ] || fail "$list is of another prefix"
if [ -n "$is_removal" ]; then
    [ -n "$before" ] || fail "nothing is installed: there is no $list"
    # (the list is the last file: where another one stays, the next call removes it)
    remove_files "$before" "file $prefix/lib/dk/installed" || fail 'not all files could be removed'
    rm -f -- "$list" 2>/dev/null || fail "cannot remove $list"
    remove_folders "$before"
    exit 0
fi

# shellcheck source=tools/dk/sources.sh
CDPATH='' cd -- "$top" && . tools/dk/sources.sh || exit 2
built=bin/dk
is_of_sources bin/dk || {
    built=build/dk
    is_of_sources build/dk
} || {
    [ "$?" != 2 ] || fail 'the checksums of the sources or of the program cannot be computed'
    fail 'neither bin/dk nor build/dk was built from these sources (docs/BUILDING.md)'
}
[ -z "$dest" ] || mkdir -p -- "$dest" || exit 1
made=
files=
placed=
stage=
is_listed=
trap '[ "$?" = 0 ] || take_back' EXIT
trap 'exit 130' INT TERM HUP
make_folder "$prefix/lib/dk" || fail "cannot make the folder $dest$prefix/lib/dk"
stage=$(mktemp -d "$dest$prefix/lib/dk/new.XXXXXX" 2>/dev/null) || fail "cannot make a folder in $dest$prefix/lib/dk"
put_program
put_texts
put_pages
files="$files${newline}file $prefix/lib/dk/installed"
# (in this shell, which a failure ends)
while IFS= read -r path; do
    judge_place "$path"
done <<end
$(paths file "$files")
end
is_listed=yes
write_list "prefix $prefix$made$newline${before#*"$newline"}$files$newline$(staged_lines)" || fail "cannot write $list"
while IFS= read -r path; do
    [ "$path" = "$prefix/lib/dk/installed" ] || place "$path"
done <<end
$(paths file "$files")
end
# From here on the new installation is whole, and what is left of the one before is removed.
trap - EXIT
remove_files "$before" "$files" || fail 'not all files of before could be removed'
remove_folders "$before"
kept=$(paths folder "$before" | while IFS= read -r path; do [ ! -d "$dest$path" ] || echo "folder $path"; done)
write_list "prefix $prefix${kept:+$newline$kept}$made$files" || fail "cannot write $list"
rm -rf -- "$stage"
say "dk $(cat VERSION) is installed: $dest$prefix/bin/dk"
