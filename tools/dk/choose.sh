# Sourced by ./dk in the top folder, in a subshell: prints which program was built from exactly these sources, bin/dk or build/dk. If none
# was, it says what differs and ends with status 1. It builds nothing.
#
# build/known names the program that was found last, and a digest of the list of all files that this rests on, with the inode and the change
# time of each. Nobody can set a change time, and a copy has other inodes. While the digest is the same, nothing is summed.

newline='
'
# How many seconds a call waits for another one that sums. One that is stopped cannot hold up the others for longer.
patience=20

# listed WORD..: `find` with these words over all that the choice rests on; what it cannot read is a line too
listed() {
    set -- crates/*/src crates/*/specs crates/*/proofs "$@"
    for file in build/dk.txt build/dk bin/dk.txt bin/dk; do
        [ ! -e "$file" ] || set -- "$file" "$@"
    done
    LC_ALL=C find -L dk tools/dk/choose.sh tools/dk/sources.sh crates.txt "$@" 2>&1
}

digest() {
    listed -printf '%D %i %s %C@ %p\0' | sha256sum
}

# is_noted: build/known has the program of the digest `now`. The file of another user may be private.
is_noted() {
    { [ -f build/known ] && read -r program known <build/known; } 2>/dev/null && [ -n "$known" ] && [ "$known" = "$now" ] || return
    [ "$program" = bin/dk ] || [ "$program" = build/dk ]
}

# can_note: this user may write build/known, and all files are on file systems of this machine, which show each change at once. `stat` asks the
# system for the kind of each device; `find` would need /proc.
can_note() {
    { [ -w build ] || { [ ! -e build ] && [ -w . ]; }; } || return
    kinds=$(listed -printf '%D %p\0' | LC_ALL=C sort -z -u -k 1,1 | cut -z -d ' ' -f 2- | xargs -0 stat -f -c %T --)
    for kind in ${kinds:-none}; do
        case $kind in
        ext2 | ext2/ext3 | xfs | btrfs | f2fs | zfs | tmpfs | overlayfs) ;;
        *) return 1 ;;
        esac
    done
}

# is_settled: nothing changed while the sums were taken, nor in the two seconds before, within which a second change could have the same time
is_settled() {
    [ -z "$(listed -newerct "@$((begun - 2))" -print -quit)" ] && [ "$(digest)" = "$now" ]
}

# note: writes build/known as a whole, or leaves it as it is. `mktemp` makes a private file; `chmod` gives it the mode of any new file.
note() {
    mkdir -p build && new=$(mktemp build/known.XXXXXX) || return
    { echo "$program $now" >"$new" && chmod '=rw' "$new" && mv -fT "$new" build/known; } || rm -f "$new"
}

# choose: sets `program` to the one that was built from these sources. Status 1: there is none. Status 2: a sum could not be computed.
choose() {
    sources=$(sum_of_all) || return
    for program in bin/dk build/dk; do
        is_described "$program" "$sources" && return
        [ "$?" != 2 ] || return 2
    done
    return 1
}

# is_noted_by_other: one call sums at a time, and the others wait for what it notes. The descriptor 8 is crates.txt, open for reading: a lock on it
# needs no file of its own, and the system takes it back from a call that is ended. Without `flock` no call waits.
is_noted_by_other() {
    if flock -n 8; then
        is_noted
    else
        flock -w "$patience" 8 && { is_noted || { now=$(digest) && is_noted; }; }
    fi
} 2>/dev/null

# find_program: prints the program
find_program() {
    ! is_noted_by_other || {
        echo "$program"
        return
    }
    is_notable=
    if can_note 2>/dev/null; then
        is_notable=yes
    else
        # (nobody need wait for a call that notes nothing)
        flock -u 8 2>/dev/null
    fi
    begun=$(date +%s 2>/dev/null)
    choose 2>/dev/null || return
    echo "$program"
    # (in a subshell, since a limit on the size of files can end it)
    ([ -z "$is_notable" ] || ! is_settled || note) >/dev/null 2>&1
    return 0
}

# differing: the crates whose sources are not those of the shipped program
differing() {
    source_lines | while read -r name sum; do
        [ "$name" = sources ] || [ "$(value_of "$name" bin/dk.txt)" = "$sum" ] || echo "$name"
    done
}

# visible: standard input with `?` for control characters
visible() {
    LC_ALL=C tr '\000-\037\177' '[?*]'
}

# say_why STATUS: why there is no program
say_why() {
    if [ "$1" = 2 ]; then
        reason=$({ choose >/dev/null; } 2>&1)
        reason=$(printf '%s' "${reason%%"$newline"*}" | tr -s / | visible)
        echo "dk: the checksums of the sources or of the program cannot be computed: ${reason:-try again}"
        return
    fi
    names=$(differing 2>/dev/null | tr '\n' ' ' | visible)
    if [ ! -f bin/dk ] || [ ! -f bin/dk.txt ]; then
        echo 'dk: there is no bin/dk with its text bin/dk.txt, and no build/dk was built from these sources'
    elif [ -n "$names" ]; then
        echo "dk: neither bin/dk nor build/dk was built from these sources. They differ from those of bin/dk in: ${names% }"
    else
        echo 'dk: bin/dk is not the program that bin/dk.txt describes, and no build/dk was built from these sources'
    fi
    echo 'dk: to build it, run tools/build.py, which proves all crates and takes hours (docs/BUILDING.md)'
}

now=$(digest 2>/dev/null)
if is_noted; then
    echo "$program"
    exit
fi
. tools/dk/sources.sh
# (a redirection that fails would say so, and its status depends on the shell)
status=2
[ ! -r crates.txt ] || {
    find_program 8<crates.txt
    status=$?
}
[ "$status" = 0 ] || {
    say_why "$status" >&2
    exit 1
}
