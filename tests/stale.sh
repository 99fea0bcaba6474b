#!/bin/sh
# Checks that ./dk never runs a program of other sources, in small checkouts with the scripts of this one, whose programs print a word.
# Says nothing where all is right, and else names each case.
# usage: tests/stale.sh
. "$(dirname -- "$0")/lib.sh" || exit 2
in_folder

# program FILE WORD: a program that prints the word, with the text that describes it as built from the sources of its checkout
program() {
    printf '#!/bin/sh\necho %s\n' "$2" >"$1"
    chmod +x "$1"
    (
        CDPATH='' cd -- "${1%/*}/.." && . tools/dk/sources.sh || exit 2
        echo "program $(sha256sum "${1##*/checkout/}" | cut -d ' ' -f 1)"
        source_lines
    ) >"$1.txt"
}

# runs CHECKOUT WORD TEXT: ./dk runs the program that prints the word; TEXT is the case
runs() {
    got=$(timeout 100 "$1/checkout/dk" plan 2>stderr)
    [ "$got" = "$2" ] || wrong "$3: '$got $(cat stderr)' where '$2' was expected"
}

# refuses CHECKOUT TEXT: ./dk runs nothing and builds nothing, says which crate differs and what builds, and ends with status 1
refuses() {
    got=$(timeout 100 "$1/checkout/dk" plan 2>stderr)
    status=$?
    [ "$status" = 1 ] && [ -z "$got" ] && grep -q 'tools/build.py' stderr || wrong "$2: status $status, '$got $(cat stderr)'"
    [ ! -e built ] || wrong "$2: a build was begun"
}

# names CRATE TEXT: the last message names this crate and no other
names() {
    grep -q "in: $1\$" stderr || wrong "$2: $(cat stderr)"
}

# edit CHECKOUT: changes a source of the crate `low`
edit() {
    echo 'changed' >>"$1/checkout/crates/low/src/lib.rt"
}

# The commands that a build would use only leave a mark. While there is a file log, sha256sum writes its words there. While there is a folder
# calls/, it counts its calls there, and sources calls/beforeN and calls/afterN at the N-th. `find` has no list of the mounted file systems, as
# without /proc, or where the root is no mount point.
mkdir stubs
for name in python3 rt; do
    printf '#!/bin/sh\n: >"%s/built"\n' "$work" >"stubs/$name"
done
cat >stubs/sha256sum <<END
#!/bin/sh
[ ! -e "$work/log" ] || echo "\$*" >>"$work/log"
[ -d "$work/calls" ] || exec "$(command -v sha256sum)" "\$@"
number=1
while ! mkdir "$work/calls/\$number" 2>/dev/null; do
    number=\$((number + 1))
done
[ ! -e "$work/calls/before\$number" ] || . "$work/calls/before\$number"
"$(command -v sha256sum)" "\$@"
status=\$?
[ ! -e "$work/calls/after\$number" ] || . "$work/calls/after\$number"
exit "\$status"
END
cat >stubs/find <<END
#!/bin/sh
case " \$* " in
*' -fstype '*)
    echo 'find: Cannot read mounted file system list.' >&2
    exit 1
    ;;
esac
exec "$(command -v find)" "\$@"
END
mkdir unlocked
printf '#!/bin/sh\nexit 1\n' >unlocked/flock
chmod +x stubs/* unlocked/*
plain=$PATH
PATH=$work/stubs:$PATH

for folder in bin crates/dk/src crates/other/src crates/low/src crates/low/specs crates/low/proofs/a/b; do
    mkdir -p first/checkout/$folder
done
cp -r "$top/dk" "$top/tools" "$top/VERSION" first/checkout || exit 2
printf '# crates\nlow:\nother:\ndk: low\n' >first/checkout/crates.txt
echo 'main' >first/checkout/crates/dk/src/main.rt
echo 'lib' >first/checkout/crates/low/src/lib.rt
echo 'proof' >first/checkout/crates/low/proofs/a/b/Proof.antt
echo 'other' >first/checkout/crates/other/src/lib.rt
program first/checkout/bin/dk shipped

# What is noted is only what did not change for two seconds, so all checkouts whose first call is to be noted are made before.
for name in rest removed moved added edited aged linked link_file bin bin_other text hook crossing racing waiting held \
    private shared; do
    cp -r first "$name"
done
steps='before1 after1 before2 after2 before3 after3 before4 after4 before5 after5 before6 after6'
for name in $steps; do
    cp -r first "$name"
done
mv linked/checkout/crates/low/src linked/low && ln -s ../../../low linked/checkout/crates/low/src
mv link_file/checkout/crates/low/src/lib.rt link_file && ln -s ../../../../lib.rt link_file/checkout/crates/low/src/lib.rt
cp -r first build
edit build
mkdir build/checkout/build
program build/checkout/build/dk built
# (the time of a call is known in whole seconds)
sleep 3.2
for name in rest removed moved added edited aged linked link_file bin bin_other text racing; do
    runs $name shipped "$name, first call"
    [ -s $name/checkout/build/known ] || wrong "$name: nothing was noted"
done
runs build built 'a program that was built'

# At rest one sum is taken, that of the list of files; where the list is new, more.
mkdir calls
runs rest shipped 'a second call'
[ ! -e calls/2 ] || wrong 'a call at rest sums the sources'
rm -r calls
cp -r first fresh
runs fresh shipped 'a fresh checkout'
[ ! -e fresh/checkout/build/known ] || wrong 'what has just changed is noted'

# Of calls at once the first one sums, and the others wait for it. A lock that is not given back holds no call up for long.
: >log
for _ in 1 2 3 4 5 6 7 8 9 10 11 12 13 14 15 16 17 18 19 20; do
    timeout 100 waiting/checkout/dk plan &
done >waited 2>&1
wait
[ "$(uniq -c <waited | tr -s ' ')" = ' 20 shipped' ] || wrong "calls at once: $(sort waited | uniq -c)"
[ "$(grep -c '^bin/dk$' log)" = 1 ] || wrong "of 20 calls at once $(grep -c '^bin/dk$' log) sum"
rm log
if command -v flock >/dev/null; then
    sed -i 's/^patience=.*/patience=1/' held/checkout/tools/dk/choose.sh
    (flock 8 && : >locked && exec sleep 100) 8<held/checkout/crates.txt &
    holder=$!
    until [ -e locked ]; do
        sleep 0.1
    done
    runs held shipped 'a lock that is not given back'
    kill "$holder"
    wait "$holder" 2>/dev/null
fi

# build/known has the mode of any new file. A call of another user reads it, or says nothing and sums itself.
other=
command -v setpriv >/dev/null && [ "$(id -u)" = 0 ] && other='setpriv --reuid 65534 --regid 65534 --clear-groups' && chmod 755 "$work"
while read -r name mask mode; do
    before=$(umask)
    umask "$mask"
    runs "$name" shipped "a call with the umask $mask"
    umask "$before"
    [ "$(stat -c %a "$name/checkout/build/known")" = "$mode" ] || wrong "with the umask $mask build/known has another mode than $mode"
    [ -n "$other" ] || [ "$mode" = 644 ] || chmod 0 "$name/checkout/build/known"
    chmod 755 "$name/checkout/build"
    # shellcheck disable=SC2086
    got=$($other "$name/checkout/dk" plan 2>&1)
    [ "$got" = shipped ] || wrong "a call of another user after the umask $mask: $got"
done <<'end'
shared 022 644
private 077 600
end

# A sum that cannot be computed is not one that differs. More names than the system takes at once are no reason.
cp -r first many
number=0
name=$(printf '%0120d' 0)
while [ "$number" -lt 2500 ]; do
    number=$((number + 1))
    : >"many/checkout/crates/low/src/$name$number.rt"
done
program many/checkout/bin/dk shipped
# shellcheck disable=SC3045
got=$(ulimit -s 1024 && many/checkout/dk plan 2>&1)
[ "$got" = shipped ] || wrong "many files with a small stack: $got"
mkdir few
for tool in cat chmod cut date dirname find flock head mkdir mktemp mv readlink rm sed sh sort stat tail tr wc xargs; do
    ln -s "$(PATH=$plain command -v $tool)" few
done
# unsummed TEXT REASON: the last call of ./dk said in one line that the sums cannot be computed, with this reason, and ended with status 1
unsummed() {
    [ "$status" = 1 ] && [ "$(wc -l <stderr)" = 1 ] && grep -q "^dk: the checksums .* cannot be computed: .*$2" stderr || wrong "$1: status $status, $(cat stderr)"
}
PATH=$work/few first/checkout/dk plan 2>stderr
status=$?
unsummed 'no sha256sum' sha256sum
cp -r first failing
mkdir calls
printf 'echo "sha256sum: a failure" >&2\nexit 1\n' | tee calls/before2 calls/before3 calls/before4 calls/before5 >calls/before6
failing/checkout/dk plan 2>stderr
status=$?
unsummed 'a sha256sum that fails' sha256sum
rm -r calls
cp -r first unlisted
rm unlisted/checkout/crates.txt
unlisted/checkout/dk plan 2>stderr
status=$?
unsummed 'no crates.txt' 'crates\.txt'

# A program that may not be executed, by its mode or its file system
cp -r first mode
chmod -x mode/checkout/bin/dk
got=$(mode/checkout/dk plan 2>&1)
[ "$? $got" = '1 dk: bin/dk may not be executed: its mode or its file system does not allow it' ] || wrong "a program without x: $got"
# shellcheck disable=SC2016
if unshare -rm sh -c 'mount -t tmpfs -o noexec none "$0"' "$work/mode" 2>/dev/null; then
    # shellcheck disable=SC2016
    got=$(unshare -rm sh -c 'mount -t tmpfs -o noexec none mode && cp -r first/checkout mode && sh mode/checkout/dk plan' 2>&1)
    [ "$? $got" = '1 dk: bin/dk may not be executed: its mode or its file system does not allow it' ] || wrong "a mount without exec: $got"
fi

# A crate that is gone, a file more, an edit
rm -r removed/checkout/crates/low
refuses removed 'a crate that was removed'
names low 'a crate that was removed'
mv moved/checkout/crates/low/src moved/src
refuses moved 'a folder src that was moved away'
mv moved/src moved/checkout/crates/low/src
runs moved shipped 'a folder src that was moved back'
echo 'more' >added/checkout/crates/low/proofs/a/More.antt
refuses added 'a file more'
names low 'a file more'
edit edited
refuses edited 'an edit'
names low 'an edit'
touch -d '2020-01-01' aged/checkout/crates/low/src/lib.rt
edit aged
touch -d '2020-01-01' aged/checkout/crates/low/src/lib.rt
touch aged/checkout/build/known
refuses aged 'an edit with an old time'

# Copies of an edited checkout, whose times are all new, or all kept
for option in -r -a; do
    cp $option edited "copied$option"
    refuses "copied$option" "cp $option of an edited checkout"
done
cp -r rest copied
edit copied
touch copied/checkout/build/known
refuses copied 'a copy, edited, with a new build/known'

# Behind links
echo 'changed' >>linked/low/lib.rt
refuses linked 'an edit behind a link to a folder'
echo 'changed' >>link_file/lib.rt
refuses link_file 'an edit behind a link to a file'

# Programs that are not those that were noted, of equal size and time
cp -p bin/checkout/bin/dk was
printf '#!/bin/sh\necho another\n' >bin/checkout/bin/dk
touch -r was bin/checkout/bin/dk
refuses bin 'another bin/dk'
sed 's/shipped/another/' bin_other/checkout/bin/dk >other
chmod +x other
touch -r bin_other/checkout/bin/dk other
mv other bin_other/checkout/bin/dk
refuses bin_other 'another file moved to bin/dk'
cp -p build/checkout/build/dk was
printf '#!/bin/sh\necho wrong\n' >build/checkout/build/dk
touch -r was build/checkout/build/dk
refuses build 'another build/dk'
names low 'another build/dk'
rm text/checkout/bin/dk.txt
refuses text 'a program without its text'
got=$(text/checkout/dk --version 2>/dev/null)
[ "$? $got" = '1 ' ] || wrong "the version of no program: $got"
got=$(fresh/checkout/dk --version 2>&1) || wrong "the version: $got"
[ "$got" = "dk $(cat "$top/VERSION")
$(grep '^sources ' fresh/checkout/bin/dk.txt)" ] || wrong "the version: $got"

# A source that changes before or after each sum that is taken, and a second call in the middle, which notes what it found
for name in $steps; do
    mkdir calls
    printf 'rm "%s"\necho changed >>"%s"\n' "$work/calls/$name" "$work/$name/checkout/crates/low/src/lib.rt" >"calls/$name"
    "$name/checkout/dk" plan >/dev/null 2>&1
    [ ! -e "calls/$name" ] || wrong "there is no sum $name"
    rm -r calls
    refuses "$name" "an edit at the sum $name"
done
for name in hook crossing; do
    # (with `flock` the second call would wait for the first, which waits for it)
    call="PATH='$work/unlocked:$plain'; $work/$name/checkout/dk plan"
    change="echo changed >>$work/$name/checkout/crates/low/src/lib.rt"
    mkdir calls
    case $name in
    hook) printf '%s\n' "$call" "$change" >calls/after4 ;;
    crossing) printf '%s\n' "$change" "$call" >calls/after4 ;;
    esac
    $name/checkout/dk plan >/dev/null 2>&1
    rm -r calls
    refuses $name "an edit and a second call in the middle of the first, $name"
done

# Two callers at once, while a source changes
(while [ ! -e end ]; do racing/checkout/dk plan >/dev/null 2>&1; done) &
(while [ ! -e end ]; do racing/checkout/dk plan >/dev/null 2>&1; done) &
for _ in 1 2; do
    edit racing
    refuses racing 'an edit beside two callers'
    echo 'lib' >racing/checkout/crates/low/src/lib.rt
    runs racing shipped 'an edit taken back beside two callers'
done
: >end
wait

# What tools/build.py builds is the program of the sources as they were when it began.
cat >stubs/rt <<'END'
#!/bin/sh
case $1 in
ci)
    mkdir -p crates/dk/out
    printf '#!/bin/sh\necho %s\n' "$(tail -n 1 crates/low/src/lib.rt)" >crates/dk/out/dk
    chmod +x crates/dk/out/dk
    [ -z "$DURING" ] || echo 'during' >>"$DURING"
    printf 'rt: low proved\nrt: dk proved\n2 passed, 0 failed\n'
    ;;
version) echo 'kit' ;;
doc) echo "$0" ;;
esac
END
if PATH=$plain command -v python3 >/dev/null; then
    cp -r edited builds
    echo 'none' >builds/checkout/HANDLES
    for during in '' "$work/builds/checkout/crates/low/src/lib.rt"; do
        DURING=$during PATH=$work/stubs:$plain "$(PATH=$plain command -v python3)" builds/checkout/tools/build.py 2>said || wrong "tools/build.py: $(cat said)"
        if [ -z "$during" ]; then
            runs builds changed 'a program of tools/build.py'
        else
            refuses builds 'an edit while tools/build.py built'
        fi
    done
fi

# What has no sum: a file that is deeper than the patterns, and one that is not a regular file
cp -r first deep
mkdir -p deep/checkout/crates/low/proofs/1/2/3/4/5/6
echo 'deep' >deep/checkout/crates/low/proofs/1/2/3/4/5/Proof.antt
program deep/checkout/bin/dk shipped
runs deep shipped 'a deep file'
echo 'deep' >deep/checkout/crates/low/proofs/1/2/3/4/5/6/Proof.antt
program deep/checkout/bin/dk shipped
refuses deep 'a file that is too deep'
cp -r first pipe
mkfifo pipe/checkout/crates/low/src/pipe.rt
refuses pipe 'a named pipe among the sources'
names low 'a named pipe among the sources'

# The help needs no program and no sources.
cp -r edited help
rm -r help/checkout/bin help/checkout/crates
for words in help --help -h 'help plan' 'plan --help'; do
    # shellcheck disable=SC2086
    got=$(help/checkout/dk $words 2>&1) && [ "${got%% *}" = 'usage:' ] || wrong "./dk $words: $got"
done
[ ! -e built ] || wrong 'the help began a build'

# Folders of CDPATH are not looked at.
mkdir -p cdpath/rest/checkout/tools/dk cdpath/checkout/tools/dk
echo 'echo ../../wrong' | tee cdpath/rest/checkout/tools/dk/choose.sh cdpath/checkout/tools/dk/choose.sh >/dev/null
printf '#!/bin/sh\necho wrong\n' >wrong
chmod +x wrong
edit rest
CDPATH=$work/cdpath
export CDPATH
for call in rest/checkout/dk ./rest/checkout/dk; do
    got=$($call plan 2>/dev/null)
    [ "$? $got" = '1 ' ] || wrong "with CDPATH $call: $got"
done
got=$(CDPATH='' cd -- rest && checkout/dk plan 2>/dev/null)
[ "$? $got" = '1 ' ] || wrong "with CDPATH checkout/dk: $got"
unset CDPATH
grep -nE '(^|[^-.[:alnum:]])cd [^|]' "$top/dk" "$top/check" "$top"/tools/*.sh "$top"/tools/*/*.sh "$top"/tests/*.sh | grep -v "CDPATH='' cd -- \|'(^|" >found && wrong "a cd that looks at CDPATH: $(cat found)"

# Without a tool that it needs, ./check says so and tries nothing.
cp "$top/check" rest/checkout
mkdir empty
shell=$(command -v sh)
got=$(PATH=$work/empty "$shell" rest/checkout/check 2>&1)
[ "${got%% awk *cmp *grep *}" = 'check: missing tools:' ] || wrong "check without tools: $got"
[ "$failed" = 0 ]
