#!/bin/sh
# Installs the program into a folder of its own, calls it there from another folder and through links, and uninstalls it, after which nothing
# is left. What is installed is that of a small checkout, which has the scripts and pages of this one, and one source.
# Says nothing where all is right, and else names each case.
# usage: tests/install.sh PROGRAM
. "$(dirname -- "$0")/lib.sh" && program=$(whole "$1") || exit 2
in_folder
unset DESTDIR
version=$(cat "$top/VERSION")
prefix=/some/a\ folder
bin="$work/root$prefix/bin"

mkdir -p checkout/bin checkout/crates/dk/src && cp "$program" checkout/bin/dk && echo 'dk:' >checkout/crates.txt || exit 2
echo 'main' >checkout/crates/dk/src/main.rt
for name in CHANGELOG.md VERSION docs editors examples tests tools; do
    ln -s "$top/$name" checkout
done
(
    CDPATH='' cd -- checkout && . tools/dk/sources.sh || exit 2
    echo 'kit a kit'
    echo "program $(sha256sum bin/dk | cut -d ' ' -f 1)"
    source_lines
) >checkout/bin/dk.txt

# install_dk WORD..: calls the script, which writes to `said`
install_dk() {
    "$work/checkout/tools/install.sh" "$@" >"$work/said" 2>&1
}

# shows TEXT COMMAND..: the command succeeds, and its output begins with the text
shows() {
    begin=$1
    shift
    got=$("$@" 2>&1) || wrong "$*: status $?, $got"
    case $got in
    "$begin"*) ;;
    *) wrong "$*: '$got' where '$begin' was expected" ;;
    esac
}

# ends STATUS TEXT COMMAND..: the command ends with the status, writes nothing to standard output, and the text is in standard error
ends() {
    status=$1
    text=$2
    shift 2
    "$@" >stdout 2>stderr
    [ "$?" = "$status" ] && [ ! -s stdout ] && grep -qF -e "$text" stderr || wrong "$*: $(cat stdout stderr)"
}

# everything FOLDER: all that is in it, with kinds, modes and sums of files
everything() {
    find "$1" -printf '%y %m %P\n' | LC_ALL=C sort
    find "$1" -type f -exec sha256sum {} + | LC_ALL=C sort
}

# Words that it refuses
for words in '--prefix' '--prefix usr' '--prefix=' '--prefix /usr/../local' '--prefix=/.' '--dest' 'all' '--uninstall --all'; do
    # shellcheck disable=SC2086
    ! install_dk --dest root $words || wrong "tools/install.sh accepts $words"
done
echo 'changed' >checkout/crates/dk/src/main.rt
! install_dk --dest root || wrong 'a program of other sources is installed'
echo 'main' >checkout/crates/dk/src/main.rt
[ ! -e root ] || wrong 'a call that is refused made a folder'

install_dk --dest root "--prefix=$prefix/" || wrong "installing: $(cat "$work/said")"
mkdir -p "$work/else/where" && ln -s "../root$prefix/bin/dk" else/linked && ln -s linked else/twice && ln -s "root$prefix/bin" folder || exit 2
cp "$examples/programs/sobel.dk" "$examples/programs/scene.pgm" "$examples/programs/sobel.pgm" else/where || exit 2
printf 'size 1 1\ninput a : u8\nlet f = im(x,y) b(x,y) end\noutput f\n' >else/where/p.dk
CDPATH='' cd -- else/where || exit 2
for dk in "$bin/dk" "../../root$prefix/bin/dk" ../linked ../twice ../../folder/dk; do
    shows 'usage: dk COMMAND' "$dk" help
    shows "dk $version" "$dk" --version
    "$dk" run sobel.dk scene.pgm out.pgm && cmp out.pgm sobel.pgm || wrong "$dk run"
    rm -f out.pgm
done
export PATH="$bin:$PATH"

# The words of the script
help=$(dk help)
for words in '--help' '-h' 'help help' '--help --version'; do
    # shellcheck disable=SC2086
    [ "$(dk $words)" = "$help" ] || wrong "dk $words is not dk help"
done
for command in run compile plan sim eval make check trace cut narrow widen; do
    shows "usage: dk $command " dk help "$command"
    page=$(dk help "$command")
    for words in "$command --help" "$command -h" "--help $command" "$command a.dk --age 3 --help --"; do
        # shellcheck disable=SC2086
        [ "$(dk $words)" = "$page" ] || wrong "dk $words is not dk help $command"
    done
    # (a line with the place of the installation is as long as the place makes it)
    printf '%s\n' "$page" | grep -vF "$work" | awk 'length > 80 { exit 1 }' || wrong "the help of $command has more than 80 columns"
done
for option in compile:--enable compile:--block plan:--age sim:--fill sim:--hold cut:N check:REPORT trace:VCD; do
    dk help "${option%:*}" | grep -q "^  \(OUT, \)\{0,1\}${option#*:}" || wrong "the help of ${option%:*} does not have ${option#*:}"
done
! dk help compile | grep -q -e '--fill' -e CLOCKS || wrong 'the help of compile has words of others'
ends 2 'There is no command' dk help ru
ends 2 'There is no command' dk ru --help
ends 2 'too many' dk help run plan
ends 2 'usage: ' dk -V
ends 7 'cannot read' dk plan -- --help
ends 7 'cannot read' dk plan help
dk --version >version
[ "$(cat version)" = "dk $version
kit a kit
$(grep '^sources ' "$work/checkout/bin/dk.txt")" ] || wrong "dk --version shows $(cat version)"
docs=$(printf '%s\n' "$help" | sed -n 's/^More: \(.*\)\/COMMANDS.md\.$/\1/p')
[ "$docs" -ef "$work/root$prefix/share/doc/dk/docs" ] || wrong "the help names the pages as $docs"

# Explanations
ends 3 'program 38-39: UnknownImage' dk plan p.dk
[ "$(wc -l <stderr)" = 1 ] || wrong "without a terminal dk plan shows: $(cat stderr)"
for value in '' auto never; do
    DK_EXPLAIN=$value dk plan p.dk 2>stderr
    [ "$(cat stderr)" = 'program 38-39: UnknownImage' ] || wrong "with DK_EXPLAIN '$value' dk plan shows: $(cat stderr)"
done
export DK_EXPLAIN=always
ends 3 'p.dk:3:17' dk plan p.dk
ends 7 'there is no such file' dk plan none.dk
ends 2 '`dk --help` shows' dk ru
printf 'plan 4\n' >report.txt
ends 10 "($docs/REPORT.md)" dk check sobel.dk report.txt
dk plan sobel.dk >plan.txt 2>stderr && [ ! -s stderr ] || wrong "dk plan with DK_EXPLAIN: $(cat stderr)"
export DK_EXPLAIN=yes
ends 1 'DK_EXPLAIN' dk plan sobel.dk
unset DK_EXPLAIN

# The man page and the completions
CDPATH='' cd -- "$work/root$prefix/share" || exit 2
if command -v man >/dev/null; then
    man -l --warnings man/man1/dk.1 >"$work/page" 2>"$work/stderr" && [ ! -s "$work/stderr" ] || wrong "man: $(cat "$work/stderr")"
    grep -q '^ *dk run \[--age K\] PROG IN OUT$' "$work/page" || wrong 'man does not show the synopsis'
else
    echo 'install: man is not installed, and was passed over'
fi
if command -v bash >/dev/null; then
    # shellcheck disable=SC2016
    got=$(bash --norc -c '. "$1" && COMP_WORDS=(dk com) COMP_CWORD=1 && _dk && echo "${COMPREPLY[*]}" && COMP_WORDS=(dk help tr) COMP_CWORD=2 && _dk &&
        echo "${COMPREPLY[*]}" && complete -p dk' bash bash-completion/completions/dk)
    [ "$got" = "compile
trace
complete -F _dk dk" ] || wrong "bash completes: $got"
fi
if command -v zsh >/dev/null; then
    zsh -f -c 'fpath=("$1" $fpath) && autoload -U compinit && compinit -D && [ "$_comps[dk]" = _dk ] && zsh -n "$1/_dk"' zsh "$PWD/zsh/site-functions" ||
        wrong 'zsh does not load its completions'
fi
if command -v fish >/dev/null; then
    got=$(HOME=$work fish -N -c 'source fish/vendor_completions.d/dk.fish; complete -C "dk com"; complete -C "dk help tr"; complete -C "dk sim --fill z"' | cut -f 1)
    [ "$got" = "compile
trace
zeros" ] || wrong "fish completes: $got"
fi
CDPATH='' cd -- doc/dk/docs || exit 2
for page in *.md; do
    grep -o ']([^)#]*' "$page" | sed 's/^..//' | while IFS= read -r link; do
        case $link in
        '' | http*) ;;
        *) [ -e "$link" ] || echo "$page: $link" ;;
        esac
    done
done >"$work/dangling"
[ ! -s "$work/dangling" ] || wrong "links of the pages lead nowhere: $(cat "$work/dangling")"

# Each script of tools/ that a page names is installed, or COMMANDS.md names it as one of the checkout.
of_checkout=$(sed -n 's/^- Scripts that only the checkout has: \(.*\)\.$/\1/p' COMMANDS.md)
for name in $(cat -- *.md ../CHANGELOG.md ../examples/README.md | grep -o '\btools/[a-z_/]*\(\.[a-z]\{1,\}\)\{0,1\}' | sort -u); do
    case ", $of_checkout," in
    *", $name,"*) ;;
    *) [ -x "../$name" ] || wrong "the pages name $name, which is not installed" ;;
    esac
done
# (as COMMANDS.md says, in a folder with links)
mkdir "$work/links" && CDPATH='' cd -- "$work/links" && ln -s "$work/root$prefix/share/doc/dk"/* . || exit 2
shows 'plan 2' ./dk plan examples/programs/sobel.dk
if command -v python3 >/dev/null; then
    unset PYTHONDONTWRITEBYTECODE
    shows '' tools/look examples/programs/sobel.dk examples/programs/scene.pgm "$work/page.html"
    grep -q '<figure>' "$work/page.html" || wrong 'the installed tools/look makes no page'
    shows '' tools/axis examples/programs/copy.dk "$work/axis" && [ -s "$work/axis/copy_core.v" ] || wrong 'the installed tools/axis makes no block'
    shows 'module' tools/names.py examples/programs/copy.dk
    shows '' tools/waves examples/programs/copy.dk examples/programs/gradient.pgm "$work/waves"
    shows '' tools/png.py examples/programs/scene.pgm "$work/scene.png"
    rm -rf "$work/axis"
fi
CDPATH='' cd -- "$work" || exit 2

# A second time, over a file that is not in the list any more and beside a file of others; with the folder in DESTDIR
find root -name __pycache__ -exec rm -r {} +
everything root >before
echo "file $prefix/bin/gone" >>"root$prefix/lib/dk/installed" && echo old >"root$prefix/bin/gone"
DESTDIR=$work/root install_dk --prefix "$prefix" || wrong "installing again: $(cat "$work/said")"
everything root | diff before - || wrong 'installing again changes what is installed'
! install_dk --dest root --uninstall || wrong 'what is not installed is uninstalled'
[ -z "$(command -v python3)" ] || "root$prefix/share/doc/dk/tools/look" "$examples/programs/sobel.dk" "$examples/programs/scene.pgm" page.html || wrong 'tools/look'
# (a list with a path outside of the prefix)
echo other >"root/outside"
printf 'file %s\n' /outside "$prefix/../../outside" >>"root$prefix/lib/dk/installed"
echo other >"root$prefix/share/man/man1/other.1"
install_dk --dest root --prefix "$prefix" --uninstall || wrong "uninstalling: $(cat "$work/said")"
got=$(find root -type f)
[ "$got" = "root/outside
root$prefix/share/man/man1/other.1" ] || [ "$got" = "root$prefix/share/man/man1/other.1
root/outside" ] || wrong "uninstalling beside another file leaves $got"
rm -r root/some root/outside

# Uninstalling leaves nothing, and nothing else is touched.
mkdir -p root/usr/local/share/man
everything root >before
umask 077
install_dk --dest=root || wrong "installing into /usr/local: $(cat "$work/said")"
[ -z "$(find root/usr/local/* ! -perm -o=r)" ] || wrong 'files are not for all users'
shows 'usage: dk COMMAND' root/usr/local/bin/dk help
install_dk --dest root --uninstall || wrong "uninstalling: $(cat "$work/said")"
everything root | diff before - || wrong 'uninstalling does not leave all as it was'

# refused TEXT: installing ends with status 1 and one line, which has the text, and leaves all as it was
refused() {
    everything root >before
    install_dk --dest root
    [ "$? $(wc -l <"$work/said")" = '1 1' ] && grep -qF "$1" "$work/said" || wrong "$1: $(cat "$work/said")"
    everything root | cmp -s before - || wrong "$1: not all is as it was"
}

# Files of others are not replaced, and not removed.
for place in bin/dk share/man/man1/dk.1 share/doc/dk/docs/PGM.md; do
    mkdir -p "root/usr/local/${place%/*}" && echo other >"root/usr/local/$place"
    refused "/usr/local/$place is not of dk"
    rm "root/usr/local/$place"
    ln -s nowhere "root/usr/local/$place"
    refused "/usr/local/$place is not of dk"
    rm -r root/usr/local/*
done

# Where a new installation cannot be made or put in place, the one before it is as it was. A stub of mv fails at one file, or ends its caller.
install_dk --dest root || wrong "installing: $(cat "$work/said")"
echo old >root/usr/local/lib/dk/VERSION
mv checkout/VERSION hidden
refused 'cannot copy'
mkdir stubs
cat >stubs/mv <<END
#!/bin/sh
case \$* in
*/new/share/man/man1/dk.1*) [ ! -e "$work/end" ] || kill -s KILL "\$PPID"; exit 1 ;;
esac
exec "$(command -v mv)" "\$@"
END
chmod +x stubs/mv
mv hidden checkout/VERSION
plain=$PATH
PATH=$work/stubs:$PATH
refused 'cannot install'
: >end
(install_dk --dest root) 2>/dev/null
[ -x root/usr/local/bin/dk ] && [ -s root/usr/local/lib/dk/installed ] || wrong 'after the end of an installation there is no program or no list'
PATH=$plain
install_dk --dest root || wrong "installing after the end of an installation: $(cat "$work/said")"
everything root >before
install_dk --dest root --uninstall && install_dk --dest root || wrong "uninstalling and installing: $(cat "$work/said")"
everything root | diff before - || wrong 'the end of an installation leaves something'
[ "$(cat root/usr/local/lib/dk/VERSION)" = "$version" ] || wrong 'an upgrade leaves an old file'
# (what cannot be removed stays in the list, and the next call removes it)
cat >stubs/rm <<END
#!/bin/sh
case \$* in
*/root/usr/local/bin/dk) exit 1 ;;
esac
exec "$(command -v rm)" "\$@"
END
chmod +x stubs/rm
PATH=$work/stubs:$plain
! install_dk --dest root --uninstall || wrong 'a file that cannot be removed is not noticed'
PATH=$plain
[ -x root/usr/local/bin/dk ] || wrong 'the stub of rm was not called'
install_dk --dest root --uninstall || wrong "uninstalling again: $(cat "$work/said")"
[ "$(find root -mindepth 1)" = 'root/usr
root/usr/local' ] || wrong "uninstalling leaves $(find root)"

# What cannot be installed as a whole is not installed.
mkdir -p root/usr/local/share/man/man1/dk.1
everything root >before
! install_dk --dest root || wrong 'a folder in the place of the man page is accepted'
everything root | diff before - || wrong 'half of an installation is left'
[ "$failed" = 0 ]
