#!/bin/sh
# Compares the man page with docs/COMMANDS.md: its synopsis is the usage line, and each command, option and status has an entry.
# The completions of bash, zsh and fish must name each command and option too. The script dk answers `help` and `--version`, which the usage
# line does not have.
# Says nothing where all is right.
# usage: tests/man.sh
CDPATH='' cd -- "$(dirname -- "$0")/.." || exit 2
failed=0

wrong() {
    echo "man: $1" >&2
    failed=1
}

# The lines of the page without fonts.
plain=$(sed 's/\\f[BIPR]//g; s/\\-/-/g; s/^\.BR* //' docs/dk.1)
grep -q "^\.TH DK 1 .* \"dk $(cat VERSION)\" " docs/dk.1 || wrong 'docs/dk.1 is not of the version in VERSION'
usage=$(sed -n 's/^usage: //p' docs/COMMANDS.md)
synopsis=$(printf '%s\n' "$plain" | sed -n '/^\.SH SYNOPSIS/,/^\.SH DESCRIPTION/s/^dk //p')
answered=$(printf '%s\n' "$synopsis" | tail -n 2)
[ "$answered" = 'help [COMMAND]
--version' ] || wrong 'the synopsis of docs/dk.1 does not end with help and --version'
synopsis=$(printf '%s\n' "$synopsis" | head -n -2)
[ "$(printf '%s\n' "$synopsis" | tr '\n' '|' | sed 's/|$//; s/|/ | /g')" = "$usage" ] ||
    wrong 'the synopsis of docs/dk.1 is not the usage line of docs/COMMANDS.md'

commands=$(printf '%s\n' "$synopsis" | cut -d ' ' -f 1)
options=$(printf '%s\n' "$usage" | grep -o '\[--[^]]*\]' | tr -d '[]' | sort -u)
statuses=$(sed -n '/^## Endings/,/^## Fault lines/s/^| [A-Za-z]* | \([0-9]*\) |.*/\1/p' docs/COMMANDS.md)
while IFS= read -r entry; do
    printf '%s\n' "$plain" | grep -A 1 -xF .TP | grep -qxF -e "$entry" || wrong "docs/dk.1 has no entry \`$entry\`"
done <<END
$commands
help
$options
--version
1
$statuses
END
for word in $commands $(printf '%s\n' "$options" | cut -d ' ' -f 1) help --help --version; do
    for file in tools/dk/completions/dk.bash tools/dk/completions/_dk; do
        grep -qw -e "$word" "$file" || wrong "$file does not name $word"
    done
    case $word in
    --*) grep -qw -e "-l ${word#--}" tools/dk/completions/dk.fish ;;
    *) grep -qw -e "-a $word" tools/dk/completions/dk.fish ;;
    esac || wrong "tools/dk/completions/dk.fish does not name $word"
done
exit "$failed"
