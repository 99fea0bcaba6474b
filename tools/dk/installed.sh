#!/bin/sh
# The script dk as tools/install.sh installs it, in the folder bin. It runs the program of the folder lib/dk beside bin.
# shellcheck disable=SC2034,SC1091
case $0 in
/*) self=$0 ;;
*) self=./$0 ;;
esac
[ ! -L "$self" ] || self=$(readlink -f "$self")
prefix=${self%/*}/..
top=$prefix/lib/dk
called=dk
docs=$prefix/share/doc/dk/docs
page=$prefix/share/man/man1/dk.1

# (a shell that cannot go on would end with status 2, which is Usage)
trap 'exit 1' EXIT
. "$top/tools/dk/answer.sh"
built=$top/bin/dk
[ -e "$built" ] || {
    echo 'dk: lib/dk/bin/dk of its prefix is missing; install dk again' >&2
    exit 1
}
trap - EXIT
answer_help "$@"
answer_version "$@"
. "$top/tools/dk/follow.sh"
