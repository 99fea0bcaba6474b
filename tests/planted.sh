#!/bin/sh
# Planted bodies: wrong changes of the code, each of which the proofs must refuse. They are edits as those in crates/NAME/must-fail, of crates
# whose proofs take longer than half a minute: the gate would prove each of these once more for its edits. The crates have to be proved before
# (`./check --proofs`).
# usage: tests/planted.sh [CRATE..]      all crates by default; it takes some hours of processor time
top=$(CDPATH='' cd -- "$(dirname -- "$0")/.." && pwd) && CDPATH='' cd -- "$top" || exit 2
# shellcheck disable=SC2046
[ $# -gt 0 ] || set -- $(ls tests/planted)
clean() {
    for crate; do
        for edit in tests/planted/"$crate"/*.edit; do
            rm -f "crates/$crate/must-fail/${edit##*/}"
        done
        rmdir "crates/$crate/must-fail" 2>/dev/null
    done
}
for crate; do
    [ -d "tests/planted/$crate" ] || {
        echo "planted: $crate has no planted bodies" >&2
        exit 2
    }
done
trap 'clean "$@"' EXIT
trap 'exit 130' INT TERM HUP
for crate; do
    mkdir -p "crates/$crate/must-fail" && cp tests/planted/"$crate"/*.edit "crates/$crate/must-fail" || exit 2
done
rt must-fail "$@"
