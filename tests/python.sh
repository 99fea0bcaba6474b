#!/bin/sh
# The tests of the Python package (python/tests), by a Python that has NumPy, Pillow, pytest and hypothesis. Where there is none it says so, and they
# are passed over.
# usage: tests/python.sh [PROGRAM]      PROGRAM is the program dk that the package calls; without it, the one that the package finds
folder=$(CDPATH='' cd -- "$(dirname -- "$0")" && pwd) || exit 2
case ${1-} in
'') ;;
/*) DK=$1 && export DK ;;
*) DK=$PWD/$1 && export DK ;;
esac
work=$(mktemp -d) || exit 2
trap 'rm -rf "$work"' EXIT
trap 'exit 130' INT TERM HUP
HYPOTHESIS_STORAGE_DIRECTORY=$work/hypothesis && export HYPOTHESIS_STORAGE_DIRECTORY
for python in python3 /usr/bin/python3; do
    "$python" -c 'import hypothesis, numpy, PIL, pytest' 2>/dev/null || continue
    CDPATH='' cd -- "${folder%/tests}/python" || exit 2
    "$python" -c 'import jinja2' 2>/dev/null || echo 'python: Jinja2 is not installed, and the tests of figures were passed over'
    "$python" -m pytest -q -p no:cacheprovider tests >"$work/out" 2>&1 && exit 0
    cat "$work/out"
    exit 1
done
echo 'python: NumPy, Pillow, pytest or hypothesis is not installed, and the tests of the package were passed over'
