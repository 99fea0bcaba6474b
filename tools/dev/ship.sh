#!/bin/sh
# Ships the program that was built from these sources, by the gate (`./check --proofs`) or by tools/build.py: bin/dk, and bin/dk.txt, which
# tells the kit that built it, and the sums of the program and of all that determines it.
# usage: tools/dev/ship.sh
CDPATH='' cd -- "$(dirname -- "$0")/../.." && . tools/dk/sources.sh || exit 2
is_of_sources build/dk || {
    echo 'ship: build/dk is not of these sources: ./check --proofs' >&2
    exit 1
}
mkdir -p bin && cp build/dk bin/dk.new && mv bin/dk.new bin/dk && cp build/dk.txt bin/dk.txt && is_of_sources bin/dk
