#!/bin/sh
# Whether the shipped program is the one that bin/dk.txt describes, and was built from exactly these sources.
# usage: tests/shipped.sh
CDPATH='' cd -- "$(dirname -- "$0")/.." && . tools/dk/sources.sh && is_of_sources bin/dk
