#!/bin/sh
# Shows value change dumps (those of waves/, or those named) to readers of others, as far as they are installed, and says which it passed over:
# GTKWave (under xvfb-run, without a screen) and its converters vcd2fst and fst2vcd. The value of each variable at each time must be the one that waves.py reads.
# It says nothing else where they agree.
# usage: tests/waves.sh [VCD..]
tests=$(CDPATH='' cd -- "$(dirname -- "$0")" && pwd)
examples=$tests/../examples
work=$(mktemp -d) || exit 2
trap 'rm -rf "$work"' EXIT
trap 'exit 130' INT TERM HUP
failed=0
[ $# -gt 0 ] || set -- "$tests"/waves/*.vcd

cat >"$work/look.tcl" <<'END'
set count [ gtkwave::getNumFacs ]
set names [ list ]
for { set k 0 } { $k < $count } { incr k } { lappend names [ gtkwave::getFacName $k ] }
gtkwave::addSignalsFromList $names
gtkwave::highlightSignalsFromList $names
gtkwave::/Edit/Data_Format/Binary
set out [ open $env(SEEN) w ]
for { set time 0 } { $time <= [ gtkwave::getMaxTime ] } { incr time } {
    gtkwave::setMarker $time
    set row [ list ]
    foreach name $names {
        scan [ gtkwave::getTraceValueAtMarkerFromName $name ] %llb value
        regsub {^.*\.} $name {} short
        regsub {\[.*$} $short {} short
        lappend row $short=$value
    }
    puts $out "$time [ lsort $row ]"
}
close $out
exit
END

# agrees READER VCD: the values that the reader gave are those that waves.py reads
agrees() {
    python3 "$tests/../tools/waves.py" values "$2" | cmp -s "$work/seen" - || {
        echo "waves: $1 reads $2 otherwise" >&2
        failed=1
    }
}

for dump; do
    if command -v vcd2fst >/dev/null; then
        vcd2fst "$dump" "$work/dump.fst" && fst2vcd "$work/dump.fst" >"$work/back.vcd"
        python3 "$tests/../tools/waves.py" values "$work/back.vcd" >"$work/seen"
        agrees vcd2fst "$dump"
    fi
    if command -v gtkwave >/dev/null && command -v xvfb-run >/dev/null; then
        SEEN=$work/seen timeout 120 xvfb-run -a gtkwave "$dump" -S "$work/look.tcl" >/dev/null 2>&1
        agrees gtkwave "$dump"
    fi
done
for tool in vcd2fst gtkwave xvfb-run; do
    command -v "$tool" >/dev/null || echo "waves: $tool is not installed, and was passed over"
done
exit "$failed"
