#!/bin/sh
# Shows the Verilog texts of this folder to Icarus Verilog and to Verilator, as far as they are installed, and says which it passed over.
# The texts are those of the law worked_layouts of crates/verilog_layout, which is checked here by their bytes.
# usage: tests/lint.sh
tests=$(CDPATH='' cd -- "$(dirname -- "$0")" && pwd)
examples=$tests/../examples
worked=$tests/../crates/verilog_layout/src/worked.rt
failed=0

# is_silent NAME WORD..: the command succeeds and writes nothing
is_silent() {
    shown=$1
    shift
    said=$("$@" 2>&1) && [ -z "$said" ] || {
        echo "lint: $* does not take $shown as it is: $said" >&2
        failed=1
    }
}

# The source in one line: a clause may have line breaks between its words.
clauses=$(sed 's/^ *//' "$worked" | tr '\n' ' ')
for text in "$examples"/verilog/*.v; do
    name=$(basename "$text" .v)
    line=$(awk '{ printf "%s\\n", $0 }' "$text")
    case $clauses in
    *"ensures $name { layout ${name}_module ≡ codes \"$line\" }"*) ;;
    *)
        echo "lint: $name.v is not the text of worked_layouts" >&2
        failed=1
        ;;
    esac
    if command -v iverilog >/dev/null; then
        is_silent "$name.v" iverilog -g2005 -Wall -t null "$text"
    fi
    if command -v verilator >/dev/null; then
        is_silent "$name.v" verilator --lint-only "$text"
    fi
done
# As root, Icarus Verilog sets the mode of the file that it writes, and then no other user's shell can write to /dev/null.
found=$(grep -n 'iverilog .*-o /dev/null' "$tests"/*.sh "$tests"/../tools/*.sh "$tests"/../tools/*/*.sh | grep -v '/lint\.sh:')
[ -z "$found" ] || {
    echo "lint: iverilog -t null in place of: $found" >&2
    failed=1
}
for tool in iverilog verilator; do
    command -v "$tool" >/dev/null || echo "lint: $tool is not installed, and was passed over"
done
exit "$failed"
