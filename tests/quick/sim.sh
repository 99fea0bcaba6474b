#!/bin/sh
# `sim`: Verilog texts, clocked, and those that are refused.
# usage: tests/quick/sim.sh PROGRAM
. "$(dirname -- "$0")/cases.sh"

# Verilog texts, clocked. What must come out of NAME.v is sim/NAME.pgm.
for name in line_buffer median enabled; do
    ends 0 '' sim $name.v 3072 scene.pgm out.pgm
    holds "$examples/sim/$name.pgm"
done
ends 0 '' sim enabled.v 3072 scene.pgm out.pgm --hold 1
holds "$examples/sim/enabled.pgm"
ends 0 '' sim --hold 7 enabled.v 3072 scene.pgm out.pgm
holds "$examples/sim/enabled.pgm"
ends 0 '' sim line_buffer.v 3072 --fill=ones scene.pgm out.pgm
holds "$examples/sim/line_buffer_ones.pgm"
printf 'P5 4 1 1\n\0\0\0\0' >bits.pgm
printf 'P5\n4 1\n1\n\001\0\001\0' >wanted.pgm
ends 0 '' sim toggle.v 4 bits.pgm out.pgm
holds wanted.pgm
printf 'P5\n4 1\n1\n\001\001\001\001' >wanted.pgm
ends 0 '' sim toggle.v 4 bits.pgm out.pgm --fill ones
holds wanted.pgm
ends 6 'stopped: count 3 of 4' sim toggle.v 3 bits.pgm out.pgm --fill ones
none
printf 'P5 4 1 3\n\0\0\001\002' >rising.pgm
printf 'P5 4 1 3\n\0\0\001\003' >past.pgm
printf 'P5 0 1 3\n' >empty.pgm
printf 'P5\n4 1\n255\n\005\005\0\0' >wanted.pgm
ends 0 '' sim words.v 4 rising.pgm out.pgm
holds wanted.pgm
ends 0 '' sim words.v 004 rising.pgm out.pgm
holds wanted.pgm
printf 'P5\n4 1\n255\n\005\005\377\377' >wanted.pgm
ends 0 '' sim words.v 4 rising.pgm out.pgm --fill ones
holds wanted.pgm
ends 6 'stopped: clock 3 array 0 index 3' sim words.v 4 past.pgm out.pgm
ends 6 'stopped: count 3 of 4' sim words.v 3 rising.pgm out.pgm
ends 6 'stopped: count 5 of 4' sim words.v 5 rising.pgm out.pgm
ends 6 'stopped: count 0 of 4' sim words.v 0 rising.pgm out.pgm
ends 4 'image: Maxval 255' sim words.v 4 gradient.pgm out.pgm
ends 4 'image: Size 0 1' sim words.v 4 empty.pgm out.pgm
ends 7 'cannot read' sim missing.v 4 rising.pgm out.pgm
ends 7 'cannot read' sim words.v 4 missing.pgm out.pgm
none

# refuses LINE TEXT: the Verilog text ends with this line, before the images are asked for
refuses() {
    printf '%b' "$2" >text.v
    shown=$1
    shift 2
    ends 5 "$shown" sim text.v 4 missing.pgm out.pgm "$@"
    none
}

refuses 'verilog 0-0: Syntax' ''
refuses 'verilog 21-28: NotInSubset' 'module m(input clk); initial'
refuses 'verilog 0-1: BadByte' '/* open'
refuses 'verilog 0-6: BadConstant' "8'd256"
refuses 'verilog 7-8: Ports' 'module m(input clk, input rst, input din, output valid, output dout);\n  assign valid = ~rst;\n  assign dout = din;\nendmodule\n' --hold 1
# Each line of calls/modules.txt is what `sim` says of a Verilog text, a tab, and the text, with bytes as printf reads them.
while IFS=$tab read -r line text <&3; do
    if [ "$line" = accepted ]; then
        printf '%b' "$text" >text.v
        ends 7 'cannot read' sim text.v 4 missing.pgm out.pgm
        none
    else
        refuses "$line" "$text"
    fi
done 3<"$tests/calls/modules.txt"
truncate -s 268435457 zeros.v
ends 5 'verilog: TooLong 268435456' sim zeros.v 4 missing.pgm out.pgm
rm zeros.v
ends 2 "$usage" sim words.v 4 rising.pgm words.v
ends 2 "$usage" sim words.v 4 rising.pgm rising.pgm
ends 2 "$usage" sim words.v +4 rising.pgm out.pgm
ends 2 "$usage" sim words.v 100000001 rising.pgm out.pgm
ends 2 "$usage" sim words.v 4 rising.pgm out.pgm --fill two
ends 2 "$usage" sim words.v 4 rising.pgm out.pgm --hold 0
ends 2 "$usage" sim words.v 4 rising.pgm out.pgm --hold 000
ends 2 "$usage" sim words.v 4 rising.pgm out.pgm --hold -1
ends 2 "$usage" sim words.v 4 rising.pgm out.pgm --fill ones --fill ones
none
ends 8 'cannot write' sim words.v 4 rising.pgm /dev/full

finish
