#!/bin/sh
# `trace`: whole traces, and first and last lines of long ones.
# usage: tests/quick/trace.sh PROGRAM
. "$(dirname -- "$0")/cases.sh"

printf 'P5 4 1 1\n\0\0\0\0' >bits.pgm
printf 'P5 4 1 3\n\0\0\001\002' >rising.pgm
printf 'P5 4 1 3\n\0\0\001\003' >past.pgm
# Traces. A small one stands whole; of the others the first and the last line, and each time once and in turn.
cat >wanted.vcd <<'END'
$timescale 1 ns $end
$scope module m $end
$var wire 1 ! rst $end
$var wire 2 " din $end
$var wire 1 # valid $end
$var wire 8 $ dout $end
$upscope $end
$enddefinitions $end
#0
1!
b0 "
0#
b0 $
#1
0!
1#
b101 $
#2
#3
b1 "
b0 $
#4
b10 "
#5
END
ends 0 '' trace words.v 4 rising.pgm out.pgm
holds wanted.vcd 'trace'
sed '/^#4$/,$d' wanted.vcd >stopped.vcd
ends 6 'stopped: clock 3 array 0 index 3' trace words.v 4 past.pgm out.pgm
holds stopped.vcd 'trace, stopped'
sed '/^#1$/,$d' wanted.vcd >first.vcd
echo '#1' >>first.vcd
ends 0 '' trace words.v 0 rising.pgm out.pgm
holds first.vcd 'trace, no clock'
for name in line_buffer median enabled toggle; do
    input=scene
    [ $name = toggle ] && input=bits
    ends 0 '' trace $name.v 3072 $input.pgm out.pgm
    seq 0 3073 | sed 's/^/#/' >wanted.txt
    grep '^#' out.pgm >times.txt
    is "the trace of $name.v has other times" cmp -s times.txt wanted.txt
    is "the trace of $name.v begins otherwise" [ "$(head -n 1 out.pgm)" = '$timescale 1 ns $end' ]
    is "the trace of $name.v ends otherwise" [ "$(tail -n 1 out.pgm)" = '#3073' ]
done
# Each line of calls/traces.txt is what it shows, the status and the line of the call, a Verilog text, its clocks, the images and the trace, with bytes as printf reads them.
while IFS='|' read -r name status line text clocks input wanted <&3; do
    printf '%b' "$text" >text.v
    printf '%b' "$input" >input.pgm
    printf '%b' "$wanted" >wanted.vcd
    ends "$status" "$line" trace text.v "$clocks" input.pgm out.pgm
    holds wanted.vcd "$name"
done 3<"$tests/calls/traces.txt"
# 95 variables: the last identifier of one byte, and the first of two
{
    printf 'module m(input clk, input rst, input din, output valid, output dout);\n'
    repeat 91 'wire n%d;\n'
    repeat 91 'assign n%d = din;\n'
    printf 'assign valid = ~rst;\nassign dout = din;\nendmodule\n'
} >text.v
awk 'function id(k) { return k < 94 ? sprintf("%c", 33 + k) : "!\"" }
BEGIN {
    printf "$timescale 1 ns $end\n$scope module m $end\n"
    split("rst din valid dout", ports, " ")
    for (k = 0; k < 95; k++) printf "$var wire 1 %s %s $end\n", id(k), (k < 4 ? ports[k + 1] : "n" (k - 3))
    printf "$upscope $end\n$enddefinitions $end\n#0\n1!\n"
    for (k = 1; k < 95; k++) printf "0%s\n", id(k)
    printf "#1\n0!\n"
    for (k = 1; k < 95; k++) printf "1%s\n", id(k)
    printf "#2\n"
}' >wanted.vcd
printf 'P5 1 1 1\n\001' >one.pgm
ends 0 '' trace text.v 1 one.pgm out.pgm
holds wanted.vcd '95 variables'
# the stored waves, which trace.py made
ends 0 '' trace line_buffer.v 192 speckled.pgm out.pgm
holds "$tests/waves/line_buffer.vcd"
ends 4 'image: Maxval 255' trace words.v 4 gradient.pgm out.pgm
ends 7 'cannot read' trace missing.v 4 rising.pgm out.pgm
ends 7 'cannot read' trace words.v 4 missing.pgm out.pgm
printf 'module m(input clk); initial' >text.v
ends 5 'verilog 21-28: NotInSubset' trace text.v 4 missing.pgm out.pgm
ends 2 "$usage" trace words.v 4 rising.pgm words.v
ends 2 "$usage" trace words.v 4 rising.pgm rising.pgm
ends 2 "$usage" trace words.v +4 rising.pgm out.pgm
ends 2 "$usage" trace words.v 100000001 rising.pgm out.pgm
ends 2 "$usage" trace words.v 4 rising.pgm
ends 2 "$usage" trace enabled.v 4 rising.pgm out.pgm --hold 1
ends 2 "$usage" trace words.v 4 rising.pgm out.pgm --fill ones
none
ends 8 'cannot write' trace words.v 4 rising.pgm /dev/full

finish
