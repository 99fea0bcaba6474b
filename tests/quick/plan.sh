#!/bin/sh
# `plan` and `check`: reports of plans and of others.
# usage: tests/quick/plan.sh PROGRAM
. "$(dirname -- "$0")/cases.sh"

printf '\001' >byte.dk
# Reports: each line of plans.txt is a program of reports/ with an age, and its image lines, latencies, bits and reads. The flow may be any, and the report holds.
while IFS='|' read -r name age bits latency lines <&3; do
    "$program" plan "$name.dk" --age "$age" >plan.txt 2>stderr
    is "plan $name.dk --age $age: status $?, $(cat stderr), $(tr '\n' ',' <plan.txt)" [ "$(grep -v '^flow\|^limits\|^end' plan.txt | tr '\n' ',')" = "$lines" ]
    prints "report holds: bits $bits latency $latency" check "$name.dk" plan.txt
done 3<"$tests/reports/plans.txt"
prints "$(cat "$tests/reports/mean_plan.txt")" plan mean.dk
for example in "$examples"/programs/*.dk; do
    is "the plan of $example does not hold" plan_holds "$example"
done
# a report of another maker, and faults of reports
prints 'report holds: bits 456 latency 17' check skip.dk skip.txt
sed 's/^image across 10 1 32$/image across 10 1 33/' skip.txt >wrong.txt
ends 10 'report: line 6' check skip.dk wrong.txt
prints 'report holds: bits 64 latency 8' check square.dk square.txt
sed 's/^flow hold p 8$/flow hold p 9/' square.txt >wrong.txt
ends 10 'report: line 15' check square.dk wrong.txt
sed 's/^image p 16 8 0$/image p 16 7 0/' square.txt >wrong.txt
ends 10 'report: line 2' check square.dk wrong.txt
sed 's/^image a 8 0 8$/image a 8 0 0/; s/^image p 16 8 0$/image p 16 0 8/; s/^bits 64$/bits 128/' square.txt >wrong.txt
ends 10 'report: line 15' check square.dk wrong.txt
printf '%s' "$(cat square.txt)" >wrong.txt
ends 10 'report: line 15' check square.dk wrong.txt
sed 's/^image s /image p /' square.txt >wrong.txt
ends 10 'report: line 4' check square.dk wrong.txt
ends 10 'report: line 1' check mean.dk square.txt
ends 10 'report: line 4' check square.dk mean_plan.txt
echo 'plan 4' >wrong.txt
ends 10 'report: line 1' check square.dk wrong.txt
printf 'size 1 1' >text.dk
ends 3 'program 8-8: Syntax' check text.dk mean_plan.txt
grep -v '^end' mean_plan.txt >wrong.txt
ends 10 'report: line 14' check mean.dk wrong.txt
head -c 4194305 /dev/zero >long.txt
ends 10 'report: TooLong 4194304' check mean.dk long.txt
ends 3 'program 0-1: BadByte' check byte.dk missing.txt
ends 7 'cannot read' check mean.dk missing.txt
ends 7 'cannot read' check missing.dk square.txt
ends 3 'program 0-1: BadByte' plan byte.dk
ends 7 'cannot read' plan missing.dk
ends 2 "$usage" plan mean.dk --age 65
ends 2 "$usage" plan mean.dk --age=
prints "$("$program" plan mean.dk --age 1)" plan mean.dk --age 01
ends 2 "$usage" plan --age 1 --age 1 mean.dk
ends 2 "$usage" --age 1 plan mean.dk
ends 2 "$usage" plan --ag 1 mean.dk
ends 2 "$usage" check mean.dk
# images in a row, each of which reads the one before: how many, and the read
chain() {
    printf 'size 4096 4096 input f0 : u16 '
    k=1
    while [ $k -le "$1" ]; do
        printf "let f%d = im(x,y) f%d$2 end " $k $((k - 1))
        k=$((k + 1))
    done
    printf 'output f%d' "$1"
}
chain 17 '(x,y-64)' >bits.dk
ends 3 'program: Bits 71303168' plan bits.dk
ends 3 'program: Bits 71303168' compile bits.dk text.v
ends 3 'program: Bits 71303168' eval bits.dk missing.pgm out.pgm
ends 3 'program: Bits 71303168' run bits.dk missing.pgm out.pgm
chain 256 '(x+64,y+64)' >late.dk
ends 3 'program: Latency 67125248' plan late.dk
ends 3 'program: Latency 67125248' compile late.dk text.v
ends 3 'program: Latency 67125248' eval late.dk missing.pgm out.pgm
"$program" plan mean.dk >/dev/full 2>stderr
is 'a full standard output is not reported' [ "$? $(cat stderr)" = '8 cannot write' ]

finish
