#!/bin/sh
# Words that name no command, and programs that are refused or at a limit.
# usage: tests/quick/programs.sh PROGRAM
. "$(dirname -- "$0")/cases.sh"

# Each line of calls/programs.txt is what `compile` says of a program, a tab, and the program.
while IFS=$tab read -r line text <&3; do
    printf '%s' "$text" >text.dk
    if [ "$line" = accepted ]; then
        ends 0 '' compile text.dk out.pgm
    else
        ends 3 "$line" compile text.dk out.pgm
        none
        ends 3 "$line" cut 1 text.dk out.pgm
        none
        ends 3 "$line" narrow text.dk out.pgm
        none
        ends 3 "$line" widen 2 text.dk out.pgm
        none
    fi
done 3<"$tests/calls/programs.txt"

ends 2 "$usage"
ends 2 "$usage" run copy.dk
ends 2 "$usage" run copy.dk gradient.pgm out.pgm --age 65
ends 2 "$usage" eval -a copy.dk -- out.pgm
ends 2 "$usage" compile --enable=true copy.dk out.pgm
ends 2 "$usage" help
ends 2 "$usage" run copy.dk gradient.pgm gradient.pgm
is 'the input was changed' cmp -s gradient.pgm "$examples/programs/gradient.pgm"
ends 2 "$usage" run "$(printf '\377')" gradient.pgm out.pgm
none
# words behind `--` are names, and numbers may begin with zeros
cp copy.dk ./--age
cp gradient.pgm ./-image
ends 0 '' run -- --age -image out.pgm
holds gradient.pgm
"$program" compile --age 3 copy.dk --enable first.v --block 032
"$program" compile --block 32 --age 03 --enable copy.dk second.v
is 'the order of options counts' cmp -s first.v second.v

# Faults of programs.
printf '\001' >byte.dk
ends 3 'program 0-1: BadByte' run byte.dk gradient.pgm out.pgm
none
head -c 1048577 /dev/zero | tr '\0' ' ' >long.dk
ends 3 'program: TooLong 1048576' run long.dk gradient.pgm out.pgm
ends 3 'program: TooLong 1048576' eval long.dk gradient.pgm out.pgm
none
# Each line of calls/repeated.txt is what `compile` says of a program, and the four parts of a body: the second is there as often as the third says. The
# body begins at byte 34.
while IFS='|' read -r line first again count last <&3; do
    awk -v first="$first" -v again="$again" -v count="$count" -v last="$last" 'BEGIN {
        printf "size 1 1 input a:u8 let f=im(x,y) %s", first
        for (k = 0; k < count; k++) printf "%s", again
        printf "%s end output a", last
    }' >text.dk
    if [ "$line" = accepted ]; then
        ends 0 '' compile text.dk out.pgm
    else
        ends 3 "$line" compile text.dk out.pgm
        none
    fi
done 3<"$tests/calls/repeated.txt"

# Inline images of 9, 21, 45 and more nodes, each twice the one before and 3 more, with a read of it 1 more.
doubled() {
    printf 'size 3 1 input a:u8 inline let i1=im(x,y) a(x,y)+a(x,y) end'
    k=1
    while [ $k -lt 15 ]; do
        printf ' inline let i%d=im(x,y) i%d(x,y)+i%d(x,y) end' $((k + 1)) $k $k
        k=$((k + 1))
    done
}
# nodes LINE TEXT: `compile` ends so with these images and this text
nodes() {
    {
        doubled
        printf ' %s' "$2"
    } >text.dk
    if [ -z "$1" ]; then
        ends 0 '' compile text.dk out.pgm
    else
        ends 3 "$1" compile text.dk out.pgm
        none
    fi
}
# 65,536 nodes: 49,150 of i14, and one more than a read of each further image
sum='i14(x,y)+i12(x,y)+i10(x,y)+i8(x,y)+i6(x,y)+i4(x,y)+i3(x,y)'
nodes 'program: Nodes 98303' 'let f=im(x,y) i15(x,y) as u8 end output f'
nodes '' "let f=im(x,y) $sum end output a"
nodes 'program: Nodes 65537' "let f=im(x,y) -($sum) end output a"
nodes 'program: Nodes 65537' "let f:u64=im(x,y) $sum end output a"
nodes 'program: Nodes 65537' "let e=im(x,y) 1 end let f=im(x,y) $sum end output a"
nodes '' "inline let e=im(x,y) 1 end let f=im(x,y) $sum end output a"
nodes 'program: Nodes 65537' "inline let e=im(x,y) 1 end let f=im(x,y) $sum end output e output a"

# A read that is clamped at the last pixel is one live read for each pixel. The other read is one of them, or none.
# reads SIZE COLUMNS ROWS OTHER: a program with these reads, as moves by 64 columns at most
reads() {
    printf 'size %s input a:u8 inline let m0=im(x,y) a(x,y+%d) edge clamp end' "$1" "$3"
    k=0
    columns=$2
    while [ "$columns" -gt 0 ]; do
        step=$((columns < 64 ? columns : 64))
        printf ' inline let m%d=im(x,y) m%d(x+%d,y) edge clamp end' $((k + 1)) $k $step
        k=$((k + 1))
        columns=$((columns - step))
    done
    printf ' let f=im(x,y) (m%d(x,y)+%s) as u8 end output f' $k "$4"
}
reads '64 64' 63 63 'a(x,y)' >text.dk
is 'a program of 4,096 live reads is not planned' [ "$("$program" plan text.dk | grep '^reads')" = 'reads 4096' ]
reads '64 64' 63 63 'a(x-1,y)' >text.dk
ends 3 'program: Reads 4097' compile text.dk out.pgm
reads '4096 16' 4095 15 'a(x,y)' >text.dk
ends 3 'program: Reads 65536' compile text.dk out.pgm
reads '4096 16' 4095 15 'a(x-1,y)' >text.dk
ends 3 'program: Reads 65537' compile text.dk out.pgm
reads '4096 17' 4095 16 'a(x,y)' >text.dk
ends 3 'program: Reads 65537' compile text.dk out.pgm

# refused LINE: the text in text.dk ends with this line, by either command
refused() {
    ends 3 "$1" eval text.dk gradient.pgm out.pgm
    ends 3 "$1" run text.dk gradient.pgm out.pgm
    none
}

{
    printf 'size 1 1 '
    repeat 9 'input a%d : u1 '
    printf 'output a1'
} >text.dk
refused 'program 127-129: TooManyInputs'
{
    printf 'size 1 1 input a : u1 '
    repeat 7 'let b%d = im(x,y) 1 end '
    printf 'output a '
    repeat 7 'output b%d '
    printf 'output a'
} >text.dk
refused 'program 269-270: TooManyOutputs'
{
    printf 'size 1 1 input a : u1 '
    repeat 256 'let c%d = im(x,y) 1 end '
} >text.dk
start=$(($(wc -c <text.dk) + 4))
printf 'let c257 = im(x,y) 1 end output a' >>text.dk
refused "program $start-$((start + 4)): TooManyImages"
{
    printf 'size 1 1 input a : u8 let f = im(x,y) 1'
    repeat 512 '+1%.0s'
    printf ' end output f'
} >text.dk
refused 'program 38-1063: Depth'
{
    printf 'size 1 1 input a : u8 inline let d1 = im(x,y) a(x,y)'
    repeat 400 '|1%.0s'
    printf ' end inline let d2 = im(x,y) d1(x,y)'
    repeat 400 '|1%.0s'
    printf ' end inline let d3 = im(x,y) d2(x,y)'
    repeat 400 '|1%.0s'
    printf ' end let '
} >text.dk
start=$(wc -c <text.dk)
printf 'f = im(x,y) d3(x,y) end output f' >>text.dk
refused "program $start-$((start + 1)): InlineDepth"
{
    printf 'size 128 128 input a : u1 inline let r = im(x,y) a(x,y)'
    repeat 64 '|a(x-%d,y)'
    printf ' end let f = im(x,y) r(x,y)'
    repeat 64 '|r(x,y-%d)'
    printf ' end output f'
} >text.dk
refused 'program: Reads 4225'

# The deepest programs that the limits accept: 128 open brackets, those of the read among them, a tree of depth 512, and an inlined one of depth 1,024, in which a read of an inline image counts too.
printf 'P5 1 1 255\n\002' >dot.pgm

# deep VALUE: the program in text.dk is planned, and makes this sample of the sample 2
deep() {
    printf "P5\n1 1\n255\n$1" >wanted.pgm
    for command in eval run; do
        ends 0 '' "$command" text.dk dot.pgm out.pgm
        holds wanted.pgm
    done
    is 'the plan of a deep program does not hold' plan_holds text.dk
}
{
    printf 'size 1 1 input a : u8 let f = im(x,y) '
    repeat 127 '(%.0s'
    printf 'a(x,y)'
    repeat 127 ')%.0s'
    printf ' end output f'
} >text.dk
deep '\002'
{
    printf 'size 1 1 input a : u8 let f = im(x,y) a(x,y)'
    repeat 511 '|1%.0s'
    printf ' end output f'
} >text.dk
deep '\003'
{
    printf 'size 1 1 input a : u8 inline let d1 = im(x,y) a(x,y)'
    repeat 400 '|1%.0s'
    printf ' end inline let d2 = im(x,y) d1(x,y)'
    repeat 400 '|1%.0s'
    printf ' end let f = im(x,y) d2(x,y)'
    repeat 221 '|1%.0s'
    printf ' end output f'
} >text.dk
deep '\003'

finish
