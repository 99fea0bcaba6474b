#!/bin/sh
# `compile`: its text clocked by `sim`, its arrays, and the limits on bits and latency.
# usage: tests/quick/compile.sh PROGRAM
. "$(dirname -- "$0")/cases.sh"

# shares NAME WORD..: in the text that `compile` writes with these words, arrays of one number of words are read at one net, and those of one word at a constant 0
shares() {
    name=$1
    shift
    "$program" compile "$@" "$name.dk" text.v >/dev/null 2>&1
    sed -n 's/^  reg .*\(m[0-9]*\) \[0:\([0-9]*\)\];$/\1 \2/p' text.v | sort >depths
    sed -n 's/^  assign n[0-9]* = \(m[0-9]*\)\[\(n[0-9]*\)\];$/\1 \2/p' text.v | sort >indices
    join depths indices | cut -d ' ' -f 2- | sort -u >pairs
    is "$name $*: an array is not read" [ "$(wc -l <depths)" = "$(wc -l <indices)" ]
    is "$name $*: arrays of one number of words do not share a counter" [ "$(cut -d ' ' -f 1 pairs | sort -u | wc -l)" = "$(wc -l <pairs)" ]
    for net in $(sed -n 's/^0 //p' pairs); do
        is "$name $*: an array of one word has a counter" grep -q "^  assign $net = 1'd0;$" text.v
    done
}
# With `--block 32` an array of at least 32 words is followed by one of one word, and none has 2 to 8 words.
while read -r name input <&3; do
    shares "$name"
    shares "$name" --enable --block 32
    sed -n 's/^  reg .*m[0-9]* \[0:\([0-9]*\)\];$/\1/p' text.v >depths
    is "$name --block 32: a block memory without a register after it" awk '$1 > 0 && long { bad = 1 } { long = $1 > 30 } END { exit bad || long }' depths
    is "$name --block 32: an array of 2 to 8 words" awk '$1 > 0 && $1 < 8 { bad = 1 } END { exit bad }' depths
done 3<"$examples/programs/pictures.txt"

printf '\001' >byte.dk
# Compiled texts, clocked: the mean of three at each age, with the port `en` and without it, from zeros and from ones, gives its picture.
printf 'size 4 1\ninput a : u8\nlet f = im(x,y) ((a(x-1,y)+a(x,y)+a(x+1,y))/3) as u8 end\noutput f\n' >mean3.dk
printf 'P5\n4 1\n255\n\003\006\011\014' >mean3.pgm
printf 'P5\n4 1\n255\n\003\006\011\007' >wanted.pgm
ends 0 '' compile mean3.dk text.v
ends 0 '' sim text.v 5 mean3.pgm out.pgm
holds wanted.pgm 'compile'
ends 0 '' trace text.v 5 mean3.pgm out.pgm
holds "$tests/waves/mean3.vcd"
ends 6 'stopped: count 3 of 4' sim text.v 4 mean3.pgm out.pgm
ends 5 'verilog 7-9: Ports' sim text.v 5 mean3.pgm out.pgm --hold 1
ends 0 '' compile --enable mean3.dk text.v
for hold in 1 2 1000000; do
    ends 0 '' sim text.v 5 mean3.pgm out.pgm --fill ones --hold $hold
    holds wanted.pgm 'compile --enable'
done
ends 0 '' sim text.v 5 mean3.pgm out.pgm
holds wanted.pgm 'compile --enable'
for age in 1 2 64; do
    ends 0 '' compile mean3.dk text.v --age $age
    clocks=$("$program" plan --age $age mean3.dk | sed -n 's/^clocks //p')
    ends 0 '' sim text.v "$clocks" mean3.pgm out.pgm --fill ones
    holds wanted.pgm "compile --age $age"
    ends 0 '' run --age $age mean3.dk mean3.pgm out.pgm
    holds wanted.pgm "run --age $age"
done
# the same of each example, with the clocks that its plan asks for, and those of further rounds; its images have 64 by 48 pixels of one byte
while read -r name input <&3; do
    ends 0 '' compile "$name.dk" text.v
    rounds=$(($(wc -c <"$input.pgm") / 3073 / $(grep -c '^input' "$name.dk")))
    clocks=$(($("$program" plan "$name.dk" | sed -n 's/^clocks //p') + (rounds - 1) * 3072))
    for fill in zeros ones; do
        ends 0 '' sim text.v "$clocks" "$input.pgm" out.pgm --fill $fill
        holds "$name.pgm" 'compile'
    done
done 3<"$examples/programs/pictures.txt"
# The same picture with arrays that are read one clock ahead, of each example, with `en` and without it, at the ages 0 and 1.
while read -r name input <&3; do
    rounds=$(($(wc -c <"$input.pgm") / 3073 / $(grep -c '^input' "$name.dk")))
    for age in 0 1; do
        clocks=$(($("$program" plan --age $age "$name.dk" | sed -n 's/^clocks //p') + (rounds - 1) * 3072))
        for block in 2 0032; do
            ends 0 '' compile --age $age --block $block "$name.dk" text.v
            ends 0 '' sim text.v "$clocks" "$input.pgm" out.pgm --fill ones
            holds "$name.pgm" "compile --age $age --block $block"
            ends 0 '' compile --enable --age $age --block $block "$name.dk" text.v
            ends 0 '' sim text.v "$clocks" "$input.pgm" out.pgm --fill ones --hold 3
            holds "$name.pgm" "compile --enable --age $age --block $block"
        done
    done
done 3<"$examples/programs/pictures.txt"
# Without an array of that many words the text is that without the option.
ends 0 '' compile mean3.dk text.v
ends 0 '' compile --block 2 mean3.dk out.pgm
is 'compile --block changed a text without long arrays' cmp -s text.v out.pgm
# Equal reads of one body share their choice: a sum of 1,024 clamped reads, of two kinds in turn, is compiled in less than a second of processor time, although there are 3,072 live reads to choose from.
sum='(g(x,y)+h(x,y))'
for _ in 1 2 3 4 5 6 7 8 9; do
    sum="($sum+$sum)"
done
echo "size 64 64 input a : u8
inline let g = im(x,y) a(x+63,y+31) edge clamp end
inline let h = im(x,y) a(x+31,y+63) edge clamp end
let f = im(x,y) $sum as u8 end
output f" >shared.dk
is 'equal reads do not share their choice' sh -c 'ulimit -t 1 && exec "$0" compile shared.dk text.v' "$program"
cp mean3.dk text.dk
ends 2 "$usage" compile mean3.dk
ends 2 "$usage" compile mean3.dk mean3.dk
ends 2 "$usage" compile mean3.dk text.v --age 65
ends 2 "$usage" compile mean3.dk text.v --enable=true
ends 2 "$usage" compile mean3.dk text.v --enable --enable
ends 2 "$usage" compile --hold 1 mean3.dk text.v
ends 2 "$usage" compile --block 1 mean3.dk text.v
ends 2 "$usage" compile --block 67108865 mean3.dk text.v
ends 2 "$usage" run --block 2 mean3.dk mean3.pgm out.pgm
rm -f text.v
ends 3 'program 0-1: BadByte' compile byte.dk text.v
ends 7 'cannot read' compile missing.dk text.v
is 'compile created something' [ ! -e text.v ]
# An input under another name is not written over: it keeps its bytes.
cp mean3.pgm same.pgm
ln -s same.pgm link.pgm
ln same.pgm hard.pgm
for name in ./same.pgm link.pgm hard.pgm; do
    ends 8 'cannot write' run mean3.dk same.pgm "$name"
    ends 8 'cannot write' eval mean3.dk same.pgm "$name"
done
ends 8 'cannot write' compile mean3.dk ./mean3.dk
is 'an image was changed under another name' cmp -s same.pgm mean3.pgm
is 'a program was changed under another name' cmp -s mean3.dk text.dk
ends 8 'cannot write' compile mean3.dk /dev/full
ends 8 'cannot write' compile mean3.dk missing/text.v

# Each line of calls/circuits.txt is a program, an age, the delay of each kept image, the buffer bits, and the words and bits of a word of each array.
# The plan has these delays and bits, and the text of `compile` these arrays.
while IFS='|' read -r text age wanted <&3; do
    printf '%s\n' "$text" >text.dk
    ends 0 '' compile --age "$age" text.dk text.v
    "$program" plan --age "$age" text.dk >plan.txt 2>stderr
    found=$(awk '/^image/ { line = line $4 " " } /^bits/ { bits = $2 } END { sub(/ $/, "", line); print line "|" bits "|" }' plan.txt)
    found=$found$(awk '/^  reg .*m[0-9]+ / { gsub(/[^0-9]+/, " "); print $NF + 1 "x" (NF > 3 ? $1 + 1 : 1) }' text.v | tr '\n' ' ' | sed 's/ $//')
    is "$text at age $age: $found, expected $wanted" [ "$found" = "$wanted" ]
done 3<"$tests/calls/circuits.txt"
# at the limits on bits and latency, and above them: four images of 64 bits, each read where it is and 64 rows above, and with them an image of one bit
# that is read one column to the left; and 256 images of which each reads the one before it 64 rows below
wide=$(printf 'size 4096 4096 input a:u8 let p=im(x,y) a(x,y) as u64 end let q=im(x,y) p(x,y)|p(x,y-64) end let r=im(x,y) q(x,y)|q(x,y-64) end
let s=im(x,y) r(x,y)|r(x,y-64) end let t=im(x,y) (s(x,y)|s(x,y-64)) as u8 end')
echo "$wide output t" >text.dk
is 'the bits at the limit' [ "$("$program" plan text.dk | grep '^bits\|^latency' | tr '\n' ' ')" = 'latency 0 bits 67108864 ' ]
echo "$wide let b=im(x,y) a(x,y)==0 end let c=im(x,y) b(x,y)|b(x-1,y) end output t output c" >text.dk
ends 3 'program: Bits 67108865' plan text.dk
late=$(awk 'BEGIN { for (k = 0; k < 255; k++) printf "let i%d=im(x,y) i%d(x,y+64) end ", k + 1, k }')
echo "size 4096 4096 input i0:u8 $late let last=im(x,y) i255(x,y+64) end output last" >text.dk
is 'the latency at the limit' [ "$("$program" plan text.dk | grep '^bits\|^latency' | tr '\n' ' ')" = 'latency 67108864 bits 0 ' ]
echo "size 4096 4096 input i0:u8 $late let last=im(x,y) i255(x+1,y+64) end output last" >text.dk
ends 3 'program: Latency 67108865' plan text.dk

finish
