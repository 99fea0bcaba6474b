#!/bin/sh
# `widen`: written texts, phases of a picture, the examples, and each fault.
# usage: tests/quick/widen.sh PROGRAM
. "$(dirname -- "$0")/cases.sh"

# widens NAME LINE P PROGRAM: the program is widened into out.dk, and this line is printed
widens() {
    cases=$((cases + 1))
    rm -f out.dk
    "$program" widen "$3" "$4" out.dk >stdout 2>stderr
    got=$?
    if [ "$got" != 0 ] || [ -s stderr ] || [ "$(cat stdout)" != "$2" ]; then
        wrong "$1, by $3: status $got, '$(cat stdout)', '$(cat stderr)', expected '$2'"
    fi
}

# bits PROGRAM: its least buffer bits, as `plan` prints them
bits() {
    "$program" plan "$1" | sed -n 's/^bits //p'
}

# Each line of calls/widens.txt is what it shows, P, the number of definitions, the program and the text that is expected, with bytes as printf reads them.
while IFS=$tab read -r name phases count text wanted <&3; do
    printf '%b' "$text" >text.dk
    printf '%b' "$wanted" >wanted.dk
    widens "$name" "widen: definitions $count bits $(bits wanted.dk) from $(bits text.dk)" "$phases" text.dk
    is "$name: the text is '$(cat out.dk)'" cmp -s out.dk wanted.dk
done 3<"$tests/calls/widens.txt"

# The mean of three, clamped, of 9 0 3 6 is 6 4 3 5. Of these each phase of two shows every other column.
printf 'size 4 1 input a:u8 let f=im(x,y) ((a(x-1,y) edge clamp+a(x,y)+a(x+1,y) edge clamp)/3) as u8 end output f' >mean.dk
widens 'the mean' 'widen: definitions 5 bits 16 from 16' 2 mean.dk
printf 'P5\n2 1\n255\n\011\003P5\n2 1\n255\n\000\006' >parts.pgm
printf 'P5\n2 1\n255\n\006\003P5\n2 1\n255\n\004\005' >shown.pgm
for words in eval run 'run --age 1'; do
    # shellcheck disable=SC2086
    ends 0 '' $words out.dk parts.pgm out.pgm
    holds shown.pgm "($words)"
done

# The examples show the phases of their pictures. One process of Python splits them all.
split() {
    python3 - "$top/tools" <<'end'
import sys
sys.dont_write_bytecode = True
sys.path.insert(0, sys.argv[1])
import phases
for names in open("widened"):
    for name, part in zip(names.split(), ("shown", "parts")):
        with open(f"{name}.pgm", "rb") as whole, open(f"{names.split()[0]}_{part}.pgm", "wb") as file:
            file.write(phases.file_of(phases.split(phases.images(whole.read()), 2)))
end
}
if command -v python3 >/dev/null; then
    while read -r name input <&3; do
        "$program" widen 2 "$name.dk" "${name}_wide.dk" >stdout 2>stderr
        case $?,$(cat stderr) in
        0,) echo "$name $input" ;;
        11,'widen: '*) ;;
        *) wrong "$name is not widened: $(cat stderr)" ;;
        esac
    done 3<"$examples/programs/pictures.txt" >widened
    split || wrong 'the pictures were not split'
    is 'no example was widened' [ -s widened ]
    while read -r name input <&3; do
        ends 0 '' eval "${name}_wide.dk" "${name}_parts.pgm" out.pgm
        holds "${name}_shown.pgm" "$name by two"
        ends 0 '' run --age 1 "${name}_wide.dk" "${name}_parts.pgm" out.pgm
        holds "${name}_shown.pgm" "$name by two, at age 1"
    done 3<widened
else
    echo 'widen: python3 is not installed, and the examples were passed over'
fi

# Faults, in their order.
refused() {
    line=$1
    phases=$2
    printf '%b' "$3" >text.dk
    ends 11 "$line" widen "$phases" text.dk out.pgm
    none
}
five='let f=im(x,y) a(x,y) end output f'
refused 'widen: Width 5' 2 "size 5 1 input a:u8 input b:u8 input c:u8 input d:u8 input e:u8 $five"
refused 'widen: Inputs 10' 2 "size 4 1 input a:u8 input b:u8 input c:u8 input d:u8 input e:u8 $five"
refused 'widen: Inputs 12' 4 "size 4 1 input a:u8 input b:u8 input c:u8 let g=im(x,y) a(x,y) end let h=im(x,y) b(x,y) end $five output g output h"
refused 'widen: Outputs 12' 4 "size 4 1 input a:u8 let g=im(x,y) a(x,y) end let h=im(x,y) a(x,y) end $five output g output h"
{
    printf 'size 4 1\ninput a : u8\nlet f0 = im(x,y) a(x,y) end\n'
    k=1
    while [ $k -lt 129 ]; do
        echo "let f$k = im(x,y) f$((k - 1))(x,y) end"
        k=$((k + 1))
    done
    printf 'output f128\n'
} >many.dk
ends 11 'widen: Limits' widen 2 many.dk out.pgm
none
printf 'size 4 1 input a:u8 let f=im(x,y) b(x,y) end output f' >text.dk
ends 3 'program 34-35: UnknownImage' widen 2 text.dk out.pgm
ends 2 "$usage" widen 1 mean.dk out.pgm
ends 2 "$usage" widen 9 mean.dk out.pgm
ends 2 "$usage" widen 2 mean.dk mean.dk
ends 7 'cannot read' widen 2 none.dk out.pgm
none
finish
