#!/bin/sh
# Compares the pages of tools/look with values that were worked out by hand, and makes the pages of all examples and pipelines.
# The last line is `N passed, M failed`.
# usage: tests/look.sh PROGRAM
. "$(dirname -- "$0")/lib.sh" && program=$(whole "$1") || exit 2
in_folder
# the pixels 10 and 25: differences to the left 10 and 15, a negative of them, and values of 28 bits
printf 'size 2 1
input a : u8
let d = im(x,y) a(x,y)-a(x-1,y) end -- output of none
let n = im(x,y) d(x,y)*2-40 end
let w = im(x,y) (a(x,y)<<20)-5 end
let look0 = im(x,y) sat(n(x,y)+w(x,y), u8) end
output look0
' >p.dk
printf 'P5\n2 1\n255\n\012\031P5\n2 1\n255\n\001\002' >i.pgm
"$top/tools/look" --dk "$program" p.dk i.pgm p.html
# captions: the picture's name and the values from least to greatest
sed -n 's/<figcaption>/\n&/gp' p.html | sed -n 's/^<figcaption><b>\([^<]*\)<\/b>: \([^<]*\)<.*/\1 \2/p' >got
cat >wanted <<'end'
a u8, from 10 to 25
d s9, from 10 to 15
n s12, from -20 to -10
w s29, from 10,477,568 to 26,206,208, without its 13 lowest bits
look0 u8, from 255 to 255
end
is "the captions are $(tr '\n' '/' <got)" cmp -s got wanted
is 'the page refers to another file' sh -c '! grep -qE "(src|href)=\"(http|[^d#])" p.html'
is 'the bits or the latency are missing' grep -q '2 by 1 pixels, .* buffer bits at least, latency 0 clocks' p.html
# an output that is an input, and a file that is missing: one line, and no file changes
cat p.dk i.pgm >before
refuses() {
    ! "$@" >said 2>&1 && [ "$(wc -l <said)" = 1 ] && cat p.dk i.pgm | cmp -s - before
}
is 'look overwrites its program' refuses "$top/tools/look" --dk "$program" p.dk i.pgm ./p.dk
is 'look overwrites its pictures' refuses "$top/tools/look" --dk "$program" p.dk i.pgm i.pgm
is 'look does not name a missing file' refuses "$top/tools/look" --dk "$program" q.dk i.pgm q.html
is 'png.py overwrites its input' refuses python3 "$top/tools/png.py" i.pgm i.pgm
is 'png.py does not name a missing file' refuses python3 "$top/tools/png.py" q.pgm q.png
is 'png.py takes any COLUMNS' refuses python3 "$top/tools/png.py" i.pgm q.png x
is 'phases.py overwrites its input' refuses python3 "$top/tools/phases.py" split 2 i.pgm i.pgm
is 'phases.py does not name a missing file' refuses python3 "$top/tools/phases.py" split 2 q.pgm o.pgm
while read -r name input; do
    is "no page of $name" "$top/tools/look" --dk "$program" "$examples/programs/$name.dk" "$examples/programs/$input.pgm" "$name.html"
done <"$examples/programs/pictures.txt"
while read -r name input; do
    is "no page of $name" "$top/tools/look" --dk "$program" "$examples/pipelines/$name.dk" "$examples/pipelines/$input.pgm" "$name.html"
done <"$examples/pipelines/pictures.txt"
finish
