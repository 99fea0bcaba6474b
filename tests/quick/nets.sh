#!/bin/sh
# `nets`: lines that were worked out by hand from the texts of `compile`, after the line of the text's SHA-256 by sha256sum.
# usage: tests/quick/nets.sh PROGRAM
. "$(dirname -- "$0")/cases.sh"

# digest WORD..: the line of the text that `compile` writes with these words
digest() {
    "$program" compile "$@" text.v && sum=$(sha256sum <text.v) && printf 'text sha256 %s' "${sum%% *}"
}

# a copy: one net for both images, and the ports
printf 'size 3 1\ninput a : u8\nlet f = im(x,y) a(x,y) end\noutput f\n' >copy.dk
prints "$(digest copy.dk)"'
image a din 8 0
image f din 8 0
read f a 0 0 din 0
output f valid dout' nets copy.dk
# At age 1 `a` has an array of two words (n6), `b` and `d` have one word each (n9, n30). The difference is n29, and n34 is 0 where it is negative.
printf 'size 4 1\ninput a : u8\ninput b : u4\nlet d = im(x,y) a(x-1,y) - b(x,y) end\nlet e = im(x,y) sat(d(x,y), u8) end\noutput e\noutput a\n' >two.dk
prints "$(digest --age 1 --enable two.dk)"'
image a din 8 0
image b din1 4 0
image d n29 9 1
image e n34 8 2
read d a -1 0 n6 2
read d b 0 0 n9 1
read e d 0 0 n30 1
output e valid dout
output a valid1 dout1' nets --age 1 two.dk --enable
printf 'size 1 1' >text.dk
ends 3 'program 8-8: Syntax' nets text.dk
ends 7 'cannot read' nets missing.dk
finish
