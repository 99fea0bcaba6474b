#!/bin/sh
# What tools/dk/progress.sh shows at a terminal beside a program that takes long: a script stands for the program, and `script` of util-linux for the
# terminal. The last line is `N passed, M failed`.
# usage: tests/progress.sh
. "$(dirname -- "$0")/lib.sh" || exit 2
command -v script >/dev/null || {
    echo 'progress: script is not installed, and was passed over'
    exit 0
}
in_folder
# twenty images of 10 by 10 with headers of 12 bytes
for image in 1 2 3 4 5 6 7 8 9 10 11 12 13 14 15 16 17 18 19 20; do
    printf 'P5\n10 10\n99\n%0100d' "$image"
done >in.pgm
# It reads 700 bytes, six images and a part, writes a trace up to time 41, and takes three seconds; at a terminal also as long as nothing is
# shown, half a minute at most, since a busy machine shows it late.
cat >program <<'end'
#!/bin/sh
exec 5<in.pgm
dd bs=700 count=1 <&5 >/dev/null 2>&1
printf '#40\n1!\n#41\n' >out.vcd
sleep 3
[ -t 2 ] || exit 0
number=0
until grep -q "$(printf '\r')dk: " typed || [ "$number" = 60 ]; do
    number=$((number + 1))
    sleep 0.5
done
end
cat >call <<'end'
#!/bin/sh
built=./program
called=dk
docs=docs
. "$top/tools/dk/follow.sh"
end
chmod +x program call
export top

cleared=$(printf '\r\033\\[K *$')
# shows WANTED WORD..: at a terminal the call shows this, and at last a cleared line; nothing where standard error is no terminal
shows() {
    wanted=$1
    shift
    SHELL=/bin/sh script -qfec "./call $*" typed >/dev/null </dev/null
    tr '\r' '\n' <typed | sed 's/\x1b\[K//' >lines
    is "dk $* shows $(grep '^dk' lines | tail -n 1)" grep -qE "^dk: $wanted\$" lines
    grep -v '^Script done' typed | tr '\n' ' ' >shown
    is "dk $*: the line is not cleared" grep -q "$cleared" shown
    ./call "$@" 2>err
    is "dk $*: something is written that is not for a terminal" [ ! -s err ]
}
shows '6 of 20 images of IN, [0-9]+\.[0-9] a second' run p.dk in.pgm out.pgm
shows '41 of 100 clocks, [0-9]+\.[0-9] a second' trace v.v 100 in.pgm out.vcd
shows '[0-9]+ s' eval p.dk in.pgm out.pgm
finish
