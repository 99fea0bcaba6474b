#!/bin/sh
# Files of images with faults, and files that cannot be read or written.
# usage: tests/quick/images.sh PROGRAM
. "$(dirname -- "$0")/cases.sh"

# Faults of files of images.
cp gradient.pgm longer.pgm
printf x >>longer.pgm
ends 4 'image: Magic 140' eval copy.dk longer.pgm out.pgm
none
ends 4 'image: Magic 140' run copy.dk longer.pgm out.pgm
holds gradient.pgm
{
    printf P5
    head -c 65534 /dev/zero | tr '\0' ' '
} >header.pgm
ends 4 'image: LongHeader 65536' eval copy.dk header.pgm out.pgm
none
cat gradient.pgm header.pgm >second.pgm
ends 4 'image: LongHeader 65536' run copy.dk second.pgm out.pgm
holds gradient.pgm
# a byte behind 65,536 images
echo 'size 1 1 input a : u8 output a' >pixel.dk
printf 'P5 1 1 255\nx' >pixels.pgm
for _ in 1 2 3 4 5 6 7 8 9 10 11 12 13 14 15 16; do
    cat pixels.pgm pixels.pgm >twice.pgm && mv twice.pgm pixels.pgm
done
ends 0 '' eval pixel.dk pixels.pgm out.pgm
printf P >>pixels.pgm
ends 4 'image: Count 65536' eval pixel.dk pixels.pgm out.pgm
none
ends 4 'image: Count 65536' run pixel.dk pixels.pgm out.pgm
truncate -s 268435457 zeros.pgm
ends 4 'image: TooLong 268435456' eval copy.dk zeros.pgm out.pgm
none
rm zeros.pgm

# What cannot be read or written.
ends 7 'cannot read' run missing.dk gradient.pgm out.pgm
ends 7 'cannot read' run copy.dk missing.pgm out.pgm
none
ends 7 'cannot read' run . gradient.pgm out.pgm
ends 7 'cannot read' run copy.dk . out.pgm
none
ends 8 'cannot write' run copy.dk gradient.pgm /dev/full
ends 8 'cannot write' run copy.dk gradient.pgm missing/out.pgm

# A line that cannot be written changes no status.
"$program" run copy.dk 2>&-
is 'a closed standard error changes the status' [ $? = 2 ]

# With all standard descriptors closed no file gets their numbers, and the line of a fault stands in none.
printf 'P5\n16 8\n255\n' >ends_early.pgm
rm -f out.pgm
"$program" run copy.dk ends_early.pgm out.pgm <&- >&- 2>&-
is 'closed standard descriptors change the status' [ $? = 4 ]
holds ends_early.pgm 'where the standard descriptors are closed'

finish
