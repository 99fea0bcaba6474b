#!/bin/sh
# `make`: the lines of numbers.
# usage: tests/quick/make.sh PROGRAM
. "$(dirname -- "$0")/cases.sh"

# makes N LINE: `make N` ends with status 0 and prints this line alone
makes() {
    prints "$2" make "$1"
}
makes 0 'make 0: size 1 1 images 1 reads 1 bits 0 latency 0 sum 35'
makes 1 'make 1: size 2 1 images 1 reads 0 bits 0 latency 0 sum 0'
makes 3 'make 3: size 4 1 images 1 reads 1 bits 8 latency 0 sum 0'
# the greatest one, 256 by 256 with 64 definitions, gives the same line each time
greatest=$("$program" make 4194303)
makes 4194303 "$greatest"
# leading zeros change nothing
makes 007 "$("$program" make 7)"
makes "$(printf '%0101d' 3)" 'make 3: size 4 1 images 1 reads 1 bits 8 latency 0 sum 0'
# also past 32 and 64 bits a number is past the range
for number in 4194304 0004194304 4294967297 18446744073709551617 -1 +1 1x ''; do
    ends 2 "$usage" make "$number"
done
ends 2 "$usage" make
ends 2 "$usage" make 1 2
"$program" make 0 >/dev/full 2>stderr
is 'a full standard output of make is not reported' [ "$? $(cat stderr)" = '8 cannot write' ]

finish
