#!/bin/sh
# Files and descriptors: OUT is never a descriptor or an input of the program itself, and standard descriptors that are closed are replaced.
# usage: tests/files.sh PROGRAM
. "$(dirname -- "$0")/lib.sh" && program=$(whole "$1") || exit 2
in_folder

printf 'size 4 1\ninput a : u8\nlet f = im(x,y) a(x,y) end\noutput f\n' >copy.dk
printf 'P5\n4 1\n255\nabcd' >in.pgm
cp in.pgm same.pgm
cp copy.dk same.dk
"$program" compile copy.dk wanted.v || exit 2

# A descriptor that is not open is no file, whatever the program has opened itself.
for number in 3 4 5 6 7 8; do
    for folder in /dev/fd /proc/self/fd; do
        eval "\"\$program\" compile copy.dk $folder/$number $number>&-" 2>line
        is "compile to $folder/$number, which is closed, does not fail" [ "$? $(cat line)" = '8 cannot write' ]
        eval "\"\$program\" run copy.dk in.pgm $folder/$number $number>&-" 2>line
        is "run to $folder/$number, which is closed, does not fail" [ "$? $(cat line)" = '8 cannot write' ]
    done
done
is 'an input was changed by its descriptor' cmp -s in.pgm same.pgm
is 'a program was changed by its descriptor' cmp -s copy.dk same.dk

# Where it is open, it is written.
"$program" compile copy.dk /dev/fd/3 3>text.v
is 'compile to an open descriptor' cmp -s text.v wanted.v

# The same where the program is a pipe, and where a pipe has a name.
for number in 3 4 5; do
    eval "\"\$program\" compile /dev/stdin /dev/fd/$number $number>&- <copy.dk" 2>line
    is "compile of standard input to descriptor $number, which is closed" [ "$? $(cat line)" = '8 cannot write' ]
    cat copy.dk | eval "\"\$program\" compile /dev/stdin /dev/fd/$number $number>&-" 2>line
    is "compile of a pipe to descriptor $number, which is closed" [ "$(cat line)" = 'cannot write' ]
done
cat copy.dk | "$program" compile /dev/stdin /dev/stdout | cmp -s - wanted.v
is 'compile of a pipe into another one' [ $? = 0 ]

# Each standard descriptor that is closed is replaced: no file gets its number.
for closed in '<&-' '>&-' '2>&-' '<&- >&-' '<&- 2>&-' '>&- 2>&-' '<&- >&- 2>&-'; do
    rm -f text.v
    eval "\"\$program\" compile copy.dk text.v $closed"
    is "compile with $closed" [ $? = 0 ]
    is "the text of compile with $closed" cmp -s text.v wanted.v
    eval "\"\$program\" plan in.pgm $closed" >/dev/null 2>&1
    is "the status of a fault with $closed" [ $? = 3 ]
done

# Where the system does not say whether OUT is an input, nothing is created: each call that asks for it fails once.
if command -v strace >/dev/null; then
    ln in.pgm link.pgm
    calls=$(strace -qq -e trace=statx,newfstatat "$program" run copy.dk in.pgm out.pgm 2>&1 | grep -c stat)
    for error in EIO EPERM ENOMEM; do
        number=0
        while [ "$number" -lt "$calls" ]; do
            number=$((number + 1))
            strace -qq -o /dev/null -e trace=statx,newfstatat -e inject=statx,newfstatat:error=$error:when=$number "$program" run copy.dk in.pgm link.pgm 2>/dev/null
            is "an input under another name is written over if call $number for its state fails with $error" cmp -s in.pgm same.pgm
        done
    done
fi

finish
