#!/bin/sh
# `explain`: the messages of programs with common mistakes.
# usage: tests/quick/explain.sh PROGRAM
. "$(dirname -- "$0")/cases.sh"

# expected NAME: the messages of this program, which follow the line `== NAME`
expected() {
    awk -v name="$1" '/^== / { shown = $2 == name; next } shown' "$tests/mistakes/messages.txt"
}

# Each line of mistakes/programs.txt is a name, a tab, and a program, with bytes as printf reads them.
while IFS=$tab read -r name text <&3; do
    printf '%b' "$text" >"$name.dk"
    "$program" explain "$name.dk" >stdout 2>stderr
    expected "$name" >expected.txt
    is "the messages of $name are '$(cat stdout)', expected '$(cat expected.txt)'" cmp -s stdout expected.txt
done 3<"$tests/mistakes/programs.txt"

# named NAME SHOWN: a file of this name, as printf reads it, is named so in the message
named() {
    file=$(printf "$1.")
    file=${file%.}
    printf 'size 8 8\n' >"./$file"
    "$program" explain "./$file" >stdout 2>stderr
    printf '%s\n' "./$2:2:1: error: Syntax: ${sentence}" >expected.txt
    head -n "$(printf '%s\n' "$2" | wc -l)" stdout >first.txt
    is "the name $1 is shown as '$(cat first.txt)'" cmp -s first.txt expected.txt
}
printf 'size 8 8\n' >plain.dk
"$program" explain plain.dk >stdout 2>stderr
sentence=$(sed -n '1s/^plain.dk:2:1: error: Syntax: //p' stdout)
is 'the message of plain.dk has no sentence' [ -n "$sentence" ]
# a control that colours a terminal, a line end that forges a message, one of C1, marks of direction, a joiner, a tag, and letters that stay
named 'a\033[31mb' 'a?[31mb'
named 'a\nb.dk:1:1: error: fake\n' 'a?b.dk:1:1: error: fake?'
named 'a\tb\rc\177' 'a?b?c?'
named 'a\302\233b' 'a?b'
named 'a\342\200\256b\342\201\246c' 'a?b?c'
named 'a\342\200\215b\363\240\201\201' 'a?b?'
named 'gr\303\266\303\237e \346\227\245.dk' 'größe 日.dk'

finish
