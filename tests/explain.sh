#!/bin/sh
# Compares what tools/dk/explain.sh says of worked faults with texts written by hand. Says nothing where all is right, and else names each case.
# With PROGRAM it also checks that the program ends with the status and the line of each case.
# usage: tests/explain.sh [PROGRAM]
. "$(dirname -- "$0")/lib.sh" || exit 2
program=
[ $# = 0 ] || program=$(whole "$1")
in_folder
called=./dk
docs=docs
. "$top/tools/dk/explain.sh"
usage=$(usage_line)

# says STATUS LINE WORD..: the explanation is that of standard input
says() {
    wanted=$(cat)
    got=$(explain "$@" 2>&1 </dev/null)
    [ "$got" = "$wanted" ] || wrong "dk $*: got
$got
wanted
$wanted"
}

# ends STATUS LINE WORD..: the program with these words ends so, and the explanation is that of standard input
ends() {
    says "$@"
    [ -n "$program" ] || return
    status=$1
    line=$2
    shift 2
    "$program" "$@" >stdout 2>stderr </dev/null
    got=$?
    [ "$got" = "$status" ] && [ "$(cat stderr)" = "$line" ] || wrong "dk $*: status $got, '$(cat stderr)' where $status, '$line' was expected"
}

# verilog_fault SPAN-AND-FAULT TEXT: writes the Verilog text v.v, and compares as `ends` does
verilog_fault() {
    printf '%b' "$2" >v.v
    ends 5 "verilog $1" trace v.v 3 i.pgm t.vcd
}

# image_fault FAULT BYTES: the same for the images of a program that copies images of size 3 1
image_fault() {
    printf '%b' "$2" >j.pgm
    ends 4 "image: $1" eval copy.dk j.pgm o.pgm
}

# usage_fault WORD..: these words are not taken
usage_fault() {
    ends 2 "$usage" "$@"
}

# taken WORD..: nothing is wrong in these words as far as the script can tell
taken() {
    says 2 "$usage" "$@" <<'end'
This script finds no wrong word.
end
}

tab=$(printf '\t')
printf 'size 3 1\ninput a : u8\noutput a\n' >copy.dk
printf 'P5\n3 1\n255\nabc' >i.pgm

# Spans.
verilog_fault "16-22: BadConstant" "/* \0303\0251\0342\0202\0254\0360\0235\0204\0236 */ 8'd256\n" <<'end'
v.v:1:11: error: BadConstant: A constant is written as `8'd255`: its size is 1 to 64 bits, and its number fits the size.
   1 | /* é€𝄞 */ 8'd256
     |           ^^^^^^
end
# Control bytes, bytes that are no UTF-8, and a mark that reorders a line.
verilog_fault "23-29: BadConstant" "/* \0377\0001\0033[31m \0303( \0302\0233\0342\0200\0256 */ 8'd256\n" <<'end'
v.v:1:21: error: BadConstant: A constant is written as `8'd255`: its size is 1 to 64 bits, and its number fits the size.
   1 | /* ???[31m ?( ?? */ 8'd256
     |                     ^^^^^^
end
# Each character that reorders a line or is not visible is one `?`: C1 controls, U+00AD, U+061C, U+180E, U+200B to U+200F, U+202A to U+202E,
# U+2060 to U+206F, U+FEFF, U+FFF9 to U+FFFB, U+E0000 to U+E007F. The characters next to these ranges are shown.
verilog_fault '59-65: BadConstant' '/* \0302\0200\0302\0237\0302\0255\0330\0234\0341\0240\0216\0342\0200\0213\0342\0200\0217\0342\0200\0252\0342\0200\0256\0342\0201\0240\0342\0201\0251\0342\0201\0252\0342\0201\0257\0357\0273\0277\0357\0277\0271\0357\0277\0273\0363\0240\0200\0200\0363\0240\0201\0277 */ 8'"'"'d256\n' <<'end'
v.v:1:26: error: BadConstant: A constant is written as `8'd255`: its size is 1 to 64 bits, and its number fits the size.
   1 | /* ?????????????????? */ 8'd256
     |                          ^^^^^^
end
# A TAB of a line is one blank, and one column; in the name of a file it is `?`, as each control character. A long name is whole.
printf "/*\t*/\t8'd256\n" >"$(printf 'a\tb\033[31m.v')"
says 5 'verilog 6-12: BadConstant' trace "$(printf 'a\tb\033[31m.v')" 3 i.pgm t.vcd <<'end'
a?b?[31m.v:1:7: error: BadConstant: A constant is written as `8'd255`: its size is 1 to 64 bits, and its number fits the size.
   1 | /* */ 8'd256
     |       ^^^^^^
end
long=$(printf '%0250d' 0)
printf "8'd256\n" >"$long"
ends 5 'verilog 0-6: BadConstant' trace "./$long" 3 i.pgm t.vcd <<end
./$long:1:1: error: BadConstant: A constant is written as \`8'd255\`: its size is 1 to 64 bits, and its number fits the size.
   1 | 8'd256
     | ^^^^^^
end
usage_fault plan copy.dk "$(printf 'a\tb')" <<'end'
`a?b` is one word too many. plan expects PROG.
end
shown=$(printf '\302\240\302\256\330\233\342\200\212\342\200\220\342\201\237\342\201\260\357\277\274\363\241\200\200')
verilog_fault '32-38: BadConstant' "/* $shown */ 8'd256\n" <<end
v.v:1:17: error: BadConstant: A constant is written as \`8'd255\`: its size is 1 to 64 bits, and its number fits the size.
   1 | /* $shown */ 8'd256
     |                 ^^^^^^
end
verilog_fault '0-1: BadByte' '/* open' <<'end'
v.v:1:1: error: BadByte: No token of the subset begins with this byte, or a comment does not end.
   1 | /* open
     | ^
end

# Faults of a program are explained by the program itself (tests/quick/explain.sh). Of one that it was not asked about there is a pointer, but for
# Bits and Latency, which only an age may have.
for file in /dev/null copy.dk; do
    says 3 'program 38-39: UnknownImage' plan $file <<'end'
docs/COMMANDS.md ("What to do about a fault") has the kinds of faults.
end
done
said='p.dk:3:17: error: UnknownImage: there is no image `b`'
says 3 '' plan copy.dk <<'end'
p.dk:3:17: error: UnknownImage: there is no image `b`
end
said=
says 3 'program: Latency 67125248' plan --age 1 copy.dk <<'end'
copy.dk: error: Latency: The last output comes 67125248 clocks late, and 67,108,864 are allowed; read fewer rows ahead (`y+k`), or use a smaller width.
end

# Faults with numbers.
says 3 'program: Bits 98765432' make 5 <<'end'
The line buffers need 98765432 bits at least, and 67,108,864 are allowed; use fewer rows, narrower types, a smaller width or a smaller age.
end
image_fault 'Short 2 3' 'P5\n3 1\n255\nab' <<'end'
j.pgm: error: Short: The file ends inside a raster: it has 2 of the 3 bytes of its last image.
end
image_fault 'Size 2 1' 'P5\n2 1\n255\nab' <<'end'
j.pgm: error: Size: The program wants images of 3 by 1 pixels, and this one has 2 by 1.
end
image_fault 'Magic 14' 'P5\n3 1\n255\nabcd' <<'end'
j.pgm: error: Magic: An image must begin at byte 14 (counted from 0), but there is no `P5`: it is another format, or bytes follow the last image.
end
printf 'size 3 1\ninput a : u8\ninput b : u8\noutput a\n' >two.dk
ends 4 'image: Round 1 2' eval two.dk i.pgm o.pgm <<'end'
i.pgm: error: Round: The last round has 1 of 2 images; a round has one for each input in turn.
end
image_fault 'Maxval 256' 'P5\n3 1\n256\nababab' <<'end'
j.pgm: error: Maxval: The maxval of the image is 256, which is above the greatest number of its input's type.
end
printf 'plan 4\n' >report.txt
ends 10 'report: line 1' check copy.dk report.txt <<'end'
report.txt:1:1: error: line: Line 1 is the first wrong line of the report, in its form or in what it states (docs/REPORT.md).
   1 | plan 4
end
says 10 'report: line 2' check copy.dk report.txt <<'end'
report.txt: error: line: Line 2 is the first wrong line of the report, in its form or in what it states (docs/REPORT.md).
end
cat >memory.v <<'end'
module m(input clk, input rst, input [1:0] din, output valid, output [7:0] dout);
  reg [7:0] m0 [0:2];
  assign valid = ~rst;
  assign dout = m0[din];
  always @(posedge clk) begin
    m0[2'd0] <= 8'd5;
  end
endmodule
end
printf 'P5\n4 1\n3\n\000\000\001\003' >four.pgm
ends 6 'stopped: clock 3 array 0 index 3' sim memory.v 4 four.pgm o.pgm <<'end'
memory.v: error: clock: In clock 3 (-1 is the reset clock) array 0 of the text (counted from 0) is read or written at index 3, which is past its end.
end
ends 6 'stopped: count 3 of 4' sim memory.v 3 four.pgm o.pgm <<'end'
memory.v: error: count: `valid` was 1 in 3 clocks, but the images have 4 pixels; take CLOCKS from the line `clocks` of the program's plan.
end
ends 5 'verilog 7-8: Ports' sim memory.v 4 four.pgm o.pgm --hold 1 <<'end'
memory.v:1:8: error: Ports: The ports must be `clk rst [en] din .. valid dout ..` (docs/VERILOG.md); `--hold` requires `en` (`compile --enable`).
   1 | module m(input clk, input rst, input [1:0] din, output valid, output [7:0] dout);
     |        ^
end

# Files that cannot be read or written.
mkdir folder
ends 7 'cannot read' run none.dk i.pgm o.pgm <<'end'
PROG, `none.dk`, cannot be read: there is no such file.
end
ends 7 'cannot read' eval copy.dk folder o.pgm <<'end'
IN, `folder`, cannot be read: it is a folder.
end
ends 7 'cannot read' check copy.dk '' <<'end'
REPORT, ``, cannot be read: an empty word names no file.
end
says 7 'cannot read' sim memory.v 4 four.pgm o.pgm <<'end'
The system refused the read of VERILOG, `memory.v` or IN, `four.pgm`.
end
ends 8 'cannot write' run copy.dk i.pgm ./i.pgm <<'end'
OUT, `./i.pgm`, cannot be written: it is the same file as IN, `i.pgm`.
end
ends 8 'cannot write' compile copy.dk folder <<'end'
OUT, `folder`, cannot be written: it is a folder.
end
ends 8 'cannot write' compile copy.dk none/o.v <<'end'
OUT, `none/o.v`, cannot be written: there is no folder `none`.
end
ends 8 'cannot write' compile copy.dk i.pgm/o.v <<'end'
OUT, `i.pgm/o.v`, cannot be written: there is no folder `i.pgm`.
end
ends 8 'cannot write' trace memory.v 2 four.pgm '' <<'end'
VCD, ``, cannot be written: an empty word names no file.
end
says 8 'cannot write' plan copy.dk <<'end'
The system refused the write to standard output: the device may be full, or the pipe closed.
end
[ ! -e /dev/full ] || ends 8 'cannot write' compile copy.dk /dev/full <<'end'
OUT, `/dev/full`, cannot be written: the system refused the write; the device may be full, or the pipe closed.
end
# Who may read and write all files sees no refusal.
printf 'P5\n3 1\n255\nabc' >locked.pgm
chmod 0 locked.pgm
if [ ! -r locked.pgm ]; then
    ends 7 'cannot read' run copy.dk locked.pgm o.pgm <<'end'
IN, `locked.pgm`, cannot be read: you have no permission to read it.
end
    ends 8 'cannot write' compile copy.dk locked.pgm <<'end'
OUT, `locked.pgm`, cannot be written: you have no permission to write it.
end
fi

# Programs that get no phases.
printf 'size 5 1\ninput a : u8\nlet f = im(x,y) a(x,y) end\noutput f\n' >five.dk
ends 11 'widen: Width 5' widen 2 five.dk o.dk <<'end'
five.dk: error: Width: The frame is 5 columns wide, and P must divide its width; choose another P or another width.
end
says 11 'widen: Inputs 12' widen 4 five.dk o.dk <<'end'
five.dk: error: Inputs: The program would have 12 inputs, and eight are allowed; choose a smaller P, or split the program.
end

# Words.
usage_fault <<'end'
The command is missing. `./dk --help` shows the commands and options.
end
usage_fault ru p.dk i.pgm o.pgm <<'end'
There is no command `ru`. The commands are: run compile nets plan sim eval make check trace cut narrow widen explain. `./dk --help` shows the commands and options.
end
usage_fault -- run p.dk i.pgm o.pgm <<'end'
The command comes first, but `--` begins with a hyphen. `./dk --help` shows the commands and options.
end
usage_fault run copy.dk <<'end'
Missing: IN OUT. run expects PROG IN OUT.
end
usage_fault trace v.v 3 i.pgm <<'end'
Missing: VCD. trace expects VERILOG CLOCKS IN VCD.
end
usage_fault plan copy.dk two <<'end'
`two` is one word too many. plan expects PROG.
end
usage_fault plan -a <<'end'
plan has no option `-a`; it has: --age. Write `--` before a file name that begins with a hyphen. `./dk --help` shows the commands and options.
end
usage_fault eval --age 1 copy.dk i.pgm o.pgm <<'end'
eval has no option `--age`. Write `--` before a file name that begins with a hyphen. `./dk --help` shows the commands and options.
end
usage_fault plan --ag 1 copy.dk <<'end'
plan has no option `--ag`; it has: --age. Write `--` before a file name that begins with a hyphen. `./dk --help` shows the commands and options.
end
usage_fault plan --age 1 --age=1 copy.dk <<'end'
--age is given twice.
end
usage_fault compile --enable=yes copy.dk o.v <<'end'
--enable has no value.
end
usage_fault compile --enable= copy.dk o.v <<'end'
--enable has no value.
end
usage_fault plan copy.dk --age <<'end'
The value of --age is missing.
end
usage_fault sim --hold -1 memory.v 4 four.pgm o.pgm <<'end'
The value of --hold is missing: `-1` begins with a hyphen.
end
for value in 65 '' - 1x +1 18446744073709551617; do
    usage_fault plan "--age=$value" copy.dk <<end
The value of --age is a number from 0 to 64, but is \`$value\`.
end
done
for value in 1 '' 67108865 2.; do
    usage_fault compile copy.dk o.v --block "$value" <<end
The value of --block is a number from 2 to 67,108,864, but is \`$value\`.
end
done
for value in 0 000 1000001; do
    usage_fault sim memory.v 4 four.pgm o.pgm --hold "$value" <<end
The value of --hold is a number from 1 to 1,000,000, but is \`$value\`.
end
done
usage_fault sim memory.v 4 four.pgm o.pgm --fill two <<'end'
The value of --fill is `zeros` or `ones`, but is `two`.
end
usage_fault make 0004194304 <<'end'
N is a number from 0 to 4,194,303, but is `0004194304`.
end
usage_fault trace memory.v 100000001 four.pgm t.vcd <<'end'
CLOCKS is a number from 0 to 100,000,000, but is `100000001`.
end
usage_fault run copy.dk o.pgm o.pgm <<'end'
OUT is the same word as IN: `o.pgm`. Write the output to a file of its own.
end
usage_fault plan copy.dk "$(printf 'a\\n\033[31m')" <<'end'
`a\n?[31m` is one word too many. plan expects PROG.
end
usage_fault plan "$(printf 'a\377')" <<'end'
`a?` is not UTF-8.
end
usage_fault plan "$(printf '\303')" <<'end'
`?` is not UTF-8.
end
taken run -- -a i.pgm o.pgm
taken run - i.pgm o.pgm
taken run p.dk --age 01 i.pgm -- -o
taken run run plan "$(printf '\303\251 \033\302\233 \360\235\204\236')"
taken check p.dk p.dk
taken sim v.v 4 i.pgm 4 --hold=1000000 --fill ones
taken plan -- --age
taken make 0000000000000000000000000000000000000000000000000000004194303
taken cut 064 p.dk o.dk
taken narrow p.dk o.dk
taken widen 8 p.dk o.dk
taken explain p.dk
taken nets --age=1 p.dk --block 2 --enable

# The help page has a line for each command and option, of 80 columns at most.
help_page >page
for word in $commands --age --enable --fill --hold --; do
    [ "$(grep -c -- "^  $word " page)" = 1 ] || wrong "the help page has no line on $word"
done
[ -z "$(cut -c 81- page | tr -d '\n')" ] || wrong 'the help page has more than 80 columns'

# The table has the faults of docs/COMMANDS.md and no others.
awk -F '|' '
    function add(text, cell,    parts, count, i) {
        count = split(cell, parts, "`")
        for (i = 2; i <= count; i += 2) {
            sub(/^[a-z]+( S-E)?: /, "", parts[i])
            sub(/ .*/, "", parts[i])
            if (parts[i] != "KIND") print text "." parts[i]
        }
    }
    /^#/ { text = "" }
    /^Of a program / { text = "program" }
    /^Of a file of images / { text = "image" }
    /^Of a Verilog text / { text = "verilog" }
    /^\| `/ && text != "" && !/^\| `stopped/ { add(text, $2) }
    /^\|[^|]*\| `(program|image|verilog|stopped|report|widen)( S-E)?: / && $2 !~ /[:`]/ { match($3, /[a-z]+/); add(substr($3, RSTART, RLENGTH), $3) }
    /^- The kinds of a Verilog fault are/ { sub(/ They are judged.*/, ""); add("verilog", $0) }
' "$top/docs/COMMANDS.md" | sort -u >listed
sed -n 's/^    \([a-z]*\.[A-Za-z]*\)) .*/\1/p' "$top/tools/dk/faults.sh" | sort >explained
grep -v '^program\.' explained >others
grep -v '^program\.' listed >listed_others
diff listed_others others >difference || wrong "docs/COMMANDS.md (<) and tools/dk/faults.sh (>) have other faults: $(cat difference)"
while read -r fault; do
    [ -n "$(meaning "${fault%.*}" "${fault#*.}" 1 2 3 4 5)" ] || wrong "no sentence on $fault"
done <explained

# (the folder of the checkout can have any name)
ln -s "$top/dk" dk
SHELL=/bin/sh
export SHELL

# terminal STATUS COMMAND: runs this command of the shell under a terminal; it ends so, and what is shown is standard input
terminal() {
    sed 's/$/\r/' >wanted
    timeout 60 script -q -e -c "$2" /dev/null </dev/null >typed
    got=$?
    # (on a busy machine a call may be long enough to show how far it is)
    sed 's/\r[^\r]*\x1b\[K//g' <typed >shown
    [ "$got" = "$1" ] && cmp -s shown wanted || wrong "under a terminal, $2: status $got, $(cat shown)"
}

# ended SIGNAL STATUS COMMAND: this signal ends the script dk and the program, which waits for images in a named pipe
ended() {
    rm -f pipe pid opened
    mkfifo pipe
    {
        exec 4>pipe
        : >opened
        # (the program is waiting now; the script may still be about to wait for it)
        sleep 0.3
        kill -s "$1" "$(cat pid)"
        sleep 1
        (trap '' PIPE && echo >&4) 2>/dev/null && echo 'it reads' >left
        exec 4>&-
    } &
    writer=$!
    # (where this test was begun in the background, SIGINT and SIGQUIT are ignored)
    if env --default-signal true 2>/dev/null; then
        timeout 60 env --default-signal sh -c "$3" </dev/null >shown 2>&1
    else
        timeout 60 sh -c "$3" </dev/null >shown 2>&1
    fi
    got=$?
    # (a call that never opens the pipe leaves the writer waiting for a reader)
    [ -e opened ] || kill "$writer"
    wait
    [ "$got" = "$2" ] && [ ! -e left ] || wrong "SIG$1 to $3: status $got, $(cat shown left 2>/dev/null)"
    rm -f left
}

# What follows calls the script, which runs nothing in a checkout of other sources.
if [ -n "$program" ] && ! ./dk --version >version 2>&1; then
    wrong "the script dk has no program: $(head -n 1 version)"
    program=
fi

# explains STATUS LINE WORD..: the script's `explain` with these words ends so, with the line on standard error, and prints standard input
explains() {
    cat >wanted
    status=$1
    line=$2
    shift 2
    ./dk explain "$@" >stdout 2>stderr
    got=$?
    [ "$got" = "$status" ] && [ "$(cat stderr)" = "$line" ] && cmp -s stdout wanted || wrong "dk explain $*: status $got, $(cat stderr stdout)"
}

# `explain` of a Verilog text: `--` may be before or after its word, and a word that begins with a hyphen is an option without it. It needs no
# folder for files of its own.
if [ -n "$program" ]; then
    printf "module m(input clk);\n\tinitial\n" | tee m.v >./-m.v
    for name in m.v -m.v; do
        cat >"said$name" <<end
$name:2:2: error: NotInSubset: This is outside the subset: it has one operator a right side, and one block \`always @(posedge clk)\` of \`<=\` (docs/VERILOG.md).
   2 |  initial
     |  ^^^^^^^
end
    done
    fault='verilog 22-29: NotInSubset'
    explains 5 "$fault" m.v <saidm.v
    explains 5 "$fault" -- m.v <saidm.v
    explains 5 "$fault" m.v -- <saidm.v
    explains 5 "$fault" -- -m.v <said-m.v
    explains 2 "$usage" -m.v </dev/null
    explains 2 "$usage" -m.v -- </dev/null
    explains 2 "$usage" m.v m.v </dev/null
    TMPDIR=$PWD/none
    export TMPDIR
    explains 5 "$fault" m.v <saidm.v
    unset TMPDIR
fi

# The script dk adds nothing, and passes on its status and signals.
if [ -n "$program" ]; then
    quiet="echo \$\$ >pid; exec ./dk run copy.dk pipe o.pgm 2>quiet"
    for signal in 'TERM 143' 'INT 130' 'HUP 129' 'USR1 138'; do
        ended "${signal% *}" "${signal#* }" "$quiet"
    done
    ./dk plan none.dk >shown 2>&1
    echo $? >>shown
    printf '%s\n' 'cannot read' 7 | cmp -s - shown || wrong "without a terminal dk shows: $(cat shown)"
fi

# Under a terminal it shows the line and the explanation, where the program can be asked again; and nothing else is changed.
if [ -n "$program" ] && script -q -e -c true /dev/null </dev/null >/dev/null 2>&1; then
    terminal 7 "./dk plan none.dk" <<'end'
cannot read
PROG, `none.dk`, cannot be read: there is no such file.
end
    printf 'size 1 1\ninput a : u8\nlet f = im(x,y) b(x,y) end\noutput f\n' >p.dk
    cat >place <<'end'
program 38-39: UnknownImage
p.dk:3:17: error: UnknownImage: there is no image `b`
   3 | let f = im(x,y) b(x,y) end
     |                 ^
     = help: an image reads inputs and earlier definitions
end
    for words in 'plan p.dk' 'run --age 1 p.dk none.pgm o.pgm' 'eval p.dk - o.pgm' 'compile --enable --block 2 p.dk o.v' 'cut 1 p.dk o.dk' 'narrow p.dk o.dk' 'widen 2 p.dk o.dk' 'check p.dk none.txt'; do
        terminal 3 "./dk $words" <place
    done
    terminal 3 "cat i.pgm | ./dk run p.dk /dev/stdin o.pgm" <place
    terminal 3 "cat p.dk | ./dk plan /dev/stdin" <<'end'
program 38-39: UnknownImage
docs/COMMANDS.md ("What to do about a fault") has the kinds of faults.
end
    printf 'P5\n3 1\n255\nab' >j.pgm
    for command in run eval; do
        terminal 4 "./dk $command copy.dk j.pgm o.pgm" <<'end'
image: Short 2 3
j.pgm: error: Short: The file ends inside a raster: it has 2 of the 3 bytes of its last image.
end
    done
    printf 'module m(input clk, input rst, input en, input [1:0] din, output valid, output [1:0] dout);\n  assign valid = ~rst;\n  assign dout = din;\nendmodule\n' >enabled.v
    terminal 6 "./dk sim enabled.v 3 four.pgm o.pgm --fill zeros --hold 1" <<'end'
stopped: count 6 of 4
enabled.v: error: count: `valid` was 1 in 6 clocks, but the images have 4 pixels; take CLOCKS from the line `clocks` of the program's plan.
end
    terminal 10 "./dk check copy.dk report.txt" <<'end'
report: line 1
report.txt:1:1: error: line: Line 1 is the first wrong line of the report, in its form or in what it states (docs/REPORT.md).
   1 | plan 4
end
    # what goes to standard error and to other descriptors
    "$program" compile copy.dk copy.v
    terminal 0 "./dk compile copy.dk /dev/stderr" <copy.v
    for descriptor in 3 9; do
        terminal 0 "./dk compile copy.dk /dev/fd/$descriptor $descriptor>o.v" </dev/null
        cmp -s o.v copy.v || wrong "under a terminal the descriptor $descriptor is lost"
    done
    terminal 0 "cat copy.dk | ./dk compile /dev/stdin o.v" </dev/null
    cmp -s o.v copy.v || wrong 'under a terminal standard input is lost'
    for signal in 'TERM 143' 'INT 130' 'QUIT 131' 'HUP 129' 'USR1 138'; do
        ended "${signal% *}" "${signal#* }" "script -q -e -c \"exec sh -c 'echo \\\$\\\$ >pid; exec ./dk run copy.dk pipe o.pgm'\" /dev/null"
        [ ! -s shown ] || wrong "SIG${signal% *} under a terminal shows $(cat shown)"
    done
fi
[ "$failed" = 0 ]
