# The table of faults, for tools/dk/explain.sh. Faults of programs are explained by the program itself (`explain`), but for those that only an age has. docs/COMMANDS.md lists the same faults; tests/explain.sh compares the two.

# meaning TEXT FAULT NUMBER..: one sentence on the fault; the numbers are those of the fault line.
meaning() {
    case $1.$2 in
    program.Bits) put "The line buffers need $3 bits at least, and 67,108,864 are allowed; use fewer rows, narrower types, a smaller width or a smaller age." ;;
    program.Latency) put "The last output comes $3 clocks late, and 67,108,864 are allowed; read fewer rows ahead (\`y+k\`), or use a smaller width." ;;
    image.TooLong) put "The file has more than $3 bytes; split it, or use \`run\`, which has no such limit." ;;
    image.Magic) put "An image must begin at byte $3 (counted from 0), but there is no \`P5\`: it is another format, or bytes follow the last image." ;;
    image.LongHeader) put "The header of an image does not end within $3 bytes; shorten its comments." ;;
    image.Number) put "At byte $3 (counted from 0) the header has no digit, white space or comment, or the file ends." ;;
    image.Range) put "The maxval at byte $3 (counted from 0) is 0 or above 65,535." ;;
    image.Size) put "The image is $3 wide and $4 high, which is not the program's size (\`sim\`, \`trace\`: the first image's, at most 4,096 by 4,096)." ;;
    image.Maxval) put "The maxval of the image is $3, which is above the greatest number of its input's type." ;;
    image.SampleTooGreat) put "Sample $3 (counted from 0 over the whole file) is above the maxval of its image." ;;
    image.Short) put "The file ends inside a raster: it has $3 of the $4 bytes of its last image." ;;
    image.Count) put "The file has more than $3 images; split it." ;;
    image.Round) put "The last round has $3 of $4 images; a round has one for each input in turn." ;;
    verilog.TooLong) put "The text has more than $3 bytes." ;;
    verilog.BadByte) put 'No token of the subset begins with this byte, or a comment does not end.' ;;
    verilog.BadConstant) put 'A constant is written as `8'\''d255`: its size is 1 to 64 bits, and its number fits the size.' ;;
    verilog.NumberTooGreat) put 'The number is 2^64 or more.' ;;
    verilog.NameTooLong) put 'The name has more than 64 bytes.' ;;
    verilog.Syntax) put "The text cannot go on with this token, or ends too early: $docs/VERILOG.md has the grammar of the subset." ;;
    verilog.NotInSubset) put "This is outside the subset: it has one operator a right side, and one block \`always @(posedge clk)\` of \`<=\` ($docs/VERILOG.md)." ;;
    verilog.Width) put 'At a number: a range is `[w-1:0]` with w from 1 to 64; at a name: widths differ, so widen as `{1'\''d0, a}`, or cut as `a[7:0]`.' ;;
    verilog.Words) put 'An array has 1 to 67,108,864 words.' ;;
    verilog.ArrayBits) put 'This array takes the bits of all arrays above 67,108,864.' ;;
    verilog.Repeat) put 'The count n of a repetition `{n{a}}` is 1 to 64.' ;;
    verilog.Duplicate) put 'The name is already declared.' ;;
    verilog.Ports) put "The ports must be \`clk rst [en] din .. valid dout ..\` ($docs/VERILOG.md); \`--hold\` requires \`en\` (\`compile --enable\`)." ;;
    verilog.Unknown) put 'Nothing with this name is declared.' ;;
    verilog.WrongSort) put 'An array is used as a wire or register, or the other way round, or the name cannot be read or driven here.' ;;
    verilog.Divisor) put 'The divisor must be a constant above 0.' ;;
    verilog.DrivenTwice) put 'The name has two drivers.' ;;
    verilog.Undriven) put 'The name has no driver: each wire and output needs one assign, each register and array one update.' ;;
    verilog.Cycle) put 'This assign depends on itself; put a register in between.' ;;
    stopped.clock) put "In clock $3 (-1 is the reset clock) array $5 of the text (counted from 0) is read or written at index $7, which is past its end." ;;
    stopped.count) put "\`valid\` was 1 in $3 clocks, but the images have $5 pixels; take CLOCKS from the line \`clocks\` of the program's plan." ;;
    widen.Width) put "The frame is $3 columns wide, and P must divide its width; choose another P or another width." ;;
    widen.Inputs) put "The program would have $3 inputs, and eight are allowed; choose a smaller P, or split the program." ;;
    widen.Outputs) put "The program would have $3 outputs, and eight are allowed; choose a smaller P, or split the program." ;;
    widen.Limits) put "The program of P pixels a clock is over a limit (definitions, nodes, live reads, buffer bits); choose a smaller P, or widen it before \`cut\`." ;;
    report.TooLong) put "The report has more than $3 bytes." ;;
    report.line) put "Line $3 is the first wrong line of the report, in its form or in what it states ($docs/REPORT.md)." ;;
    esac
}
