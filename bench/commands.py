# Makes the inputs of the measures of sim, plan and check: chain.v and million.pgm, hard.dk, full.txt.
import random

with open("chain.v", "w") as file:
    file.write("module m(input clk, input rst, input [7:0] din, output valid, output [7:0] dout);\n")
    file.writelines(f"  wire [7:0] n{k};\n" for k in range(998))
    file.write("  reg [7:0] r;\n")
    before = "r"
    for k in range(998):
        file.write(f"  assign n{k} = {before} {'+' if k % 2 else '^'} din;\n")
        before = f"n{k}"
    file.write(f"  assign valid = ~rst;\n  assign dout = {before};\n")
    file.write("  always @(posedge clk) begin\n    r <= din;\n  end\nendmodule\n")
with open("million.pgm", "wb") as file:
    file.write(b"P5 1000 1000 255\n" + bytes((k * 7 + k // 1000) % 256 for k in range(1000000)))
random.seed(5)
with open("hard.dk", "w") as file:
    file.write("size 4096 4096\ninput i0 : u1\n")
    for k in range(1, 257):
        reads = set()
        while len(reads) < 15:
            reads.add((random.randrange(k), random.randint(-3, 3), random.randint(-1, 1)))
        body = " | ".join(f"i{g}(x{dx:+d},y{dy:+d})".replace("+0", "").replace("-0", "") for g, dx, dy in reads)
        file.write(f"let i{k} = im(x,y) {body} end\n")
    file.write("output i256\n")
lines = ["plan 2", "limits 67108864 67108864", "age 0", "size 4096 4096"]
lines += [f"image n{k} 1 0 0" for k in range(257)] + ["latency 0", "clocks 16777216", "bits 0", "reads 0"]
lines += [f"flow read n{f} n{g} {dx} 0 1" for f in range(257) for g in range(257) for dx in (-1, 0)] + ["end"]
with open("full.txt", "w") as file:
    file.write("\n".join(lines) + "\n")
