#!/usr/bin/env python3
"""Prints stereo.dk: the costs of the sixteen disparities are alike.

usage: python3 examples/pipelines/stereo.py >examples/pipelines/stereo.dk
"""
COUNT = 16


def place(across, down=0):
    return ",".join(f"{axis}{step:+}" if step else axis for axis, step in (("x", across), ("y", down)))


print(f"""-- Stereo by block matching: of the disparities 0 to {COUNT - 1} the one with the least sum of differences.
-- Inputs: a left and a right grey picture of 8 bits, lines aligned.
-- Outputs: the disparity of each pixel of the left picture, and 1 where the right picture agrees:
-- there the same block is the best one for the pixel that it is matched with.
-- The block has 9 by 3 pixels: so two lines of each picture wait, and no line of differences.
-- Look at: near things are bright. What only the left eye sees is not sure, and neither is what is
-- plain or alike all along a line.
size 64 48
input left : u8
input right : u8
""")
print("""-- Differences of three pixels, summed down the column: at most 765. A point at x in the left
-- picture is at x - d in the right one.""")
for d in range(COUNT):
    print(f"""let column{d} = im(x,y)
    (abs(left(x,y-1) - right({place(-d, -1)}))
     + abs(left(x,y) - right({place(-d)}))
     + abs(left(x,y+1) - right({place(-d, 1)}))) as u10
end""")
print("""
-- Nine columns, by threes, of which each counts if its middle is in the frame: at most 6885.""")
for d in range(COUNT):
    print(f"""let three{d} = im(x,y) (column{d}(x-1,y) + column{d}(x,y) + column{d}(x+1,y)) as u12 end
let cost{d} = im(x,y) (three{d}(x-3,y) + three{d}(x,y) + three{d}(x+3,y)) as u13 end""")
print(f"""
-- The score of a match: the less the cost the more, and of equal costs the lesser disparity. The
-- last four bits are {COUNT - 1} - d. A read outside the frame is 0, and no score is.""")
for d in range(COUNT):
    print(f"let score{d} = im(x,y) ({2**17 - 1 - d} - 16*cost{d}(x,y)) as u17 end")


def best(name, reads):
    """The greatest of the scores: of each four, and of those."""
    for k in range(0, COUNT, 4):
        print(f"""let {name}{k // 4} = im(x,y)
    max(max({reads[k]}, {reads[k + 1]}),
        max({reads[k + 2]}, {reads[k + 3]}))
end""")
    print(f"""let {name} = im(x,y)
    max(max({name}0(x,y), {name}1(x,y)), max({name}2(x,y), {name}3(x,y)))
end""")


print("""
-- The best match of each pixel of the left picture, and of each of the right one.""")
best("left_best", [f"score{d}(x,y)" for d in range(COUNT)])
best("right_best", [f"score{d}({place(d)})" for d in range(COUNT)])
print(f"""
let disparity = im(x,y) ({COUNT - 1} - left_best(x,y) as u4) as u4 end
let right_disparity = im(x,y) ({COUNT - 1} - right_best(x,y) as u4) as u4 end

-- The disparity of the right pixel that is matched: one of {COUNT}, chosen by the bits of the disparity.""")
bits = ["disparity(x,y) as u1", "(disparity(x,y) >> 1) as u1", "(disparity(x,y) >> 2) as u1", "(disparity(x,y) >> 3) as u1"]
for k in range(0, COUNT, 4):
    reads = [f"right_disparity({place(-d)})" for d in range(k, k + 4)]
    print(f"""let matched{k // 4} = im(x,y)
    select({bits[1]},
           select({bits[0]}, {reads[3]}, {reads[2]}),
           select({bits[0]}, {reads[1]}, {reads[0]}))
end""")
print(f"""let matched = im(x,y)
    select({bits[3]},
           select({bits[2]}, matched3(x,y), matched2(x,y)),
           select({bits[2]}, matched1(x,y), matched0(x,y)))
end
let sure = im(x,y) matched(x,y) == disparity(x,y) end

output disparity
output sure""")
