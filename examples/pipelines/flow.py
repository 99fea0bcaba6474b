#!/usr/bin/env python3
"""Prints flow.dk: the products, their sums and the steps of the two divisions are alike.

usage: python3 examples/pipelines/flow.py >examples/pipelines/flow.dk
"""
STEPS = 7  # bits of a quotient
# of each sum its name, its factors, and the types of a column's sum and of the window's
SUMS = [("xx", "ix", "ix", "u21", "u23"), ("xy", "ix", "iy", "s22", "s24"), ("yy", "iy", "iy", "u21", "u23"),
        ("xt", "ix", "it", "s23", "s25"), ("yt", "iy", "it", "s23", "s25")]


def product(first, second, line):
    place = "x,y" if line == 0 else f"x,y{line:+}"
    return f"{first}({place})*{second}({place})"


print("""-- Optical flow by Lucas and Kanade: how far each pixel moves between two frames.
-- Inputs: two grey pictures of 8 bits, one after another.
-- Outputs: the motion across and down in 64ths of a pixel, 128 for none and up to 127 more or less;
-- and 1 where the window has structure in both directions. Elsewhere the motion is shown as none.
-- The window has 5 by 5 pixels; those outside the frame do not count, since reads there are 0.
-- Five lines of the three gradients wait, and not those of five products, which are twice as wide:
-- so each product is made once for each line of the window.
-- A division is a chain of images, a bit of the quotient in each.
-- Look at: near things move farther than the wall, and where it is plain nothing is sure.
size 64 48
input before : u8
input after : u8

-- Both frames together, and what changed. 0 to 510, and -255 to 255.
let both = im(x,y) before(x,y) + after(x,y) end
let change = im(x,y) after(x,y) - before(x,y) end
let both_above = im(x,y) both(x,y-1) edge clamp end
let both_below = im(x,y) both(x,y+1) edge clamp end
let change_above = im(x,y) change(x,y-1) edge clamp end
let change_below = im(x,y) change(x,y+1) edge clamp end

-- Gradients across, down and in time, each under 1 2 1 along the other axes: 4 for a step of 1 a
-- pixel, -510 to 510 across and down, and -1020 to 1020 in time.
let sum = im(x,y) (both_above(x,y) + 2*both(x,y) + both_below(x,y)) as u11 end
let rise = im(x,y) (both_below(x,y) - both_above(x,y)) as s10 end
let later = im(x,y) (change_above(x,y) + 2*change(x,y) + change_below(x,y)) as s11 end
let ix = im(x,y) ((sum(x+1,y) edge clamp - sum(x-1,y) edge clamp + 2) >> 2) as s10 end
let iy = im(x,y)
    ((rise(x-1,y) edge clamp + 2*rise(x,y) + rise(x+1,y) edge clamp + 2) >> 2) as s10
end
let it = im(x,y)
    ((later(x-1,y) edge clamp + 2*later(x,y) + later(x+1,y) edge clamp + 2) >> 2) as s11
end
""")
print("-- Products of the gradients, summed down the column and then along the line.")
print("-- 25 times 510*510 fits 23 bits, and 25 times 510*1020 fits 24, beside a sign.")
for name, first, second, column, window in SUMS:
    terms = [product(first, second, line) for line in range(-2, 3)]
    print(f"""let column_{name} = im(x,y)
    ({" + ".join(terms[:3])}
     + {" + ".join(terms[3:])}) as {column}
end
let {name} = im(x,y)
    (column_{name}(x-2,y) + column_{name}(x-1,y) + column_{name}(x,y)
     + column_{name}(x+1,y) + column_{name}(x+2,y)) as {window}
end""")
print("""
-- The solution of xx u + xy v = -xt and xy u + yy v = -yt: u = across/det and v = down/det.
let det = im(x,y) (xx(x,y)*yy(x,y) - xy(x,y)*xy(x,y)) as u46 end
let across = im(x,y) (xy(x,y)*yt(x,y) - yy(x,y)*xt(x,y)) as s49 end
let down = im(x,y) (xy(x,y)*xt(x,y) - xx(x,y)*yt(x,y)) as s49 end

-- Structure in both directions: det/trace is from a half to the whole of the lesser eigenvalue of
-- (xx xy; xy yy), which is 25*16 for a slope of 1 a pixel in that direction.
let sure = im(x,y) det(x,y) > 256*(xx(x,y) + yy(x,y)) end""")
for axis in ("across", "down"):
    print(f"""
-- The quotient of {axis} in 64ths: its size, at most 127, by restoring division.
let {axis}_size = im(x,y) abs({axis}(x,y)) as u48 end
let {axis}_rest0 = im(x,y) min({axis}_size(x,y), 2*det(x,y)) as u47 end""")
    for step in range(1, STEPS + 1):
        old = f"{axis}_rest{step - 1}"
        before = f"2*{axis}_quotient{step - 1}(x,y) + " if step > 1 else ""
        print(f"""let {axis}_bit{step} = im(x,y) {old}(x,y) >= det(x,y) end""")
        print(f"""let {axis}_quotient{step} = im(x,y) ({before}{axis}_bit{step}(x,y)) as u{step} end""")
        if step < STEPS:
            print(f"""let {axis}_rest{step} = im(x,y)
    (2*({old}(x,y) - select({axis}_bit{step}(x,y), det(x,y), 0))) as u47
end""")
for axis in ("across", "down"):
    print(f"""
let {axis}_flow = im(x,y)
    select(sure(x,y),
           128 + select({axis}(x,y) < 0, -{axis}_quotient{STEPS}(x,y), {axis}_quotient{STEPS}(x,y)),
           128) as u8
end""")
print("""
output across_flow
output down_flow
output sure""")
