#!/usr/bin/env python3
"""Prints deblur.dk: the eight steps of the iteration are alike.

usage: python3 examples/pipelines/deblur.py >examples/pipelines/deblur.dk
"""
STEPS = 8


def kernel(image, place):
    """1 4 6 4 1 along an axis, in two lines; place has the distance in place of *."""
    at = {step: f"{image}({place.replace('*', step)})" for step in ("-2", "-1", "", "+1", "+2")}
    return f"""{at["-2"]} + {at["+2"]} + 2*{at[""]}
      + 4*({at["-1"]} + {at[""]} + {at["+1"]})"""


print("""-- Deblurring: eight steps of Landweber's method against a blur of 5 by 5.
-- Input: a grey picture of 8 bits, out of focus as by the kernel 1 4 6 4 1 down and across.
-- Each step blurs the estimate, and adds the blurred difference between that and what was seen.
-- The difference counts only where the whole kernel is in the frame: nothing is known outside.
-- Estimates have two bits of fraction, and are from 0 to 1020. An error is from -1020 to 1020.
-- Look at: letters and veins are sharper. Noise is stronger too.
size 64 48
input seen : u8

-- 1 in the frame and 0 outside, as each unclamped read. known is 1 if the whole kernel is inside.
-- It is inline, so no mask waits in line buffers.
inline let inside = im(x,y) 1 end
inline let known = im(x,y) inside(x-2,y-2) & inside(x+2,y+2) end

inline let sharp0 = im(x,y) 4*seen(x,y) end""")
for step in range(1, STEPS + 1):
    print(f"""
-- Step {step}: the blurred estimate, the error, and the blurred error.
let down{step} = im(x,y)
    ({kernel(f"sharp{step - 1}", "x,y*")}) as u14
end
let blur{step} = im(x,y)
    (({kernel(f"down{step}", "x*,y")} + 128) >> 8) as u10
end
let error{step} = im(x,y)
    select(known(x,y), (4*seen(x,y) - blur{step}(x,y)) as s11, 0)
end
let error_down{step} = im(x,y)
    ({kernel(f"error{step}", "x,y*")}) as s15
end
let change{step} = im(x,y)
    (({kernel(f"error_down{step}", "x*,y")} + 128) >> 8) as s11
end
let sharp{step} = im(x,y)
    min(sat(sharp{step - 1}(x,y) + change{step}(x,y), u10), 1020)
end""")
print(f"""
let sharp = im(x,y) (sharp{STEPS}(x,y) >> 2) as u8 end
output sharp""")
