#!/usr/bin/env python3
"""Prints canny.dk: the eight steps of hysteresis are alike.

usage: python3 examples/pipelines/canny.py >examples/pipelines/canny.dk
"""
STEPS = 8

print("""-- Canny edges: thin lines where the brightness changes, strong ones and what hangs on them.
-- Input: a grey picture of 8 bits. Its edges are clamped, and no edge is outside the frame.
-- Stages: Gaussian of 5 by 5, Sobel gradients, ridges along four directions, two thresholds, and
-- eight steps of hysteresis, of which each adds the weak pixels beside an edge.
-- The ridge is found line by line: one line of strengths is stored and not two.
-- Look at: outlines are one pixel wide, and texture without a strong pixel near it is gone.
size 64 48
input grey : u8

-- Gaussian: 1 4 6 4 1 down and across, 256 in all.
let above2 = im(x,y) grey(x,y-2) edge clamp end
let above1 = im(x,y) grey(x,y-1) edge clamp end
let below1 = im(x,y) grey(x,y+1) edge clamp end
let below2 = im(x,y) grey(x,y+2) edge clamp end
let column = im(x,y)
    (above2(x,y) + below2(x,y) + 4*(above1(x,y) + grey(x,y) + below1(x,y)) + 2*grey(x,y)) as u12
end
let before2 = im(x,y) column(x-2,y) edge clamp end
let before1 = im(x,y) column(x-1,y) edge clamp end
let after1 = im(x,y) column(x+1,y) edge clamp end
let after2 = im(x,y) column(x+2,y) edge clamp end
let smooth = im(x,y)
    ((before2(x,y) + after2(x,y) + 4*(before1(x,y) + column(x,y) + after1(x,y)) + 2*column(x,y)
      + 128) >> 8) as u8
end

-- Sobel gradients: -1020 to 1020, and |gx| + |gy| is at most 1530.
let above = im(x,y) smooth(x,y-1) edge clamp end
let below = im(x,y) smooth(x,y+1) edge clamp end
let sum = im(x,y) (above(x,y) + 2*smooth(x,y) + below(x,y)) as u10 end
let rise = im(x,y) below(x,y) - above(x,y) end
let gx = im(x,y) sum(x+1,y) edge clamp - sum(x-1,y) edge clamp end
let gy = im(x,y)
    (rise(x-1,y) edge clamp + 2*rise(x,y) + rise(x+1,y) edge clamp) as s11
end
let size_x = im(x,y) abs(gx(x,y)) as u10 end
let size_y = im(x,y) abs(gy(x,y)) as u10 end
let strength = im(x,y) size_x(x,y) + size_y(x,y) end

-- Four directions, by the tangent of 22.5 degrees, 53/128, and that of 67.5, 2 more.
-- Across: the brightness changes along the line. Down: along the column. Else along a diagonal,
-- and falling if both gradients have one sign.
let part = im(x,y) 53*size_x(x,y) end
let across = im(x,y) 128*size_y(x,y) < part(x,y) end
let down = im(x,y) 128*size_y(x,y) > part(x,y) + 256*size_x(x,y) end
let falling = im(x,y) (gx(x,y) < 0) == (gy(x,y) < 0) end

-- A ridge is stronger than its earlier neighbour in that direction. On an axis the later one may be
-- as strong, so that of two equal pixels the first is the ridge.
let over_earlier = im(x,y)
    strength(x,y) > select(across(x,y), strength(x-1,y),
                    select(down(x,y), strength(x,y-1),
                    select(falling(x,y), strength(x-1,y-1), strength(x+1,y-1))))
end
let over_later = im(x,y)
    select(across(x,y), strength(x,y) >= strength(x+1,y),
    select(down(x,y), strength(x,y) >= strength(x,y+1),
    select(falling(x,y), strength(x,y) > strength(x+1,y+1), strength(x,y) > strength(x-1,y+1))))
end
let ridge = im(x,y) over_earlier(x,y) & over_later(x,y) end

-- The thresholds: a weak pixel is a ridge above 40, and an edge one above 100.
let weak = im(x,y) ridge(x,y) & (strength(x,y) > 40) end
let edge0 = im(x,y) ridge(x,y) & (strength(x,y) > 100) end

-- Hysteresis: a weak pixel becomes an edge beside an edge.""")
for step in range(STEPS):
    print(f"""let column{step} = im(x,y) edge{step}(x,y-1) | edge{step}(x,y) | edge{step}(x,y+1) end
let edge{step + 1} = im(x,y)
    weak(x,y) & (column{step}(x-1,y) | column{step}(x,y) | column{step}(x+1,y))
end""")
print(f"""
output edge{STEPS}""")
