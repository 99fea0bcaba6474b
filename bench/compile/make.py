# Writes the programs that are largest for the compiler, or those that are named, each into a file of the folder that it runs in.
import sys


def tree(leaves):
    """A balanced expression of these leaves, so that its depth stays small."""
    while len(leaves) > 1:
        pairs = [leaves[i : i + 2] for i in range(0, len(leaves), 2)]
        leaves = ["(" + "|".join(pair) + ")" if len(pair) == 2 else pair[0] for pair in pairs]
    return leaves[0]


def offset(d):
    return "" if d == 0 else f"{d:+d}"


def read(image, dx, dy):
    return f"{image}(x{offset(dx)},y{offset(dy)})"


def write(name, first, definitions, output):
    with open(name + ".dk", "w") as file:
        file.write(f"size 4096 4096\ninput {first} : u8\n")
        for image, body in definitions:
            file.write(f"let {image} = im(x,y) {body} end\n")
        file.write(f"output {output}\n")


def wide():
    """65,535 nodes in one image, 4,096 live reads, each read eight times."""
    square = [(dx, dy) for dy in range(-32, 32) for dx in range(-32, 32)]
    write("wide", "a", [("f", tree([read("a", *square[k % 4096]) for k in range(32768)]))], "f")


def deep():
    """255 images of 255 nodes, each with 16 live reads of the one before it."""
    small = [(dx, dy) for dy in range(-2, 2) for dx in range(-2, 2)]
    write("deep", "i0", [(f"i{k + 1}", tree([read(f"i{k}", *small[j % 16]) for j in range(128)])) for k in range(255)], "i255")


def late():
    """A latency of 66,846,720 clocks."""
    write("late", "i0", [(f"i{k + 1}", f"(i{k}(x,y+64)|i{k}(x+1,y+63))") for k in range(255)], "i255")


CORNER = read("a", 63, 63) + " edge clamp"


def clamp():
    """A clamped read with 4,096 candidates."""
    write("clamp", "a", [("f", CORNER)], "f")


def clamps():
    """That read 4,096 times."""
    write("clamps", "a", [("f", tree([CORNER] * 4096))], "f")


PROGRAMS = {made.__name__: made for made in (wide, deep, late, clamp, clamps)}

for name in sys.argv[1:] or PROGRAMS:
    PROGRAMS[name]()
