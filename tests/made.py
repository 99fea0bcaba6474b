"""The program and the image that `make N` stands for, a second time: docs/COMMANDS.md, "The generator of make".

usage: made.py numbers COUNT SEED | made.py write N | made.py sum FILE
`numbers` prints numbers of programs, `write` makes made.dk and made.pgm, `sum` prints the sum of a file's samples.
"""

import random
import sys

GREATEST = 4194303


class Draws:
    def __init__(self, state):
        self.state = state

    def draw(self, below):
        self.state = (25173 * self.state + 13849) % 65536
        return self.state // 8 % below


def offset(letter, number):
    return letter if number == 0 else f"{letter}{number:+d}"


def read(image, dx, dy):
    name = "a" if image == 0 else f"i{image}"
    return f"{name}({offset('x', dx)},{offset('y', dy)})"


def body(form, a, b):
    return [
        f"(({a}+{b})/2) as u8",
        f"max({a},{b})",
        f"abs({a}-{b}) as u8",
        f"select({a}<{b},{a},({a}*3+{b})>>2) as u8",
    ][form]


def made(number):
    width = 1 + number % 256
    height = 1 + number // 256 % 256
    count = 1 + number // 65536 % 64
    draws = Draws(number % 65536)
    lines = [f"size {width} {height}", "input a : u8"]
    for k in range(1, count + 1):
        form = draws.draw(4)
        dx, dy = draws.draw(5) - 2, draws.draw(5) - 2
        a = read(k - 1, dx, dy)
        source = draws.draw(k)
        source -= source % 2
        dx, dy = draws.draw(5) - 2, draws.draw(5) - 2
        b = read(source, dx, dy)
        inline = "inline " if draws.draw(4) == 0 and k % 2 == 1 and k < count else ""
        lines.append(f"{inline}let i{k} = im(x,y) {body(form, a, b)} end")
    lines.append(f"output i{count}")
    samples = bytes(draws.draw(256) for _ in range(width * height))
    header = f"P5\n{width} {height}\n255\n".encode()
    return "".join(line + "\n" for line in lines), header + samples


def total(path):
    with open(path, "rb") as file:
        return sum(file.read().split(b"\n", 3)[3])


def main(words):
    if words[0] == "numbers":
        chosen = random.Random(int(words[2]))
        for _ in range(int(words[1])):
            print(chosen.randint(0, GREATEST))
    elif words[0] == "write":
        text, image = made(int(words[1]))
        with open("made.dk", "w") as file:
            file.write(text)
        with open("made.pgm", "wb") as file:
            file.write(image)
    else:
        print(total(words[1]))


main(sys.argv[1:])
