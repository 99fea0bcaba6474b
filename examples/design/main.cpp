// Drives the design with a picture, and writes the picture that it shows: top IN.pgm OUT.pgm
// In a third of all clocks `en` is 0, with another pixel at `din`.
#include <cstdio>
#include <fstream>
#include <iterator>
#include <string>
#include <vector>
#include "Vtop.h"

static void clock(Vtop &top) {
    top.clk = 0;
    top.eval();
    top.clk = 1;
    top.eval();
}

int main(int argc, char **argv) {
    std::ifstream in(argc == 3 ? argv[1] : "", std::ios::binary);
    std::string magic;
    unsigned width = 0, height = 0, maxval = 0;
    in >> magic >> width >> height >> maxval;
    in.get();
    const std::vector<unsigned char> pixels{std::istreambuf_iterator<char>(in), {}};
    if (magic != "P5" || maxval > 255 || pixels.size() != size_t(width) * height) {
        fprintf(stderr, "usage: top IN.pgm OUT.pgm, with one picture of 8 bits a pixel\n");
        return 2;
    }
    Vtop top;
    top.rst = 1;
    top.en = 0;
    clock(top);
    top.rst = 0;
    std::vector<unsigned char> shown;
    // Pixels of a next frame move the last ones out; the limit is for a design that shows none.
    for (size_t taken = 0, number = 0; shown.size() < pixels.size() && number < 6 * pixels.size() + 100000; number++) {
        top.en = number % 3 != 1;
        top.din = top.en && taken < pixels.size() ? pixels[taken] : number * 7;
        top.clk = 0;
        top.eval();
        if (top.valid) shown.push_back(top.dout);
        taken += top.en;
        top.clk = 1;
        top.eval();
    }
    std::ofstream out(argv[2], std::ios::binary);
    out << "P5\n" << width << " " << height << "\n255\n";
    out.write(reinterpret_cast<const char *>(shown.data()), shown.size());
    return shown.size() == pixels.size() && out.flush() ? 0 : 1;
}
