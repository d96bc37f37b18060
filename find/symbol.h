// Square Data Matrix symbols in a picture: where their modules are, and whether each is dark (ISO/IEC 16022:2006, 5.5 to 5.8).
#pragma once

#include "picture.h"

#include <array>
#include <vector>

struct Point {
    double x, y;
};

// The corners of a symbol's outer edge in a picture, in the order top left, top right, bottom right, bottom left of the symbol,
// whose solid edges are the left one and the bottom one.
using Corners = std::array<Point, 4>;

// The modules of a symbol, row by row from the top left.
struct Symbol {
    Corners corners;
    int side = 0;
    std::vector<bool> dark;
    // Of the modules of its finder patterns, how many are not as the standard has them, and how many there are.
    int wrong = 0;
    int finder = 0;

    bool looks_right() const { return side > 0 && wrong * 8 < finder; }
};

// The symbol near these corners, if there is one: its side is that whose finder patterns have the most contrast, and the corners are moved to
// where they have more. Without one its side is 0.
Symbol sample(const Picture &picture, const Corners &near);

// A symbol as a packed image (PBM, P4) with one pixel for each module, and a quiet zone of one pixel.
std::vector<uint8_t> image_of(const Symbol &symbol);
