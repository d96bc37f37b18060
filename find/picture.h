// Pictures in grey, and how they are read: PBM, PGM and PPM, several in one stream; PNG; JPEG.
#pragma once

#include <cstddef>
#include <cstdint>
#include <cstdio>
#include <stdexcept>
#include <string>
#include <vector>

// Rows of brightnesses from the top left, 0 black to 255 white.
struct Picture {
    int width = 0;
    int height = 0;
    std::vector<uint8_t> grey;

    uint8_t at(int x, int y) const { return grey[size_t(y) * width + x]; }
    uint8_t *row(int y) { return grey.data() + size_t(y) * width; }
    const uint8_t *row(int y) const { return grey.data() + size_t(y) * width; }

    // The brightness at a point, between the four pixels around it. The middle of the first pixel is at 0.5, 0.5.
    double bright(double x, double y) const;
};

// What can't be read as a picture, with the reason.
struct PictureFault : std::runtime_error {
    using std::runtime_error::runtime_error;
};

// Reads the next picture of a stream; false where there is none. Throws PictureFault; then nothing of the stream can be read after it.
bool read_picture(FILE *in, Picture &picture);

// The mean of the nine pixels around each.
Picture smoothed(const Picture &picture);

// A picture of half the width and height, each pixel the mean of four.
Picture halved(const Picture &picture);

// Light where a picture is dark.
Picture inverted(const Picture &picture);
