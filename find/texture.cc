#include "texture.h"

#include <algorithm>
#include <cmath>

namespace {

// A block of pixels is textured where its darkest and the lightest near it are so far apart.
constexpr int LEAST_TEXTURE = 30;
// And where from pixel to pixel, in each direction, brightness changes by this part of that.
constexpr double LEAST_SLOPE = 0.05;

bool is_textured(int darkest, const Slopes &near) {
    return near.lightest - darkest >= std::max(LEAST_TEXTURE, near.lightest / 4) && near.least() >= LEAST_SLOPE * (near.lightest - near.darkest);
}

} // namespace

void Slopes::add(const Slopes &other) {
    darkest = std::min(darkest, other.darkest);
    lightest = std::max(lightest, other.lightest);
    pixels += other.pixels;
    across += other.across;
    down += other.down;
    both += other.both;
}

double Slopes::least() const {
    const double mean = (double(across) + down) / 2, square = mean - std::hypot((double(across) - down) / 2, both);
    // What was summed spans two pixels.
    return pixels > 0 ? std::sqrt(std::max(0.0, square) / pixels) / 2 : 0;
}

Relief::Relief(const Picture &picture)
    : width(picture.width), height(picture.height), across((width + BLOCK - 1) / BLOCK), down((height + BLOCK - 1) / BLOCK), blocks(size_t(across) * down) {
    look_again(picture, {0, 0, width, height});
}

void Relief::look_again(const Picture &picture, const Box &changed) {
    // The slopes of the pixels beside have changed too.
    const int left = std::max(0, changed.x - 1) / BLOCK, right = std::min(width - 1, changed.x + changed.width) / BLOCK;
    const int top = std::max(0, changed.y - 1) / BLOCK, bottom = std::min(height - 1, changed.y + changed.height) / BLOCK;
    for (int row = top; row <= bottom; row++) {
        std::fill_n(blocks.begin() + row * across + left, right - left + 1, Slopes());
        for (int y = row * BLOCK; y < std::min(height, (row + 1) * BLOCK); y++) {
            const uint8_t *above = picture.row(std::max(0, y - 1)), *here = picture.row(y), *below = picture.row(std::min(height - 1, y + 1));
            for (int x = left * BLOCK; x < std::min(width, (right + 1) * BLOCK); x++) {
                const int to_right = here[std::min(width - 1, x + 1)] - here[std::max(0, x - 1)], to_below = below[x] - above[x];
                blocks[size_t(row) * across + x / BLOCK].add({here[x], here[x], 1, to_right * to_right, to_below * to_below, to_right * to_below});
            }
        }
    }
}

Slopes Relief::of_block(int x, int y, int extent) const {
    Slopes sum;
    for (int row = y / BLOCK; row < std::min(down, (y + extent) / BLOCK); row++) {
        for (int column = x / BLOCK; column < std::min(across, (x + extent) / BLOCK); column++) {
            sum.add(blocks[size_t(row) * across + column]);
        }
    }
    return sum;
}

Texture::Texture(const Relief &relief, int block)
    : block(block), across((relief.width + block - 1) / block), down((relief.height + block - 1) / block), textured(size_t(across) * down), solid(textured.size()) {
    std::vector<Slopes> slopes;
    for (int at = 0; at < across * down; at++) {
        slopes.push_back(relief.of_block(at % across * block, at / across * block, block));
    }
    for (int at = 0; at < across * down; at++) {
        Slopes near;
        for_each_near(at, [&](int other) { near.add(slopes[size_t(other)]); });
        textured[size_t(at)] = is_textured(slopes[size_t(at)].darkest, near);
    }
    for (int at = 0; at < across * down; at++) {
        int near_ones = 0;
        for_each_near(at, [&](int other) { near_ones += textured[size_t(other)]; });
        solid[size_t(at)] = near_ones == 9;
    }
}

template <typename Act> void Texture::for_each_near(int at, Act act) const {
    for (int y = std::max(0, at / across - 1); y <= std::min(down - 1, at / across + 1); y++) {
        for (int x = std::max(0, at % across - 1); x <= std::min(across - 1, at % across + 1); x++) {
            act(y * across + x);
        }
    }
}

bool Texture::is_solid(const Box &box) const {
    for (int y = std::max(0, box.y / block); y < std::min(down, (box.y + box.height) / block); y++) {
        for (int x = std::max(0, box.x / block); x < std::min(across, (box.x + box.width) / block); x++) {
            if (solid[size_t(y) * across + x]) {
                return true;
            }
        }
    }
    return false;
}

Box Texture::box_round(int start, std::vector<bool> &unseen) const {
    int left = across, right = 0, top = down, bottom = 0;
    std::vector<int> waiting = {start};
    unseen[size_t(start)] = false;
    while (!waiting.empty()) {
        const int at = waiting.back();
        waiting.pop_back();
        left = std::min(left, at % across);
        right = std::max(right, at % across);
        top = std::min(top, at / across);
        bottom = std::max(bottom, at / across);
        for_each_near(at, [&](int near) {
            if (unseen[size_t(near)]) {
                unseen[size_t(near)] = false;
                waiting.push_back(near);
            }
        });
    }
    return {left * block, top * block, (right - left + 1) * block, (bottom - top + 1) * block};
}

std::vector<Box> Texture::boxes() const {
    std::vector<Box> found;
    std::vector<bool> unseen = textured;
    for (int start = 0; start < across * down; start++) {
        if (unseen[size_t(start)]) {
            const Box box = box_round(start, unseen);
            if (std::min(box.width, box.height) >= LEAST_EXTENT && is_solid(box)) {
                found.push_back(box);
            }
        }
    }
    std::sort(found.begin(), found.end(), [](const Box &a, const Box &b) { return a.width * a.height > b.width * b.height; });
    return found;
}
