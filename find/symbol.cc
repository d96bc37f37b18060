#include "symbol.h"

#include <cmath>
#include <string>

namespace {

constexpr int SIDES[] = {10, 12, 14, 16, 18, 20, 22, 24, 26, 32, 36, 40, 44, 48, 52, 64, 72, 80, 88, 96, 104, 120, 132};

// The least difference between dark and light modules that is a symbol's, of 255.
constexpr double LEAST_CONTRAST = 12;

// The side of a data region with its finder pattern.
int region_of(int side) {
    return side < 32 ? side : side < 64 ? side / 2 : side < 120 ? side / 4 : side / 6;
}

// Whether a module is of a finder pattern, and then whether it is dark: 1 dark, 0 light, -1 data.
int finder_at(int row, int column, int region) {
    const int r = row % region, c = column % region;
    return c == 0 || r == region - 1 ? 1 : r == 0 ? c % 2 == 0 : c == region - 1 ? r % 2 : -1;
}

// The projective map that takes the unit square to four corners.
class Perspective {
  public:
    explicit Perspective(const Corners &q) {
        const double x1 = q[1].x - q[2].x, x2 = q[3].x - q[2].x, x = q[0].x - q[1].x + q[2].x - q[3].x;
        const double y1 = q[1].y - q[2].y, y2 = q[3].y - q[2].y, y = q[0].y - q[1].y + q[2].y - q[3].y;
        const double area = x1 * y2 - x2 * y1;
        g = (x * y2 - x2 * y) / area;
        h = (x1 * y - x * y1) / area;
        a = q[1].x - q[0].x + g * q[1].x;
        b = q[3].x - q[0].x + h * q[3].x;
        c = q[0].x;
        d = q[1].y - q[0].y + g * q[1].y;
        e = q[3].y - q[0].y + h * q[3].y;
        f = q[0].y;
    }

    Point at(double u, double v) const {
        const double w = g * u + h * v + 1;
        return {(a * u + b * v + c) / w, (d * u + e * v + f) / w};
    }

  private:
    double a, b, c, d, e, f, g, h;
};

struct Contrast {
    // How much brighter the light modules of the finder patterns are than the dark ones, on average, and what lies between.
    double difference;
    double middle;
};

double bright_at(const Picture &picture, const Perspective &map, int side, double row, double column) {
    const Point point = map.at((column + 0.5) / side, (row + 0.5) / side);
    return picture.bright(point.x, point.y);
}

Contrast contrast_of(const Picture &picture, const Corners &corners, int side) {
    const Perspective map(corners);
    const int region = region_of(side);
    double sums[2] = {0, 0};
    int counts[2] = {0, 0};
    for (int row = 0; row < side; row++) {
        const bool is_inside = row % region > 0 && row % region < region - 1;
        for (int column = 0; column < side; column += is_inside && column % region == 0 ? region - 1 : 1) {
            const int dark = finder_at(row, column, region);
            sums[dark] += bright_at(picture, map, side, row, column);
            counts[dark]++;
        }
    }
    const double light = sums[0] / counts[0], dark = sums[1] / counts[1];
    return {light - dark, (light + dark) / 2};
}

// Moves the corners, by less and less, to where the finder patterns have the most contrast.
void fit(const Picture &picture, Corners &corners, int side) {
    const double module = std::hypot(corners[1].x - corners[0].x, corners[1].y - corners[0].y) / side;
    double best = contrast_of(picture, corners, side).difference;
    for (double step = module; step > module / 30; step /= 2) {
        for (int turn = 0, still = 0; still < 16; turn = (turn + 1) % 16) {
            double &moved = turn % 4 < 2 ? corners[size_t(turn / 4)].x : corners[size_t(turn / 4)].y;
            const double before = moved;
            moved += turn % 2 ? step : -step;
            const double now = contrast_of(picture, corners, side).difference;
            if (now > best + 0.01) {
                best = now;
                still = 0;
            } else {
                moved = before;
                still++;
            }
        }
    }
}

// A module is as bright as five points in it are on average.
bool is_dark(const Picture &picture, const Perspective &map, int side, int row, int column, double middle) {
    constexpr double OFF = 0.18;
    double sum = bright_at(picture, map, side, row, column);
    for (const double off : {-OFF, OFF}) {
        sum += bright_at(picture, map, side, row + off, column) + bright_at(picture, map, side, row, column + off);
    }
    return sum / 5 < middle;
}

} // namespace

Symbol sample(const Picture &picture, const Corners &near) {
    Symbol found;
    double best = LEAST_CONTRAST;
    for (const int side : SIDES) {
        for (size_t turn = 0; turn < 4; turn++) {
            const Corners turned = {near[turn], near[(turn + 1) % 4], near[(turn + 2) % 4], near[(turn + 3) % 4]};
            const double difference = contrast_of(picture, turned, side).difference;
            if (difference > best) {
                best = difference;
                found.side = side;
                found.corners = turned;
            }
        }
    }
    if (found.side == 0) {
        return found;
    }
    fit(picture, found.corners, found.side);
    const Perspective map(found.corners);
    const double middle = contrast_of(picture, found.corners, found.side).middle;
    for (int row = 0; row < found.side; row++) {
        for (int column = 0; column < found.side; column++) {
            const bool dark = is_dark(picture, map, found.side, row, column, middle);
            const int wanted = finder_at(row, column, region_of(found.side));
            found.dark.push_back(dark);
            found.finder += wanted >= 0;
            found.wrong += wanted >= 0 && wanted != int(dark);
        }
    }
    return found;
}

std::vector<uint8_t> image_of(const Symbol &symbol) {
    const int width = symbol.side + 2;
    const std::string head = "P4\n" + std::to_string(width) + " " + std::to_string(width) + "\n";
    std::vector<uint8_t> bytes(head.begin(), head.end());
    for (int row = 0; row < width; row++) {
        for (int column = 0; column < width; column += 8) {
            int byte = 0;
            for (int x = column; x < column + 8; x++) {
                const bool is_module = row > 0 && row <= symbol.side && x > 0 && x <= symbol.side;
                byte = byte << 1 | (is_module && symbol.dark[size_t(row - 1) * size_t(symbol.side) + size_t(x - 1)]);
            }
            bytes.push_back(uint8_t(byte));
        }
    }
    return bytes;
}
