// Shows a sheet of labels as a scanner or a camera sees it, for tests:  picture-of-sheet QUALITY SEED < LABELS > PICTURE
//
// LABELS are packed PBM images of one pixel for each module, as `relay print` writes them; the picture is PGM. What differs between the
// qualities stands in the table below. The same words give the same picture.

#include "picture.h"

#include <algorithm>
#include <array>
#include <cmath>
#include <cstdlib>
#include <cstring>
#include <random>

#include <jpeglib.h>

namespace {

struct Quality {
    char name;
    double pixels;      // for each module
    double least_turn;  // in degrees, to either side
    double most_turn;
    double perspective; // the part of the width by which each corner is moved at most
    double blur;        // the standard deviation, in pixels
    double noise;       // the standard deviation, of 255
    double contrast;    // what is left of it
    double shadow;      // what is left of the light where it is darkest
    int jpeg;           // its quality, or 0
    bool is_page;       // of A4, in place of what lies round the labels
    bool is_on_table;   // which is dark
};

constexpr Quality QUALITIES[] = {
    {'A', 6, 0, 0, 0, 0, 0, 1, 1, 0, true, false},
    {'B', 6, 0, 3, 0, 0.8, 6, 0.8, 1, 0, true, false},
    {'C', 4, 0, 3, 0, 0.8, 6, 0.8, 1, 0, true, false},
    {'D', 6, 0, 10, 0.02, 1, 0, 1, 0.6, 85, false, false},
    {'E', 5, 0, 10, 0.06, 1.5, 10, 1, 0.4, 60, false, false},
    {'F', 5, 0, 30, 0.12, 2, 14, 1, 1, 40, false, false},
    {'G', 6, 0, 180, 0, 0.8, 4, 1, 1, 0, false, false},
    {'H', 8, 0, 10, 0.04, 1.5, 8, 1, 1, 75, false, true},
    {'I', 6, 8, 8, 0, 1, 6, 1, 1, 60, true, true},
};

struct Point {
    double x, y;
};

using Map = std::array<double, 9>;

// The projective map that takes the unit square to four corners.
Map map_to(const std::array<Point, 4> &q) {
    const double x1 = q[1].x - q[2].x, x2 = q[3].x - q[2].x, x = q[0].x - q[1].x + q[2].x - q[3].x;
    const double y1 = q[1].y - q[2].y, y2 = q[3].y - q[2].y, y = q[0].y - q[1].y + q[2].y - q[3].y;
    const double area = x1 * y2 - x2 * y1, g = (x * y2 - x2 * y) / area, h = (x1 * y - x * y1) / area;
    return {q[1].x - q[0].x + g * q[1].x, q[3].x - q[0].x + h * q[3].x, q[0].x, q[1].y - q[0].y + g * q[1].y, q[3].y - q[0].y + h * q[3].y, q[0].y, g, h, 1};
}

Map inverse(const Map &m) {
    return {m[4] * m[8] - m[5] * m[7], m[2] * m[7] - m[1] * m[8], m[1] * m[5] - m[2] * m[4], m[5] * m[6] - m[3] * m[8], m[0] * m[8] - m[2] * m[6],
            m[2] * m[3] - m[0] * m[5], m[3] * m[7] - m[4] * m[6], m[1] * m[6] - m[0] * m[7], m[0] * m[4] - m[1] * m[3]};
}

Point at(const Map &m, double x, double y) {
    const double w = m[6] * x + m[7] * y + m[8];
    return {(m[0] * x + m[1] * y + m[2]) / w, (m[3] * x + m[4] * y + m[5]) / w};
}

// ---- Labels on paper, in modules

struct Paper {
    std::vector<Picture> labels;
    double cell_width, cell_height, width, height;

    // Two columns of labels, on a page of A4 with modules of half a millimetre or close together.
    Paper(std::vector<Picture> labels, bool is_page) : labels(std::move(labels)) {
        const int side = this->labels[0].width;
        const size_t rows = (this->labels.size() + 1) / 2;
        width = is_page ? 413 : 2 * (side + 20) + 10;
        height = is_page ? 585 : double(rows) * (side + 26) + 10;
        cell_width = width / 2;
        cell_height = height / double(rows);
    }

    // The brightness of a point: 0, 255, or that of what lies round the paper.
    double bright(Point p, double table) const {
        if (p.x < 0 || p.y < 0 || p.x >= width || p.y >= height) {
            return table;
        }
        const size_t number = size_t(p.y / cell_height) * 2 + size_t(p.x / cell_width);
        if (number >= labels.size()) {
            return 255;
        }
        const Picture &label = labels[number];
        const double left = (cell_width - label.width) / 2, top = (cell_height - label.height) / 2;
        const double x = std::fmod(p.x, cell_width) - left, y = std::fmod(p.y, cell_height) - top;
        if (x >= 0 && y >= 0 && x < label.width && y < label.height) {
            return label.at(int(x), int(y));
        }
        // A line of strokes below the label stands for its caption.
        const double below = y - label.height - 3;
        return below >= 0 && below < 4 && x >= 8 && x < 30 && std::fmod(x, 2.0) < 0.9 && std::fmod(std::floor(x * 3.7), 4) != 0 ? 0 : 255;
    }
};

// ---- What a lens, a light, a sensor and a file do

void blur(Picture &picture, double deviation) {
    const int reach = int(std::ceil(2.5 * deviation));
    std::vector<double> weights;
    double sum = 0;
    for (int i = -reach; i <= reach; i++) {
        weights.push_back(std::exp(-i * i / (2 * deviation * deviation)));
        sum += weights.back();
    }
    std::vector<float> middle(picture.grey.size());
    for (const bool is_down : {false, true}) {
        for (int y = 0; y < picture.height; y++) {
            for (int x = 0; x < picture.width; x++) {
                double value = 0;
                for (int i = -reach; i <= reach; i++) {
                    const int u = is_down ? x : std::clamp(x + i, 0, picture.width - 1), v = is_down ? std::clamp(y + i, 0, picture.height - 1) : y;
                    value += weights[size_t(i + reach)] * (is_down ? middle[size_t(v) * picture.width + u] : picture.at(u, v));
                }
                if (is_down) {
                    picture.row(y)[x] = uint8_t(std::clamp(value / sum + 0.5, 0.0, 255.0));
                } else {
                    middle[size_t(y) * picture.width + x] = float(value / sum);
                }
            }
        }
    }
}

void through_jpeg(Picture &picture, int quality) {
    jpeg_compress_struct to;
    jpeg_error_mgr errors;
    to.err = jpeg_std_error(&errors);
    jpeg_create_compress(&to);
    unsigned char *bytes = nullptr;
    unsigned long length = 0;
    jpeg_mem_dest(&to, &bytes, &length);
    to.image_width = unsigned(picture.width);
    to.image_height = unsigned(picture.height);
    to.input_components = 1;
    to.in_color_space = JCS_GRAYSCALE;
    jpeg_set_defaults(&to);
    jpeg_set_quality(&to, quality, TRUE);
    jpeg_start_compress(&to, TRUE);
    for (int y = 0; y < picture.height; y++) {
        JSAMPROW row = picture.row(y);
        jpeg_write_scanlines(&to, &row, 1);
    }
    jpeg_finish_compress(&to);
    jpeg_destroy_compress(&to);
    FILE *in = fmemopen(bytes, length, "rb");
    read_picture(in, picture);
    fclose(in);
    free(bytes);
}

// A number between two, the same for the same seed with any library.
double between(std::mt19937 &chance, double low, double high) {
    return low + (high - low) * (double(chance()) / 4294967296.0);
}

Picture taken(const Paper &paper, const Quality &quality, std::mt19937 &chance) {
    const double chosen = between(chance, -quality.most_turn, quality.most_turn);
    const double turn = std::copysign(std::max(std::abs(chosen), quality.least_turn), chosen) * M_PI / 180, width = paper.width * quality.pixels, height = paper.height * quality.pixels;
    std::array<Point, 4> corners = {{{-width / 2, -height / 2}, {width / 2, -height / 2}, {width / 2, height / 2}, {-width / 2, height / 2}}};
    double left = 0, top = 0, right = 0, bottom = 0;
    for (Point &corner : corners) {
        const double x = corner.x + between(chance, -1, 1) * quality.perspective * width, y = corner.y + between(chance, -1, 1) * quality.perspective * width;
        corner = {x * std::cos(turn) - y * std::sin(turn), x * std::sin(turn) + y * std::cos(turn)};
        left = std::min(left, corner.x);
        top = std::min(top, corner.y);
        right = std::max(right, corner.x);
        bottom = std::max(bottom, corner.y);
    }
    const double border = quality.is_page && !quality.is_on_table ? 0 : 20;
    for (Point &corner : corners) {
        corner = {corner.x - left + border, corner.y - top + border};
    }
    const Map back = inverse(map_to(corners));
    Picture picture;
    picture.width = int(right - left + 2 * border);
    picture.height = int(bottom - top + 2 * border);
    picture.grey.resize(size_t(picture.width) * picture.height);
    const double table = quality.is_on_table ? 40 : 255, shade = between(chance, 0, 2 * M_PI);
    for (int y = 0; y < picture.height; y++) {
        for (int x = 0; x < picture.width; x++) {
            double sum = 0;
            for (int i = 0; i < 9; i++) {
                const Point p = at(back, x + (i % 3 + 0.5) / 3, y + (i / 3 + 0.5) / 3);
                sum += paper.bright({p.x * paper.width, p.y * paper.height}, table);
            }
            const double along = 0.5 + 0.5 * (std::cos(shade) * (2.0 * x / picture.width - 1) + std::sin(shade) * (2.0 * y / picture.height - 1)) / 1.4143;
            const double light = quality.shadow + (1 - quality.shadow) * along;
            picture.row(y)[x] = uint8_t((128 + (sum / 9 - 128) * quality.contrast) * light + 0.5);
        }
    }
    return picture;
}

} // namespace

int main(int count, char **words) {
    const Quality *quality = nullptr;
    for (const Quality &each : QUALITIES) {
        quality = count == 3 && words[1][0] == each.name && words[1][1] == 0 ? &each : quality;
    }
    std::vector<Picture> labels;
    for (Picture label; read_picture(stdin, label);) {
        labels.push_back(label);
    }
    if (!quality || labels.empty()) {
        fputs("usage: picture-of-sheet QUALITY SEED < LABELS > PICTURE, with a quality of A to I\n", stderr);
        return 2;
    }
    std::mt19937 chance{unsigned(atoi(words[2]))};
    Picture picture = taken(Paper(std::move(labels), quality->is_page), *quality, chance);
    if (quality->blur > 0) {
        blur(picture, quality->blur);
    }
    if (quality->noise > 0) {
        for (uint8_t &pixel : picture.grey) {
            // The sum of four even numbers is near enough to a normal one.
            const double noise = between(chance, -1, 1) + between(chance, -1, 1) + between(chance, -1, 1) + between(chance, -1, 1);
            pixel = uint8_t(std::clamp(pixel + noise * quality->noise / 1.1547 + 0.5, 0.0, 255.0));
        }
    }
    if (quality->jpeg > 0) {
        through_jpeg(picture, quality->jpeg);
    }
    printf("P5\n%d %d\n255\n", picture.width, picture.height);
    fwrite(picture.grey.data(), 1, picture.grey.size(), stdout);
    return 0;
}
