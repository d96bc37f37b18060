#include "finder.h"

#include "dmtx.h"
#include "label.h"
#include "texture.h"

#include <ZXing/ReadBarcode.h>

#include <algorithm>
#include <cmath>
#include <set>

namespace {

using namespace std::chrono_literals;

// ZXing has this long for one picture, and libdmtx as long again for what it leaves.
constexpr auto TIME = 6s;
// And between them there is this long for symbols that are light on dark.
constexpr auto TIME_INVERTED = 2s;
// A picture of more pixels is looked at in half its size.
constexpr size_t LARGE = 14'000'000;

Point middle_of(const Corners &corners) {
    return {(corners[0].x + corners[1].x + corners[2].x + corners[3].x) / 4, (corners[0].y + corners[1].y + corners[2].y + corners[3].y) / 4};
}

// From the middle of a symbol to its corners.
double reach_of(const Corners &corners) {
    const Point middle = middle_of(corners);
    double reach = 0;
    for (const Point &corner : corners) {
        reach = std::max(reach, std::hypot(corner.x - middle.x, corner.y - middle.y));
    }
    return reach;
}

Corners grown(const Corners &corners, double by) {
    const Point middle = middle_of(corners);
    Corners made;
    for (size_t i = 0; i < 4; i++) {
        made[i] = {middle.x + (corners[i].x - middle.x) * by, middle.y + (corners[i].y - middle.y) * by};
    }
    return made;
}

// Whether the point lies in the quadrangle, whichever way round its corners are.
bool is_in(const Corners &corners, double x, double y) {
    bool left = false, right = false;
    for (size_t i = 0; i < 4; i++) {
        const Point &a = corners[i], &b = corners[(i + 1) % 4];
        const double side = (b.x - a.x) * (y - a.y) - (b.y - a.y) * (x - a.x);
        left |= side > 0;
        right |= side < 0;
    }
    return !(left && right);
}

// Makes a symbol as light as the lightest around it. Answers the box in which it is.
Box paint_over(Picture &picture, const Corners &corners) {
    int left = picture.width, right = 0, top = picture.height, bottom = 0, light = 0;
    for (const Point &corner : corners) {
        const int x = int(std::clamp(corner.x, 0.0, picture.width - 1.0)), y = int(std::clamp(corner.y, 0.0, picture.height - 1.0));
        left = std::min(left, x);
        right = std::max(right, x);
        top = std::min(top, y);
        bottom = std::max(bottom, y);
        light = std::max(light, int(picture.at(x, y)));
    }
    for (int y = top; y <= bottom; y++) {
        for (int x = left; x <= right; x++) {
            if (is_in(corners, x + 0.5, y + 0.5)) {
                picture.row(y)[x] = uint8_t(light);
            }
        }
    }
    return {left, top, right - left + 1, bottom - top + 1};
}

// A part of a picture, with a border round the box where the picture has one.
struct Crop {
    Picture picture;
    Point origin;
    double turn = 0; // in which it was turned about its middle, in radians
    double scale = 1;

    // A point of the crop as a point of the picture that it was cut from.
    Point back(Point at) const {
        const double x = at.x - picture.width / 2.0, y = at.y - picture.height / 2.0;
        return {origin.x + (x * std::cos(turn) - y * std::sin(turn)) * scale, origin.y + (x * std::sin(turn) + y * std::cos(turn)) * scale};
    }
};

// A square part of a picture round a point, turned, and made smaller by a scale.
Crop cut_out(const Picture &from, Point middle, double width, double height, double turn, double scale) {
    Crop crop;
    crop.origin = middle;
    crop.turn = turn;
    crop.scale = scale;
    crop.picture.width = std::max(1, int(width / scale));
    crop.picture.height = std::max(1, int(height / scale));
    crop.picture.grey.resize(size_t(crop.picture.width) * crop.picture.height);
    for (int y = 0; y < crop.picture.height; y++) {
        for (int x = 0; x < crop.picture.width; x++) {
            const Point at = crop.back({x + 0.5, y + 0.5});
            crop.picture.row(y)[x] = uint8_t(from.bright(at.x, at.y) + 0.5);
        }
    }
    return crop;
}

// ---- The search

class Search {
  public:
    Search(const Picture &whole, int expected, Deadline deadline, const std::function<void(const Symbol &)> &take)
        : whole(whole), expected(expected), deadline(deadline), take(take), scale(whole.grey.size() > LARGE ? 2 : 1), plain(scale == 2 ? halved(whole) : whole),
          smooth(smoothed(plain)), relief(smooth) {}

    Tally run() {
        for (const int block : {16, 40, 8}) {
            look_at_boxes(block);
        }
        look_for_inverted();
        look_at_tiles();
        look_by_dmtx();
        tally.labels = int(read.size());
        for (const Point &at : seen) {
            if (!is_known(at)) {
                tally.lost.push_back(in_whole(at));
            }
        }
        return tally;
    }

  private:
    const Picture &whole;
    const int expected;
    Deadline deadline;
    const std::function<void(const Symbol &)> &take;
    const int scale;
    Picture plain, smooth; // each symbol that was found is painted over
    Relief relief;
    Tally tally;
    std::vector<Corners> known;
    std::vector<Point> seen;
    std::set<Label> read;

    Point in_whole(Point at) const { return {at.x * scale, at.y * scale}; }

    // Whether as many labels were read as are expected.
    bool has_all() const { return expected > 0 && read.size() >= size_t(expected); }

    // Whether the search has to end though there is more to look at.
    bool has_to_end() {
        const bool is_late = !has_all() && Clock::now() > deadline;
        tally.is_late |= is_late;
        return is_late || has_all();
    }

    void make_known(const Corners &corners) {
        known.push_back(corners);
        const Corners painted = grown(corners, 1.04);
        paint_over(plain, painted);
        relief.look_again(smooth, paint_over(smooth, painted));
    }

    bool is_known(Point at) const {
        return std::any_of(known.begin(), known.end(), [&](const Corners &corners) { return is_in(grown(corners, 1.05), at.x, at.y); });
    }

    // Samples a symbol near these corners, in the picture or, if it doesn't look right there, in the smoothed one.
    bool sample_at(const Corners &near) {
        if (is_known(middle_of(near))) {
            return true;
        }
        Corners wanted = near;
        for (Point &corner : wanted) {
            corner = in_whole(corner);
        }
        Symbol symbol = sample(whole, wanted);
        if (!symbol.looks_right()) {
            symbol = sample(smooth, near);
            if (!symbol.looks_right()) {
                return false;
            }
        } else {
            for (Point &corner : symbol.corners) {
                corner = {corner.x / scale, corner.y / scale};
            }
        }
        make_known(symbol.corners);
        tally.found++;
        if (const auto label = expected > 0 ? label_of(symbol) : std::nullopt) {
            read.insert(*label);
        }
        take(symbol);
        return true;
    }

    // Whether ZXing finds a symbol in a part of a picture that can be sampled.
    bool look_at(const Crop &crop, ZXing::Binarizer binarizer) {
        const auto hints = ZXing::DecodeHints()
                               .setFormats(ZXing::BarcodeFormat::DataMatrix)
                               .setTryHarder(true)
                               .setTryRotate(true)
                               .setTryDownscale(false)
                               .setReturnErrors(true)
                               .setBinarizer(binarizer);
        const ZXing::ImageView view(crop.picture.grey.data(), crop.picture.width, crop.picture.height, ZXing::ImageFormat::Lum);
        bool found = false;
        for (const ZXing::Result &result : ZXing::ReadBarcodes(view, hints)) {
            Corners corners;
            for (size_t i = 0; i < 4; i++) {
                corners[i] = crop.back({double(result.position()[i].x), double(result.position()[i].y)});
            }
            if (result.isMirrored()) {
                std::swap(corners[1], corners[3]);
            }
            if (reach_of(corners) < LEAST_EXTENT / 2 || is_known(middle_of(corners))) {
                continue;
            }
            if (sample_at(corners)) {
                found = true;
            } else if (result.isValid()) {
                seen.push_back(middle_of(corners));
            }
        }
        return found;
    }

    // Looks at a place as it is, smoothed, turned and made smaller, until something is found.
    bool look_round(Point middle, double width, double height, bool is_thorough) {
        for (const Picture *picture : {&plain, &smooth}) {
            const Crop crop = cut_out(*picture, middle, width, height, 0, 1);
            for (const auto binarizer : {ZXing::Binarizer::LocalAverage, ZXing::Binarizer::GlobalHistogram}) {
                if (look_at(crop, binarizer)) {
                    return true;
                }
            }
        }
        if (!is_thorough) {
            return false;
        }
        const double extent = std::max(width, height);
        for (const double degrees : {45.0, 22.5, 67.5, 11.0, 34.0, 56.0, 79.0}) {
            if (has_to_end()) {
                return false;
            }
            if (look_at(cut_out(smooth, middle, extent, extent, degrees * M_PI / 180, 1), ZXing::Binarizer::LocalAverage)) {
                return true;
            }
        }
        for (const double smaller : {1.5, 2.0, 0.5}) {
            if (extent / smaller <= 1'600 && look_at(cut_out(smooth, middle, width, height, 0, smaller), ZXing::Binarizer::LocalAverage)) {
                return true;
            }
        }
        return false;
    }

    void look_at_boxes(int block) {
        for (bool more = true; more;) {
            more = false;
            for (const Box &box : Texture(relief, block).boxes()) {
                const double longer = std::max(box.width, box.height), shorter = std::min(box.width, box.height);
                if (longer > 2.5 * shorter && shorter < 400) {
                    continue;
                }
                if (has_to_end()) {
                    return;
                }
                const double border = 2 * block + longer / 8;
                const Point middle = {box.x + box.width / 2.0, box.y + box.height / 2.0};
                more |= look_round(middle, box.width + border, box.height + border, longer < 1'000 && longer < 1.6 * shorter);
            }
        }
    }

    // Finds symbols that are light on dark: in the negative of what is left they look right.
    void look_for_inverted() {
        if (has_all() || Texture(relief, 16).boxes().empty()) {
            return;
        }
        const Deadline begin = Clock::now();
        const Picture negative = inverted(plain);
        const std::function<void(const Symbol &)> leave = [](const Symbol &) {};
        Search search(negative, 0, begin + TIME_INVERTED, leave);
        search.look_at_boxes(16);
        for (const Corners &corners : search.known) {
            make_known(corners);
            tally.inverted.push_back(in_whole(middle_of(corners)));
        }
        deadline += Clock::now() - begin;
    }

    // Looks everywhere, in squares that overlap.
    void look_at_tiles() {
        for (const int tile : {800, 400, 200}) {
            const Texture texture(relief, 16);
            for (int y = 0; y < smooth.height; y += tile / 2) {
                for (int x = 0; x < smooth.width; x += tile / 2) {
                    for (bool more = texture.is_solid({x, y, tile / 2, tile / 2}); more;) {
                        if (has_to_end()) {
                            return;
                        }
                        more = look_round({x + tile / 4.0, y + tile / 4.0}, tile, tile, false);
                    }
                }
            }
        }
    }

    // Has libdmtx look at what is left and may be a symbol.
    void look_by_dmtx() {
        deadline = Clock::now() + TIME;
        for (const Box &box : Texture(relief, 16).boxes()) {
            const double border = 24, longer = std::max(box.width, box.height);
            if (longer > 2.5 * std::min(box.width, box.height) && longer < 400) {
                continue;
            }
            if (has_to_end()) {
                return;
            }
            const Point middle = {box.x + box.width / 2.0, box.y + box.height / 2.0};
            const Crop crop = cut_out(smooth, middle, box.width + border, box.height + border, 0, 1);
            for (Corners corners : corners_by_dmtx(crop.picture, std::min(deadline, Clock::now() + 2s))) {
                for (Point &corner : corners) {
                    corner = crop.back(corner);
                }
                if (!sample_at(corners)) {
                    seen.push_back(middle_of(corners));
                }
            }
        }
    }
};

} // namespace

Tally find_symbols(const Picture &picture, int expected, const std::function<void(const Symbol &)> &take) {
    return Search(picture, expected, Clock::now() + TIME, take).run();
}
