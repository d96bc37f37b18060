// ZXing's reader with a C interface: Data Matrix alone, of an image that has nothing but the symbol (its "pure"
// option). With `fixed_threshold` it makes none of its other tries either.
#include <cstdint>
#include <cstdio>
#include <cstring>

#define ZX_USE_UTF8
#include <ZXing/ReadBarcode.h>

namespace {

ZXing::DecodeHints pure_hints(bool fixed_threshold) {
    auto hints = ZXing::DecodeHints().setFormats(ZXing::BarcodeFormat::DataMatrix).setIsPure(true);
    if (fixed_threshold) {
        hints.setBinarizer(ZXing::Binarizer::FixedThreshold).setTryRotate(false).setTryDownscale(false);
    }
    return hints;
}

ZXing::Result read_square(const uint8_t *pixels, int width, bool fixed_threshold) {
    const auto view = ZXing::ImageView(pixels, width, width, ZXing::ImageFormat::Lum);
    return ZXing::ReadBarcode(view, pure_hints(fixed_threshold));
}

}  // namespace

// Reads a grey image of width * width pixels. Answers the text's length, at most `room`, or SIZE_MAX.
extern "C" size_t bench_zxing_read(const uint8_t *pixels, int width, bool fixed_threshold, uint8_t *text, size_t room) {
    const auto result = read_square(pixels, width, fixed_threshold);
    const auto &bytes = result.bytes();
    if (!result.isValid() || bytes.size() > room) {
        return SIZE_MAX;
    }
    std::memcpy(text, bytes.data(), bytes.size());
    return bytes.size();
}

// Prints the page, the number of pages and the ID of a label's grey image, or `-` where it shows no label.
extern "C" void bench_zxing_print_page(const uint8_t *pixels, int width) {
    const auto result = read_square(pixels, width, false);
    if (!result.isValid() || !result.isPartOfSequence()) {
        std::puts("-");
        return;
    }
    std::printf("%d/%d/%s\n", result.sequenceIndex() + 1, result.sequenceSize(), result.sequenceId().c_str());
}
