#include "label.h"

#include <ZXing/ReadBarcode.h>

namespace {

// Pixels for each module, and modules of the quiet zone.
constexpr int PIXELS = 4;
constexpr int QUIET = 2;

Picture picture_of(const Symbol &symbol) {
    Picture picture;
    picture.width = picture.height = (symbol.side + 2 * QUIET) * PIXELS;
    picture.grey.assign(size_t(picture.width) * picture.height, 255);
    for (int y = 0; y < symbol.side * PIXELS; y++) {
        for (int x = 0; x < symbol.side * PIXELS; x++) {
            if (symbol.dark[size_t(y / PIXELS) * symbol.side + x / PIXELS]) {
                picture.row(y + QUIET * PIXELS)[x + QUIET * PIXELS] = 0;
            }
        }
    }
    return picture;
}

} // namespace

std::optional<Label> label_of(const Symbol &symbol) {
    const Picture picture = picture_of(symbol);
    const auto hints = ZXing::DecodeHints().setFormats(ZXing::BarcodeFormat::DataMatrix).setIsPure(true).setBinarizer(ZXing::Binarizer::FixedThreshold);
    const ZXing::Result result = ZXing::ReadBarcode({picture.grey.data(), picture.width, picture.height, ZXing::ImageFormat::Lum}, hints);
    if (!result.isValid() || !result.isPartOfSequence()) {
        return std::nullopt;
    }
    return Label(result.sequenceId(), result.sequenceIndex());
}
