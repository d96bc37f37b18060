// Reads a grey image by ZXing and by libdmtx, for bench/all-sides: the width, and then the pixels, one byte each, stand
// on the standard input. Prints what each has read in hexadecimal, or `-` for nothing, a line each, and then the page that
// ZXing has seen.
#include <cstdint>
#include <cstdio>
#include <vector>

extern "C" size_t bench_zxing_read(const uint8_t *pixels, int width, bool fixed_threshold, uint8_t *text, size_t room);
extern "C" void bench_zxing_print_page(const uint8_t *pixels, int width);
extern "C" size_t bench_dmtx_read(const uint8_t *pixels, int width, uint8_t *text, size_t room);

static void print_text(const std::vector<uint8_t> &text, size_t length) {
    if (length == SIZE_MAX || length == 0) {
        std::puts("-");
        return;
    }
    for (size_t at = 0; at < length; ++at) {
        std::printf("%02x", text[at]);
    }
    std::puts("");
}

int main() {
    int width = 0;
    if (std::scanf("%d", &width) != 1 || std::getchar() != '\n') {
        return 2;
    }
    std::vector<uint8_t> pixels(static_cast<size_t>(width) * static_cast<size_t>(width)), text(8192);
    if (std::fread(pixels.data(), 1, pixels.size(), stdin) != pixels.size()) {
        return 2;
    }
    print_text(text, bench_zxing_read(pixels.data(), width, false, text.data(), text.size()));
    print_text(text, bench_dmtx_read(pixels.data(), width, text.data(), text.size()));
    bench_zxing_print_page(pixels.data(), width);
    return 0;
}
