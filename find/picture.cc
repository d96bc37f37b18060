#include "picture.h"

#include <algorithm>
#include <cerrno>
#include <csetjmp>
#include <cstring>

#include <jpeglib.h>
#include <png.h>

namespace {

// More than a flatbed gives of A3 at 1,200 dpi; a header that asks for more is taken for a lie.
constexpr uint64_t MOST_PIXELS = 300'000'000;
constexpr int MOST_SIDE = 60'000;

void check_size(uint64_t width, uint64_t height) {
    if (width == 0 || height == 0) {
        throw PictureFault("a picture without pixels");
    }
    if (width > MOST_SIDE || height > MOST_SIDE || width * height > MOST_PIXELS) {
        throw PictureFault("a picture of " + std::to_string(width) + " by " + std::to_string(height) + " pixels, which is too large");
    }
}

// No compression makes so many pixels of a byte; a header that claims it is not believed, and no memory is asked for.
void check_bytes(uint64_t width, uint64_t height, uint64_t bytes) {
    if (width * height > 10'000 * bytes) {
        throw PictureFault("a picture that is cut off");
    }
}

// ---- Netpbm. Memory grows with what was read, and not by what the header says.

class Netpbm {
  public:
    Netpbm(FILE *in, char kind) : in(in), kind(kind) {}

    void read(Picture &picture) {
        const uint64_t width = number(), height = number();
        most = kind == '1' || kind == '4' ? 1 : number();
        check_size(width, height);
        if (most == 0 || most > 65'535) {
            throw PictureFault("a Netpbm picture with a greatest value that isn't 1 to 65535");
        }
        if (kind > '3' && !is_space(last)) {
            throw PictureFault("a Netpbm picture without a white space before its pixels");
        }
        picture.width = int(width);
        picture.height = int(height);
        picture.grey.clear();
        std::vector<uint8_t> row(width);
        for (uint64_t y = 0; y < height; y++) {
            read_row(row);
            picture.grey.insert(picture.grey.end(), row.begin(), row.end());
        }
    }

  private:
    FILE *in;
    char kind;
    uint64_t most = 1;
    int last = ' ';

    static bool is_space(int byte) { return byte == ' ' || (byte >= '\t' && byte <= '\r'); }

    int next() {
        last = getc(in);
        if (last == EOF) {
            throw PictureFault("a Netpbm picture that is cut off");
        }
        return last;
    }

    // The next byte that is in no comment.
    int next_of_header() {
        int byte = next();
        while (byte == '#') {
            while (byte != '\n' && byte != '\r') {
                byte = next();
            }
        }
        return byte;
    }

    // A number, and the byte that ends it. Before the pixels begin a comment may stand between numbers.
    uint64_t number() {
        int byte = next_of_header();
        while (is_space(byte)) {
            byte = next_of_header();
        }
        if (byte < '0' || byte > '9') {
            throw PictureFault("a Netpbm picture with a number that is none");
        }
        uint64_t found = 0;
        while (byte >= '0' && byte <= '9') {
            found = found * 10 + uint64_t(byte - '0');
            if (found > 1'000'000) {
                throw PictureFault("a Netpbm picture with a number that is too large");
            }
            last = byte = getc(in);
        }
        return found;
    }

    // A value of a plain picture; those of a PBM need no space between them.
    uint64_t plain_value() {
        if (kind != '1') {
            return number();
        }
        int byte = next_of_header();
        while (is_space(byte)) {
            byte = next_of_header();
        }
        if (byte != '0' && byte != '1') {
            throw PictureFault("a plain PBM picture with a pixel that is neither 0 nor 1");
        }
        return uint64_t(byte - '0');
    }

    uint64_t value() {
        if (kind < '4') {
            return plain_value();
        }
        uint64_t found = uint64_t(next());
        return most > 255 ? found << 8 | uint64_t(next()) : found;
    }

    uint8_t scaled(double value) const { return uint8_t(std::min(255.0, value * 255 / double(most) + 0.5)); }

    void read_row(std::vector<uint8_t> &row) {
        if (kind == '4') {
            int byte = 0;
            for (size_t x = 0; x < row.size(); x++) {
                byte = x % 8 == 0 ? next() : byte << 1;
                row[x] = byte & 128 ? 0 : 255;
            }
        } else if (kind == '5' && most == 255) {
            if (fread(row.data(), 1, row.size(), in) != row.size()) {
                throw PictureFault("a Netpbm picture that is cut off");
            }
        } else {
            for (uint8_t &pixel : row) {
                if (kind == '1') {
                    pixel = plain_value() ? 0 : 255;
                } else if (kind == '3' || kind == '6') {
                    const double red = double(value()), green = double(value()), blue = double(value());
                    pixel = scaled(0.299 * red + 0.587 * green + 0.114 * blue);
                } else {
                    pixel = scaled(double(value()));
                }
            }
        }
    }
};

// ---- PNG and JPEG, of a whole file in memory. Their libraries leave by longjmp, past no object with a destructor.

std::vector<uint8_t> rest_of(FILE *in, std::vector<uint8_t> bytes) {
    uint8_t piece[65'536];
    for (size_t count; (count = fread(piece, 1, sizeof piece, in)) > 0;) {
        bytes.insert(bytes.end(), piece, piece + count);
    }
    return bytes;
}

void read_png(const std::vector<uint8_t> &bytes, Picture &picture) {
    png_image image;
    memset(&image, 0, sizeof image);
    image.version = PNG_IMAGE_VERSION;
    if (!png_image_begin_read_from_memory(&image, bytes.data(), bytes.size())) {
        throw PictureFault(std::string("no PNG picture: ") + image.message);
    }
    try {
        check_size(image.width, image.height);
        check_bytes(image.width, image.height, bytes.size());
    } catch (...) {
        png_image_free(&image);
        throw;
    }
    image.format = PNG_FORMAT_GRAY;
    picture.width = int(image.width);
    picture.height = int(image.height);
    picture.grey.assign(size_t(image.width) * image.height, 255);
    const png_color white = {255, 255, 255};
    if (!png_image_finish_read(&image, &white, picture.grey.data(), 0, nullptr)) {
        const std::string message = image.message;
        png_image_free(&image);
        throw PictureFault("no PNG picture: " + message);
    }
}

struct JpegFault {
    jpeg_error_mgr manager;
    jmp_buf out;
    char message[JMSG_LENGTH_MAX];
};

[[noreturn]] void leave_jpeg(j_common_ptr about) {
    JpegFault *fault = reinterpret_cast<JpegFault *>(about->err);
    about->err->format_message(about, fault->message);
    longjmp(fault->out, 1);
}

void say_nothing(j_common_ptr) {}

// Whether a JPEG file could be read; `grey` has its rows, and `fault` why not.
bool decode_jpeg(const std::vector<uint8_t> &bytes, Picture &picture, JpegFault &fault) {
    jpeg_decompress_struct jpeg;
    memset(&jpeg, 0, sizeof jpeg);
    jpeg.err = jpeg_std_error(&fault.manager);
    fault.manager.error_exit = leave_jpeg;
    fault.manager.output_message = say_nothing;
    if (setjmp(fault.out)) {
        jpeg_destroy_decompress(&jpeg);
        return false;
    }
    jpeg_create_decompress(&jpeg);
    jpeg_mem_src(&jpeg, bytes.data(), bytes.size());
    jpeg_read_header(&jpeg, TRUE);
    jpeg.out_color_space = JCS_GRAYSCALE;
    jpeg_calc_output_dimensions(&jpeg);
    const uint64_t pixels = uint64_t(jpeg.output_width) * jpeg.output_height;
    if (pixels > MOST_PIXELS || pixels > 10'000 * uint64_t(bytes.size())) {
        strcpy(fault.message, "it is too large, or cut off");
        jpeg_destroy_decompress(&jpeg);
        return false;
    }
    jpeg_start_decompress(&jpeg);
    picture.width = int(jpeg.output_width);
    picture.height = int(jpeg.output_height);
    picture.grey.assign(size_t(picture.width) * picture.height, 255);
    while (jpeg.output_scanline < jpeg.output_height) {
        JSAMPROW row = picture.row(int(jpeg.output_scanline));
        jpeg_read_scanlines(&jpeg, &row, 1);
    }
    jpeg_finish_decompress(&jpeg);
    jpeg_destroy_decompress(&jpeg);
    return true;
}

void read_jpeg(const std::vector<uint8_t> &bytes, Picture &picture) {
    JpegFault fault;
    if (!decode_jpeg(bytes, picture, fault)) {
        throw PictureFault(std::string("no JPEG picture: ") + fault.message);
    }
}

} // namespace

bool read_picture(FILE *in, Picture &picture) {
    int first = getc(in);
    while (first == '\n' || first == '\r') {
        first = getc(in);
    }
    if (first == EOF) {
        if (ferror(in)) {
            throw PictureFault(strerror(errno));
        }
        return false;
    }
    const int second = getc(in);
    if (first == 'P' && second >= '1' && second <= '6') {
        Netpbm(in, char(second)).read(picture);
    } else if (first == 0x89 && second == 'P') {
        read_png(rest_of(in, {uint8_t(first), uint8_t(second)}), picture);
    } else if (first == 0xFF && second == 0xD8) {
        read_jpeg(rest_of(in, {uint8_t(first), uint8_t(second)}), picture);
    } else {
        throw PictureFault("no picture: it is neither PBM, PGM, PPM, PNG nor JPEG");
    }
    return true;
}

double Picture::bright(double x, double y) const {
    x = std::clamp(x - 0.5, 0.0, double(width - 1));
    y = std::clamp(y - 0.5, 0.0, double(height - 1));
    const int left = int(x), top = int(y), right = std::min(left + 1, width - 1), bottom = std::min(top + 1, height - 1);
    const double across = x - left, down = y - top;
    return (at(left, top) * (1 - across) + at(right, top) * across) * (1 - down) +
           (at(left, bottom) * (1 - across) + at(right, bottom) * across) * down;
}

Picture smoothed(const Picture &picture) {
    Picture made = picture;
    std::vector<uint16_t> sums(size_t(picture.width));
    for (int y = 1; y + 1 < picture.height; y++) {
        const uint8_t *above = picture.row(y - 1), *here = picture.row(y), *below = picture.row(y + 1);
        for (int x = 0; x < picture.width; x++) {
            sums[size_t(x)] = uint16_t(above[x] + here[x] + below[x]);
        }
        uint8_t *to = made.row(y);
        for (int x = 1; x + 1 < picture.width; x++) {
            to[x] = uint8_t((sums[size_t(x - 1)] + sums[size_t(x)] + sums[size_t(x + 1)] + 4) / 9);
        }
    }
    return made;
}

Picture halved(const Picture &picture) {
    Picture made;
    made.width = std::max(1, picture.width / 2);
    made.height = std::max(1, picture.height / 2);
    made.grey.resize(size_t(made.width) * made.height);
    for (int y = 0; y < made.height; y++) {
        const uint8_t *above = picture.row(std::min(2 * y, picture.height - 1)), *below = picture.row(std::min(2 * y + 1, picture.height - 1));
        for (int x = 0; x < made.width; x++) {
            const int left = std::min(2 * x, picture.width - 1), right = std::min(2 * x + 1, picture.width - 1);
            made.row(y)[x] = uint8_t((above[left] + above[right] + below[left] + below[right] + 2) / 4);
        }
    }
    return made;
}

Picture inverted(const Picture &picture) {
    Picture made = picture;
    for (uint8_t &grey : made.grey) {
        grey = uint8_t(255 - grey);
    }
    return made;
}
