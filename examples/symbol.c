/* Draws the symbol of side 18 of its first argument to standard output, and reads it back to standard error; then draws
 * and reads the two labels of a document. */
#include <relay_symbols.h>
#include <stdio.h>
#include <string.h>

/* Draws the labels of two pages, opens them, and answers how many bytes these have together, or why it does not. */
static ptrdiff_t label_bytes(void) {
    static const char *const pages[2] = {"100", "2000"};
    static uint8_t image[RELAY_IMAGE_LENGTH(14)], bytes[2600];
    ptrdiff_t sum = 0;
    for (uint8_t page = 0; page < 2; page++) {
        const uint8_t *text = (const uint8_t *)pages[page];
        ptrdiff_t drawn = relay_label_from_text(14, 7, page + 1, 2, text, strlen(pages[page]), image, sizeof image);
        if (drawn < 0) {
            return drawn;
        }
        ptrdiff_t opened = relay_page_from_image(image, (size_t)drawn, bytes, sizeof bytes);
        if (opened < 0) {
            return opened;
        }
        sum += memcmp(bytes, text, (size_t)opened) == 0 ? opened : 0;
    }
    return sum;
}

int main(int count, char **words) {
    static uint8_t image[4096], text[4096];
    const uint8_t *given = (const uint8_t *)(count > 1 ? words[1] : "123456");
    ptrdiff_t drawn = relay_symbol_from_text(18, given, strlen((const char *)given), image, sizeof image);
    if (drawn < 0) {
        fputs(drawn == RELAY_TOO_LONG ? "the text does not fit\n" : "not drawn\n", stderr);
        return 1;
    }
    ptrdiff_t read = relay_text_from_image(image, (size_t)drawn, text, sizeof text);
    if (read < 0) {
        fprintf(stderr, "not read: %d\n", (int)read);
        return 1;
    }
    fprintf(stderr, "%.*s\n", (int)read, (const char *)text);
    if (label_bytes() != 7) {
        fputs("labels not read\n", stderr);
        return 1;
    }
    return fwrite(image, 1, (size_t)drawn, stdout) == (size_t)drawn ? 0 : 1;
}
