/* Data Matrix symbols and labels (ECC 200, square sides 10 to 132) by Softcairn's static library: `rt lib` in
 * crates/relay_symbols proves and builds out/librelay_symbols.a there.
 *
 * Images are drawn in PBM's packed form (`P4`), one pixel per module inside a quiet zone one pixel wide; its plain form
 * (`P1`) is read too. Texts are written in ASCII encodation; those of C40, Text and Base 256 are read too. 4,096 bytes
 * hold each image that is drawn, and each text.
 *
 * Each call answers how many bytes it has written, from the front of those that the caller gave, or one of the negative
 * numbers below, and then the caller's bytes are as they were. Of the reasons that a call names the first applies.
 *
 * No pointer may be null, nor bytes that a call writes overlap those that it reads. The calls keep nothing between
 * them. What is drawn and read, and why a call refuses, memory aside, is proved. Memory comes from malloc, by
 * liblibc_c.a of the toolchain, which a program links too (bench/run and docs/RECIPES.md show how). */
#ifndef RELAY_SYMBOLS_H
#define RELAY_SYMBOLS_H

#include <stddef.h>
#include <stdint.h>

#ifdef __cplusplus
extern "C" {
#endif

enum {
    RELAY_NO_SIDE = -1,        /* no symbol has this side */
    RELAY_WORD_COUNT = -2,     /* the codewords are not as many as the symbol has */
    RELAY_NO_PAGE = -3,        /* an ID above 64,515, or a page that is not one: n is 2 to 16, m 1 to n */
    RELAY_TOO_LONG = -4,       /* the text does not fit the symbol */
    RELAY_NO_SYMBOL = -5,      /* the bytes do not begin with the image of a symbol */
    RELAY_TOO_MANY_WRONG = -6, /* more modules of the finder patterns, or codewords of a block, are wrong than may be */
    RELAY_NO_LABEL = -7,       /* the symbol is not that of a label */
    RELAY_NO_TEXT = -8,        /* the codewords, or those after the head of the label, are no text */
    RELAY_NO_ROOM = -9,        /* what is to be written is longer than the caller's bytes */
    RELAY_NO_MEMORY = -10      /* memory was refused, perhaps before another reason was found */
};

/* Draws the symbol of this side that carries the text. Answers the length of its image, or RELAY_NO_SIDE, _TOO_LONG,
 * _NO_ROOM or _NO_MEMORY. */
ptrdiff_t relay_symbol_from_text(uint16_t side, const uint8_t *text, size_t text_length, uint8_t *image,
                                 size_t image_length);

/* Draws the symbol of these codewords, data codewords first: all codewords of a symbol of this side, whether their
 * error correction codewords are right or not. Answers the length of its image, or RELAY_NO_SIDE, _WORD_COUNT, _NO_ROOM
 * or _NO_MEMORY. */
ptrdiff_t relay_image_from_words(uint16_t side, const uint8_t *words, size_t words_length, uint8_t *image,
                                 size_t image_length);

/* Draws the label of page m of n that has this text, under the ID of this number. Answers the length of its image, or
 * RELAY_NO_SIDE, _NO_PAGE, _TOO_LONG, _NO_ROOM or _NO_MEMORY. */
ptrdiff_t relay_label_from_text(uint16_t side, uint16_t id, uint8_t m, uint8_t n, const uint8_t *text,
                                size_t text_length, uint8_t *image, size_t image_length);

/* Reads the symbol of an image and corrects it. Answers the length of its text, or RELAY_NO_SYMBOL, _TOO_MANY_WRONG,
 * _NO_TEXT, _NO_ROOM or _NO_MEMORY. */
ptrdiff_t relay_text_from_image(const uint8_t *image, size_t image_length, uint8_t *text, size_t text_length);

/* Opens the label of an image and corrects it; it does not say which page it is. Answers the number of the page's
 * bytes, or RELAY_NO_SYMBOL, _TOO_MANY_WRONG, _NO_LABEL, _NO_TEXT, _NO_ROOM or _NO_MEMORY. */
ptrdiff_t relay_page_from_image(const uint8_t *image, size_t image_length, uint8_t *bytes, size_t bytes_length);

/* The length of each image of a symbol of this side, also of a label: a header, and rows of whole bytes. */
#define RELAY_IMAGE_LENGTH(side) (((side) + 2 < 100 ? 9 : 11) + ((side) + 2) * (((side) + 9) / 8))

#ifdef __cplusplus
}
#endif

#endif
