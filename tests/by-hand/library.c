/* Calls the library for C by the lines on standard input, and answers a line to each: what was drawn or read in
 * hexadecimal, a hyphen for nothing, the negative number of a refusal, or `spoiled` where a refused call or the rest of
 * the room was written to.
 *
 *     text SIDE ROOM HEX        label SIDE ID M N ROOM HEX        read ROOM HEX
 *     words SIDE ROOM HEX       page ROOM HEX
 */
#include <relay_symbols.h>
#include <stdio.h>
#include <stdlib.h>
#include <string.h>

enum { MOST = 1 << 16, FILL = 0xA5 };

static size_t number(void) {
    unsigned long given;
    if (scanf("%lu", &given) != 1) {
        exit(2);
    }
    return given;
}

/* Reads bytes in hexadecimal after a space, and answers how many there are. */
static size_t bytes(uint8_t *to) {
    static char hex[2 * MOST + 2];
    if (scanf("%131073s", hex) != 1) {
        exit(2);
    }
    size_t count = strcmp(hex, "-") == 0 ? 0 : strlen(hex) / 2;
    for (size_t i = 0; i < count; i++) {
        unsigned value;
        sscanf(hex + 2 * i, "%2x", &value);
        to[i] = (uint8_t)value;
    }
    return count;
}

int main(void) {
    static uint8_t in[MOST], out[MOST + 1];
    char call[8];
    while (scanf("%7s", call) == 1) {
        int reads = strcmp(call, "read") == 0 || strcmp(call, "page") == 0;
        size_t side = reads ? 0 : number(), id = 0, m = 0, n = 0;
        ptrdiff_t answer;
        if (strcmp(call, "label") == 0) {
            id = number(), m = number(), n = number();
        }
        size_t room = number(), length = bytes(in);
        memset(out, FILL, sizeof out);
        if (strcmp(call, "text") == 0) {
            answer = relay_symbol_from_text((uint16_t)side, in, length, out, room);
        } else if (strcmp(call, "words") == 0) {
            answer = relay_image_from_words((uint16_t)side, in, length, out, room);
        } else if (strcmp(call, "label") == 0) {
            answer = relay_label_from_text((uint16_t)side, (uint16_t)id, (uint8_t)m, (uint8_t)n, in, length, out, room);
        } else if (strcmp(call, "read") == 0) {
            answer = relay_text_from_image(in, length, out, room);
        } else {
            answer = relay_page_from_image(in, length, out, room);
        }
        int refused = answer < 0;
        size_t written = refused ? 0 : (size_t)answer;
        int spoiled = written > room;
        for (size_t i = written; !spoiled && i < sizeof out; i++) {
            spoiled = out[i] != FILL;
        }
        if (spoiled) {
            puts("spoiled");
        } else if (refused) {
            printf("%d\n", (int)answer);
        } else {
            for (size_t i = 0; i < written; i++) {
                printf("%02x", out[i]);
            }
            puts(written ? "" : "-");
        }
        fflush(stdout);
    }
    return 0;
}
