// libzint's encoder, without its struct's layout.
#include <stddef.h>
#include <stdint.h>

#include <zint.h>

void *bench_zint_new(void) {
    return ZBarcode_Create();
}

void bench_zint_free(void *symbol) {
    ZBarcode_Delete(symbol);
}

// Makes the symbol of a text. `number` is libzint's own of a square size: 1 for side 10, 2 for side 12 and so on.
int bench_zint_make(void *handle, int number, const uint8_t *text, size_t length) {
    struct zint_symbol *symbol = handle;
    ZBarcode_Clear(symbol);
    symbol->symbology = BARCODE_DATAMATRIX;
    symbol->input_mode = DATA_MODE;
    symbol->option_2 = number;
    return ZBarcode_Encode(symbol, text, (int)length) == 0;
}

int bench_zint_side(const void *handle) {
    const struct zint_symbol *symbol = handle;
    return symbol->rows == symbol->width ? symbol->rows : 0;
}

int bench_zint_module(const void *handle, int row, int column) {
    const struct zint_symbol *symbol = handle;
    return symbol->encoded_data[row][column / 8] >> column % 8 & 1;
}
