// libdmtx's encoder and its reader, without their structs' layouts.
#include <stddef.h>
#include <stdint.h>
#include <string.h>

#include <dmtx.h>

// Makes the symbol of a text in ASCII, as an image of one grey pixel per module with no quiet zone. `number` is
// libdmtx's own of a square size: 0 for side 10, 1 for side 12 and so on. Copies the pixels out where `pixels` isn't
// null. Answers the side, or 0.
int bench_dmtx_make(int number, const uint8_t *text, size_t length, uint8_t *pixels) {
    DmtxEncode *encode = dmtxEncodeCreate();
    if (encode == NULL) {
        return 0;
    }
    dmtxEncodeSetProp(encode, DmtxPropPixelPacking, DmtxPack8bppK);
    dmtxEncodeSetProp(encode, DmtxPropScheme, DmtxSchemeAscii);
    dmtxEncodeSetProp(encode, DmtxPropSizeRequest, number);
    dmtxEncodeSetProp(encode, DmtxPropMarginSize, 0);
    dmtxEncodeSetProp(encode, DmtxPropModuleSize, 1);
    int side = 0;
    if (dmtxEncodeDataMatrix(encode, (int)length, (unsigned char *)text) == DmtxPass) {
        side = encode->image->width;
        if (pixels != NULL) {
            memcpy(pixels, encode->image->pxl, (size_t)side * (size_t)side);
        }
    }
    dmtxEncodeDestroy(&encode);
    return side;
}

static size_t read_region(DmtxDecode *decode, uint8_t *text, size_t room) {
    DmtxRegion *region = dmtxRegionFindNext(decode, NULL);
    if (region == NULL) {
        return SIZE_MAX;
    }
    size_t length = SIZE_MAX;
    DmtxMessage *message = dmtxDecodeMatrixRegion(decode, region, DmtxUndefined);
    if (message != NULL && (size_t)message->outputIdx <= room) {
        length = (size_t)message->outputIdx;
        memcpy(text, message->output, length);
    }
    if (message != NULL) {
        dmtxMessageDestroy(&message);
    }
    dmtxRegionDestroy(&region);
    return length;
}

// Reads a grey image of width * width pixels. Answers the text's length, at most `room`, or SIZE_MAX.
size_t bench_dmtx_read(const uint8_t *pixels, int width, uint8_t *text, size_t room) {
    DmtxImage *image = dmtxImageCreate((unsigned char *)pixels, width, width, DmtxPack8bppK);
    if (image == NULL) {
        return SIZE_MAX;
    }
    size_t length = SIZE_MAX;
    DmtxDecode *decode = dmtxDecodeCreate(image, 1);
    if (decode != NULL) {
        length = read_region(decode, text, room);
        dmtxDecodeDestroy(&decode);
    }
    dmtxImageDestroy(&image);
    return length;
}
