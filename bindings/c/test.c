/* The library from C: the specimens of document 01 that show one call each, every refusal, and NULL where there is nothing. */
#include "yalivucu.h"
#include <stdio.h>
#include <string.h>

enum { MOST = 32 };

static const uint32_t STOOD = 0x11111111;
static uint32_t image[MOST];
static int failures;

static void same(const char *what, uint32_t got, uint32_t wanted)
{
    if (got == wanted) return;
    printf("%s: %08x, not %08x\n", what, got, wanted);
    failures++;
}

static void clear(void)
{
    for (int k = 0; k < MOST; k++) image[k] = STOOD;
}

/* From element `from` on, nothing was written. */
static void untouched(const char *what, int from)
{
    for (int k = from; k < MOST; k++) same(what, image[k], STOOD);
}

static const uint8_t ZERO[16] = {0};
static const uint8_t TWO[16] = {0x04, 0, 0, 0x02};

static void pictures(void)
{
    const struct {
        const char *name;
        uint32_t (*read)(const uint8_t *, size_t, size_t, size_t, uint32_t *, size_t);
        size_t size;
        uint32_t first;
    } row[] = {
        {"etc1", yalivucu_decode_etc1, 8, 0xff020202},
        {"etc2_rgb", yalivucu_decode_etc2_rgb, 8, 0xff020202},
        {"etc2_rgba1", yalivucu_decode_etc2_rgba1, 8, 0xff000000},
        {"etc2_rgba8", yalivucu_decode_etc2_rgba8, 16, 0x00020202},
        {"eacr", yalivucu_decode_eacr, 8, 0xff000000},
        {"eacr_signed", yalivucu_decode_eacr_signed, 8, 0xff7f0000},
        {"eacrg", yalivucu_decode_eacrg, 16, 0xff000000},
        {"eacrg_signed", yalivucu_decode_eacrg_signed, 16, 0xff7f7f00},
        {"bc1", yalivucu_decode_bc1, 8, 0xff000000},
        {"bc1a", yalivucu_decode_bc1a, 8, 0xff000000},
        {"bc3", yalivucu_decode_bc3, 16, 0x00000000},
        {"bc7", yalivucu_decode_bc7, 16, 0x00000000},
        {"bc2", yalivucu_decode_bc2, 16, 0x00000000},
        {"bc4", yalivucu_decode_bc4, 8, 0xff000000},
        {"bc4_signed", yalivucu_decode_bc4_signed, 8, 0xff7f0000},
        {"bc5", yalivucu_decode_bc5, 16, 0xff000000},
        {"bc5_signed", yalivucu_decode_bc5_signed, 16, 0xff7f7f00},
    };
    for (size_t k = 0; k < sizeof row / sizeof *row; k++) {
        clear();
        same(row[k].name, row[k].read(ZERO, row[k].size, 65537, 0, image, 0), YALIVUCU_TOO_LARGE);
        same(row[k].name, row[k].read(ZERO, row[k].size, SIZE_MAX, SIZE_MAX, image, MOST), YALIVUCU_TOO_LARGE);
        same(row[k].name, row[k].read(ZERO, row[k].size - 1, 4, 4, image, 15), YALIVUCU_SHORT_DATA);
        same(row[k].name, row[k].read(ZERO, row[k].size, 4, 4, image, 15), YALIVUCU_SHORT_IMAGE);
        same(row[k].name, row[k].read(ZERO, 0, 65536, 0, image, 0), YALIVUCU_DONE);
        untouched(row[k].name, 0);
        same(row[k].name, row[k].read(ZERO, row[k].size, 4, 4, image, MOST), YALIVUCU_DONE);
        same(row[k].name, image[0], row[k].first);
        untouched(row[k].name, 16);
    }
}

/* A picture of 3 by 2 in rows of 5 elements: two gaps, of which the last has no need to be there. */
static void pitched(void)
{
    const struct {
        const char *name;
        uint32_t (*read)(const uint8_t *, size_t, size_t, size_t, size_t, uint32_t *, size_t);
        size_t size;
        uint32_t first;
    } row[] = {
        {"etc1_pitched", yalivucu_decode_etc1_pitched, 8, 0xff020202},
        {"etc2_rgb_pitched", yalivucu_decode_etc2_rgb_pitched, 8, 0xff020202},
        {"etc2_rgba1_pitched", yalivucu_decode_etc2_rgba1_pitched, 8, 0xff000000},
        {"etc2_rgba8_pitched", yalivucu_decode_etc2_rgba8_pitched, 16, 0x00020202},
        {"eacr_pitched", yalivucu_decode_eacr_pitched, 8, 0xff000000},
        {"eacr_signed_pitched", yalivucu_decode_eacr_signed_pitched, 8, 0xff7f0000},
        {"eacrg_pitched", yalivucu_decode_eacrg_pitched, 16, 0xff000000},
        {"eacrg_signed_pitched", yalivucu_decode_eacrg_signed_pitched, 16, 0xff7f7f00},
        {"bc1_pitched", yalivucu_decode_bc1_pitched, 8, 0xff000000},
        {"bc1a_pitched", yalivucu_decode_bc1a_pitched, 8, 0xff000000},
        {"bc3_pitched", yalivucu_decode_bc3_pitched, 16, 0x00000000},
        {"bc7_pitched", yalivucu_decode_bc7_pitched, 16, 0x00000000},
        {"bc2_pitched", yalivucu_decode_bc2_pitched, 16, 0x00000000},
        {"bc4_pitched", yalivucu_decode_bc4_pitched, 8, 0xff000000},
        {"bc4_signed_pitched", yalivucu_decode_bc4_signed_pitched, 8, 0xff7f0000},
        {"bc5_pitched", yalivucu_decode_bc5_pitched, 16, 0xff000000},
        {"bc5_signed_pitched", yalivucu_decode_bc5_signed_pitched, 16, 0xff7f7f00},
    };
    for (size_t k = 0; k < sizeof row / sizeof *row; k++) {
        const char *name = row[k].name;
        clear();
        same(name, row[k].read(ZERO, 0, 3, 2, 65537, image, 0), YALIVUCU_TOO_LARGE);
        same(name, row[k].read(ZERO, 0, 65537, 2, 3, image, 0), YALIVUCU_TOO_LARGE);
        same(name, row[k].read(ZERO, 0, 3, SIZE_MAX, SIZE_MAX, image, 0), YALIVUCU_TOO_LARGE);
        same(name, row[k].read(ZERO, 0, 3, 2, 2, image, 0), YALIVUCU_SHORT_PITCH);
        same(name, row[k].read(ZERO, 0, 3, 0, 2, image, 0), YALIVUCU_SHORT_PITCH);
        same(name, row[k].read(ZERO, row[k].size - 1, 3, 2, 5, image, 7), YALIVUCU_SHORT_DATA);
        same(name, row[k].read(ZERO, row[k].size, 3, 2, 5, image, 7), YALIVUCU_SHORT_IMAGE);
        same(name, row[k].read(ZERO, 0, 3, 0, 65536, image, 0), YALIVUCU_DONE);
        same(name, row[k].read(NULL, 0, 0, 2, 5, NULL, 0), YALIVUCU_DONE);
        untouched(name, 0);
        same(name, row[k].read(ZERO, row[k].size, 3, 2, 5, image, 8), YALIVUCU_DONE);
        for (size_t at = 0; at < 8; at++) same(name, image[at], at % 5 < 3 ? row[k].first : STOOD);
        untouched(name, 8);
    }
}

/* Whole values: S13's block, a signed one, and of red and green 3 by 2 pixels in rows of 5: two numbers a pixel. */
static void wholes(void)
{
    static const uint8_t block[16] = {0x80, 0x10, 0, 0, 0, 0, 0, 0, 0x01, 0x10};
    uint16_t wide[20];
    int16_t narrow[20];
    for (int k = 0; k < 20; k++) wide[k] = 0x1111, narrow[k] = 0x1111;
    same("eacr11, too large", yalivucu_decode_eacr11(block, 8, 65537, 0, wide, 20), YALIVUCU_TOO_LARGE);
    same("eacr11, short pitch", yalivucu_decode_eacr11_pitched(block, 8, 3, 2, 2, wide, 20), YALIVUCU_SHORT_PITCH);
    same("eacr11, short", yalivucu_decode_eacr11(block, 7, 4, 4, wide, 16), YALIVUCU_SHORT_DATA);
    same("eacr11, short image", yalivucu_decode_eacr11(block, 8, 4, 4, wide, 15), YALIVUCU_SHORT_IMAGE);
    same("eacrg11, short", yalivucu_decode_eacrg11(block, 15, 3, 2, wide, 12), YALIVUCU_SHORT_DATA);
    same("eacrg11, short image", yalivucu_decode_eacrg11_pitched(block, 16, 3, 2, 5, wide, 15), YALIVUCU_SHORT_IMAGE);
    same("eacrg11, no pixels", yalivucu_decode_eacrg11_signed(NULL, 0, 0, 65536, NULL, 0), YALIVUCU_DONE);
    for (int k = 0; k < 20; k++) same("eac11, refused", wide[k], 0x1111);
    same("eacr11", yalivucu_decode_eacr11(block, 8, 4, 4, wide, 20), YALIVUCU_DONE);
    for (int k = 0; k < 20; k++) same("eacr11", wide[k], k < 16 ? 1004 : 0x1111);
    same("eacr11_signed", yalivucu_decode_eacr11_signed_pitched(block + 8, 8, 3, 2, 5, narrow, 8), YALIVUCU_DONE);
    for (int k = 0; k < 20; k++) same("eacr11_signed", (uint32_t)narrow[k], k < 8 && k % 5 < 3 ? (uint32_t)-16 : 0x1111);
    for (int k = 0; k < 20; k++) wide[k] = 0x1111, narrow[k] = 0x1111;
    same("eacrg11", yalivucu_decode_eacrg11_pitched(block, 16, 3, 2, 5, wide, 16), YALIVUCU_DONE);
    same("eacrg11_signed", yalivucu_decode_eacrg11_signed_pitched(block, 16, 3, 2, 5, narrow, 16), YALIVUCU_DONE);
    for (int k = 0; k < 20; k++) {
        const int shown = k < 16 && k / 2 % 5 < 3;
        same("eacrg11", wide[k], !shown ? 0x1111 : k % 2 ? 0 : 1004);
        same("eacrg11_signed", (uint32_t)narrow[k], !shown ? 0x1111 : (uint32_t)(k % 2 ? -16 : -1023));
    }
}

/* A block of red that is opaque, and one of zeros, whose opaque bit is clear: the block is written with 11 alone, and what
 * follows the blocks is ignored. */
static void opaque(void)
{
    uint8_t data[16] = {0xf8, 0, 0, 2};
    size_t block = 77;
    clear();
    same("opaque, too large", yalivucu_decode_etc2_rgba1_opaque(data, 16, 65537, 1, image, 5, &block), YALIVUCU_TOO_LARGE);
    same("opaque, short", yalivucu_decode_etc2_rgba1_opaque(data, 15, 5, 1, image, 5, &block), YALIVUCU_SHORT_DATA);
    same("opaque, short image", yalivucu_decode_etc2_rgba1_opaque(data, 16, 5, 1, image, 4, &block), YALIVUCU_SHORT_IMAGE);
    same("opaque, short pitch", yalivucu_decode_etc2_rgba1_opaque_pitched(data, 16, 5, 1, 4, image, 8, &block), YALIVUCU_SHORT_PITCH);
    same("opaque, no data", yalivucu_decode_etc2_rgba1_opaque(NULL, 0, 4, 4, NULL, 0, &block), YALIVUCU_SHORT_DATA);
    same("opaque, no pixels", yalivucu_decode_etc2_rgba1_opaque(NULL, 0, 0, 0, NULL, 0, &block), YALIVUCU_DONE);
    same("opaque, block kept", (uint32_t)block, 77);
    same("opaque, refused", yalivucu_decode_etc2_rgba1_opaque(data, 16, 5, 1, image, 5, &block), YALIVUCU_NOT_OPAQUE);
    same("opaque, block", (uint32_t)block, 1);
    block = 77;
    same("opaque pitched, refused", yalivucu_decode_etc2_rgba1_opaque_pitched(data, 16, 5, 1, 6, image, 6, &block), YALIVUCU_NOT_OPAQUE);
    same("opaque pitched, block", (uint32_t)block, 1);
    untouched("opaque, refused", 0);
    block = 77;
    same("opaque pitched, accepted", yalivucu_decode_etc2_rgba1_opaque_pitched(data, 16, 4, 2, 6, image, 10, &block), YALIVUCU_DONE);
    for (int at = 0; at < 10; at++) same("opaque pitched", image[at], at % 6 < 4 ? 0xffff0202 : STOOD);
    clear();
    same("opaque, accepted", yalivucu_decode_etc2_rgba1_opaque(data, 16, 4, 1, image, 4, &block), YALIVUCU_DONE);
    same("opaque, painted", image[3], 0xffff0202);
    same("opaque, block kept where accepted", (uint32_t)block, 77);
    untouched("opaque, accepted", 4);
}

/* Strict with a pitch: the gap is no pixel of the block beside it. */
static void strict_pitched(void)
{
    uint8_t data[16];
    size_t block = 77;
    memcpy(data, ZERO, 8);
    memcpy(data + 8, TWO, 8);
    clear();
    same("strict pitched, short", yalivucu_decode_etc1_strict_pitched(data, 16, 5, 1, 4, image, 8, &block), YALIVUCU_SHORT_PITCH);
    same("strict pitched, left over", yalivucu_decode_etc1_strict_pitched(data, 16, 4, 2, 6, image, 10, &block), YALIVUCU_LONG_DATA);
    untouched("strict pitched, left over", 0);
    same("strict pitched, accepted", yalivucu_decode_etc1_strict_pitched(data, 8, 4, 2, 6, image, 10, &block), YALIVUCU_DONE);
    same("strict pitched, block kept", (uint32_t)block, 77);
    for (int at = 0; at < 10; at++) same("strict pitched", image[at], at % 6 < 4 ? 0xff020202 : STOOD);
    clear();
    same("strict pitched, refused", yalivucu_decode_etc1_strict_pitched(data, 16, 5, 1, 6, image, 6, &block), YALIVUCU_OUT_OF_RANGE);
    same("strict pitched, block", (uint32_t)block, 1);
    struct yalivucu_strict told = yalivucu_etc1_strict_pitched(data, 16, 5, 1, 6, image, 6);
    same("strict pitched as a value, refused", told.answer, YALIVUCU_OUT_OF_RANGE);
    same("strict pitched as a value, block", (uint32_t)told.block, 1);
    untouched("strict pitched, refused", 0);
}

/* With a length of 0 the pointer is not followed: NULL is answered like any other. */
static void nothing(void)
{
    size_t block = 77;
    clear();
    same("no data, no image", yalivucu_decode_etc1(NULL, 0, 4, 4, NULL, 0), YALIVUCU_SHORT_DATA);
    same("no data", yalivucu_decode_etc2_rgba8(NULL, 0, 4, 4, image, MOST), YALIVUCU_SHORT_DATA);
    same("no image", yalivucu_decode_etc2_rgb(TWO, 8, 4, 4, NULL, 0), YALIVUCU_SHORT_IMAGE);
    same("no pixels", yalivucu_decode_eacrg(NULL, 0, 0, 65536, NULL, 0), YALIVUCU_DONE);
    same("strict, no data", yalivucu_decode_etc1_strict(NULL, 0, 4, 4, NULL, 0, &block), YALIVUCU_SHORT_DATA);
    same("strict, no pixels", yalivucu_decode_etc1_strict(NULL, 0, 0, 0, NULL, 0, &block), YALIVUCU_DONE);
    same("strict, block kept", (uint32_t)block, 77);
    same("no block", yalivucu_decode_eacr_block(NULL, 0, NULL, 0), YALIVUCU_SHORT_DATA);
    same("no elements", yalivucu_decode_etc2_a8_block(ZERO, 8, NULL, 0), YALIVUCU_SHORT_IMAGE);
    same("no channel", yalivucu_decode_eac_block(NULL, 0, 4, NULL, 0), YALIVUCU_NO_CHANNEL);
    untouched("nothing", 0);
}

/* Without an image: a block of red, one out of range, and one of zeros, whose opaque bit is clear. */
static void checks(void)
{
    uint8_t data[24] = {0xf8, 0, 0, 0x02};
    size_t block = 77;
    memcpy(data + 8, TWO, 8);
    same("check strict, too large", yalivucu_check_strict(data, 24, 65537, 1, &block), YALIVUCU_TOO_LARGE);
    same("check strict, short", yalivucu_check_strict(data, 23, 9, 1, &block), YALIVUCU_SHORT_DATA);
    same("check strict, left over", yalivucu_check_strict(data, 9, 4, 1, &block), YALIVUCU_LONG_DATA);
    same("check strict, accepted", yalivucu_check_strict(data, 8, 4, 1, &block), YALIVUCU_DONE);
    same("check strict, nothing", yalivucu_check_strict(NULL, 0, 65536, 0, &block), YALIVUCU_DONE);
    same("check opaque, too large", yalivucu_check_opaque(data, 24, 1, 65537, &block), YALIVUCU_TOO_LARGE);
    same("check opaque, short", yalivucu_check_opaque(data, 23, 9, 1, &block), YALIVUCU_SHORT_DATA);
    same("check opaque, accepted", yalivucu_check_opaque(data, 24, 8, 1, &block), YALIVUCU_DONE);
    same("check opaque, nothing", yalivucu_check_opaque(NULL, 0, 0, 0, &block), YALIVUCU_DONE);
    same("checks, block kept", (uint32_t)block, 77);
    same("check strict, refused", yalivucu_check_strict(data, 24, 9, 1, &block), YALIVUCU_OUT_OF_RANGE);
    same("check strict, block", (uint32_t)block, 1);
    same("check opaque, refused", yalivucu_check_opaque(data, 24, 9, 1, &block), YALIVUCU_NOT_OPAQUE);
    same("check opaque, block", (uint32_t)block, 2);
}

static void strict(void)
{
    uint8_t data[16];
    size_t block = 77;
    memcpy(data, ZERO, 8);
    memcpy(data + 8, TWO, 8);
    clear();
    same("strict, short", yalivucu_decode_etc1_strict(data, 15, 5, 1, image, 5, &block), YALIVUCU_SHORT_DATA);
    same("strict, one byte left over", yalivucu_decode_etc1_strict(data, 9, 4, 1, image, 4, &block), YALIVUCU_LONG_DATA);
    same("strict, as many left over", yalivucu_decode_etc1_strict(data, 16, 4, 1, image, 3, &block), YALIVUCU_LONG_DATA);
    same("strict, no blocks, left over", yalivucu_decode_etc1_strict(data, 1, 0, 4, image, 0, &block), YALIVUCU_LONG_DATA);
    untouched("strict, left over", 0);
    same("strict, accepted", yalivucu_decode_etc1_strict(data, 8, 4, 1, image, 4, &block), YALIVUCU_DONE);
    same("strict, block kept", (uint32_t)block, 77);
    same("strict, painted", image[3], 0xff020202);
    clear();
    same("strict, refused", yalivucu_decode_etc1_strict(data, 16, 5, 1, image, 6, &block), YALIVUCU_OUT_OF_RANGE);
    same("strict, block", (uint32_t)block, 1);
    untouched("strict, refused", 0);
    struct yalivucu_strict told = yalivucu_etc1_strict(data, 16, 5, 1, image, 6);
    same("strict as a value, refused", told.answer, YALIVUCU_OUT_OF_RANGE);
    same("strict as a value, block", (uint32_t)told.block, 1);
    told = yalivucu_etc1_strict(data, 15, 5, 1, image, 6);
    same("strict as a value, short", told.answer, YALIVUCU_SHORT_DATA);
    same("strict as a value, no block", (uint32_t)told.block, 0);
    untouched("strict as a value", 0);
}

static void blocks(void)
{
    const struct {
        const char *name;
        uint32_t (*read)(const uint8_t *, size_t, uint32_t *, size_t);
        size_t size;
        uint32_t first;
    } row[] = {
        {"etc1_block", yalivucu_decode_etc1_block, 8, 0xff020202},
        {"etc2_rgb_block", yalivucu_decode_etc2_rgb_block, 8, 0xff020202},
        {"etc2_rgba1_block", yalivucu_decode_etc2_rgba1_block, 8, 0xff000000},
        {"etc2_rgba8_block", yalivucu_decode_etc2_rgba8_block, 16, 0x00020202},
        {"eacr_block", yalivucu_decode_eacr_block, 8, 0xff000000},
        {"eacr_signed_block", yalivucu_decode_eacr_signed_block, 8, 0xff7f0000},
        {"eacrg_block", yalivucu_decode_eacrg_block, 16, 0xff000000},
        {"eacrg_signed_block", yalivucu_decode_eacrg_signed_block, 16, 0xff7f7f00},
        {"etc2_a8_block", yalivucu_decode_etc2_a8_block, 8, 0x00111111},
        {"bc1_block", yalivucu_decode_bc1_block, 8, 0xff000000},
        {"bc1a_block", yalivucu_decode_bc1a_block, 8, 0xff000000},
        {"bc3_block", yalivucu_decode_bc3_block, 16, 0x00000000},
        {"bc7_block", yalivucu_decode_bc7_block, 16, 0x00000000},
        {"bc2_block", yalivucu_decode_bc2_block, 16, 0x00000000},
        {"bc4_block", yalivucu_decode_bc4_block, 8, 0xff000000},
        {"bc4_signed_block", yalivucu_decode_bc4_signed_block, 8, 0xff7f0000},
        {"bc5_block", yalivucu_decode_bc5_block, 16, 0xff000000},
        {"bc5_signed_block", yalivucu_decode_bc5_signed_block, 16, 0xff7f7f00},
    };
    for (size_t k = 0; k < sizeof row / sizeof *row; k++) {
        clear();
        same(row[k].name, row[k].read(ZERO, row[k].size - 1, image, 15), YALIVUCU_SHORT_DATA);
        same(row[k].name, row[k].read(ZERO, row[k].size, image, 15), YALIVUCU_SHORT_IMAGE);
        untouched(row[k].name, 0);
        same(row[k].name, row[k].read(ZERO, row[k].size, image, MOST), YALIVUCU_DONE);
        same(row[k].name, image[0], row[k].first);
        untouched(row[k].name, 16);
    }
}

static void channels(void)
{
    const uint8_t data[8] = {0x80, 0x10};
    clear();
    same("eac_block, channel 4", yalivucu_decode_eac_block(data, 7, 4, image, 15), YALIVUCU_NO_CHANNEL);
    same("eac_block, short", yalivucu_decode_eac_block(data, 7, 3, image, 15), YALIVUCU_SHORT_DATA);
    same("eac_block, narrow", yalivucu_decode_eac_block(data, 8, 3, image, 15), YALIVUCU_SHORT_IMAGE);
    untouched("eac_block, refused", 0);
    same("eac_block", yalivucu_decode_eac_block(data, 8, 2, image, 16), YALIVUCU_DONE);
    same("eac_block, red", image[15], 0x117d1111);
    same("eac_signed_block", yalivucu_decode_eac_signed_block(ZERO, 8, 0, image, 16), YALIVUCU_DONE);
    same("eac_signed_block, blue", image[0], 0x117d117f);
    untouched("eac_block", 16);
}

/* The thirds of black and white whatever their order in BC3, and black or nothing in BC1; the alpha half into a channel. */
static void desktop(void)
{
    const uint8_t block[16] = {0xff, 0, 0, 0, 0, 0, 0, 0, 0, 0, 0xff, 0xff, 0xe4};
    clear();
    same("bc3", yalivucu_decode_bc3(block, 16, 4, 1, image, MOST), YALIVUCU_DONE);
    same("bc3, index 2", image[2], 0xff555555);
    same("bc3, index 3", image[3], 0xffaaaaaa);
    same("bc1", yalivucu_decode_bc1(block + 8, 8, 4, 1, image, MOST), YALIVUCU_DONE);
    same("bc1, index 2", image[2], 0xff7f7f7f);
    same("bc1, index 3", image[3], 0xff000000);
    same("bc1a", yalivucu_decode_bc1a(block + 8, 8, 4, 1, image, MOST), YALIVUCU_DONE);
    same("bc1a, index 3", image[3], 0);
    untouched("bc1", 4);
    clear();
    same("bc3_alpha, channel 4", yalivucu_decode_bc3_alpha(block, 7, 4, image, 15), YALIVUCU_NO_CHANNEL);
    same("bc3_alpha, short", yalivucu_decode_bc3_alpha(block, 7, 3, image, 15), YALIVUCU_SHORT_DATA);
    same("bc3_alpha, narrow", yalivucu_decode_bc3_alpha(block, 8, 3, image, 15), YALIVUCU_SHORT_IMAGE);
    untouched("bc3_alpha, refused", 0);
    same("bc3_alpha", yalivucu_decode_bc3_alpha(block, 8, 2, image, MOST), YALIVUCU_DONE);
    same("bc3_alpha, red", image[15], 0x11ff1111);
    untouched("bc3_alpha", 16);
}

/* The alphas 0 and F0 of BC2, over the thirds; the eight values of BC4 and BC5, sevenths, fifths and both ends, unsigned and signed. */
static void rest_of_the_desktop(void)
{
    const uint8_t four[16] = {0x1f, 0, 0, 0, 0, 0, 0, 0, 0, 0, 0xff, 0xff, 0xe4};
    const uint8_t eight[16] = {0xff, 0x00, 0x88, 0xc6, 0xfa, 0, 0, 0, 0x80, 0x81, 0x88, 0xc6, 0xfa};
    clear();
    same("bc2", yalivucu_decode_bc2(four, 16, 4, 1, image, MOST), YALIVUCU_DONE);
    same("bc2, fifteen", image[0], 0xff000000);
    same("bc2, one", image[1], 0x11ffffff);
    same("bc2, index 2", image[2], 0x00555555);
    untouched("bc2", 4);
    same("bc4", yalivucu_decode_bc4(eight, 8, 4, 2, image, MOST), YALIVUCU_DONE);
    same("bc4, first", image[0], 0xffff0000);
    same("bc4, six sevenths", image[2], 0xffda0000);
    same("bc4, a seventh", image[7], 0xff240000);
    same("bc4_signed", yalivucu_decode_bc4_signed(eight, 8, 4, 2, image, MOST), YALIVUCU_DONE);
    same("bc4_signed, -1", image[0], 0xff7e0000);
    same("bc4_signed, 0", image[1], 0xff7f0000);
    same("bc4_signed, rounded down", image[2], 0xff7e0000);
    same("bc4_signed, the greatest", image[7], 0xfffe0000);
    same("bc5", yalivucu_decode_bc5(eight, 16, 4, 2, image, MOST), YALIVUCU_DONE);
    same("bc5, ends of fifths", image[6], 0xff480000);
    same("bc5, ends of fifths", image[7], 0xff24ff00);
    same("bc5_signed", yalivucu_decode_bc5_signed(eight, 16, 4, 2, image, MOST), YALIVUCU_DONE);
    same("bc5_signed, -128 as -127", image[0], 0xff7e0000);
    same("bc5_signed, the greatest", image[7], 0xfffefe00);
    untouched("bc5_signed", 8);
}

/* A BC7 block of mode 6 whose one colour has all bits set, then of mode 5 with alpha 0 in the place of red. */
static void bptc(void)
{
    const uint8_t white[16] = {0xc0, 0xff, 0xff, 0xff, 0xff, 0xff, 0xff, 0xff, 0x01};
    const uint8_t turned[16] = {0x60, 0xff, 0xff, 0xff, 0xff, 0xff, 0x03};
    clear();
    same("bc7", yalivucu_decode_bc7(white, 16, 4, 4, image, MOST), YALIVUCU_DONE);
    same("bc7, mode 6", image[15], 0xffffffff);
    same("bc7", yalivucu_decode_bc7_block(turned, 16, image, 16), YALIVUCU_DONE);
    same("bc7, mode 5", image[15], 0xff00ffff);
    untouched("bc7", 16);
}

/* Blocks of the specimens: individual, differential, T, H, planar; and T with its bit clear. */
static const uint8_t KINDS[6 * 8] = {
    [8] = 0xf8, [8 + 3] = 0x02, [16] = 0x04, [16 + 3] = 0x02, [24 + 1] = 0x04, [24 + 3] = 0x02,
    [32 + 2] = 0x04, [32 + 3] = 0x02, [40] = 0x04,
};

/* A census of so many counts: refusals that write none, and then a picture of 24 by 4 pixels. */
static void census(const char *what, uint32_t (*count)(const uint8_t *, size_t, size_t, size_t, size_t *, size_t),
                   size_t most, const size_t *wanted)
{
    size_t counts[9];
    for (size_t k = 0; k < 9; k++) counts[k] = 77;
    same(what, count(KINDS, 48, 65537, 0, counts, 0), YALIVUCU_TOO_LARGE);
    same(what, count(KINDS, 47, 24, 4, counts, 0), YALIVUCU_SHORT_DATA);
    same(what, count(KINDS, 48, 24, 4, counts, most - 1), YALIVUCU_SHORT_IMAGE);
    for (size_t k = 0; k < 9; k++) same(what, (uint32_t)counts[k], 77);
    same(what, count(KINDS, 48, 24, 4, counts, 9), YALIVUCU_DONE);
    for (size_t k = 0; k < 9; k++) same(what, (uint32_t)counts[k], k < most ? (uint32_t)wanted[k] : 77);
    same(what, count(KINDS, 48, 0, 4, counts, most), YALIVUCU_DONE);
    for (size_t k = 0; k < 9; k++) same(what, (uint32_t)counts[k], k < most ? 0 : 77);
}

static void censuses(void)
{
    const size_t rgb[YALIVUCU_RGB_COUNTS] = {
        [YALIVUCU_RGB_INDIVIDUAL] = 2, [YALIVUCU_RGB_DIFFERENTIAL] = 1, [YALIVUCU_RGB_T] = 1,
        [YALIVUCU_RGB_H] = 1, [YALIVUCU_RGB_PLANAR] = 1,
    };
    const size_t rgba1[YALIVUCU_RGBA1_COUNTS] = {
        [YALIVUCU_RGBA1_OPAQUE_DIFFERENTIAL] = 1, [YALIVUCU_RGBA1_OPAQUE_T] = 1, [YALIVUCU_RGBA1_OPAQUE_H] = 1,
        [YALIVUCU_RGBA1_OPAQUE_PLANAR] = 1, [YALIVUCU_RGBA1_CLEAR_DIFFERENTIAL] = 1, [YALIVUCU_RGBA1_CLEAR_T] = 1,
    };
    census("census_etc2_rgb", yalivucu_census_etc2_rgb, YALIVUCU_RGB_COUNTS, rgb);
    census("census_etc2_rgba1", yalivucu_census_etc2_rgba1, YALIVUCU_RGBA1_COUNTS, rgba1);
}

/* The block of a row that oracle/bake printed, its largest difference, and refusals that write nothing. */
static void baking(void)
{
    const uint8_t first[3] = {0xf, 0xb, 0x9}, second[3] = {0x4, 0xa, 0xb}, wide[3] = {15, 15, 16};
    const uint8_t wanted[10] = {0xf4, 0xba, 0x9b, 0x01, 0xcf, 0xa5, 0x4d, 0x2d, 0xee, 0xee};
    const uint8_t beyond[8] = {0x04, 0, 0, 0x02};
    const uint32_t tile[16] = {
        0xabd5cb72, 0x22ffd283, 0x1ecaa3d0, 0x53ffff4a, 0x3effbb9a, 0xcbf6b971, 0x6fffbb97, 0x13ffba9d,
        0x5c449ca4, 0x9d35aadb, 0xd43db7b3, 0x7b985168, 0x9c4ac3c9, 0x87aea6ac, 0x0e38a2c6, 0xf746a9b9,
    };
    uint8_t room[10];
    memset(room, 0xee, sizeof room);
    same("bake, first base", yalivucu_bake_etc1_block(wide, second, 1, tile, 15, room, 7), YALIVUCU_NO_BASE);
    same("bake, second base", yalivucu_bake_etc1_block(first, wide, 1, tile, 15, room, 7), YALIVUCU_NO_BASE);
    same("bake, flip", yalivucu_bake_etc1_block(first, second, 256, tile, 15, room, 7), YALIVUCU_NO_BASE);
    same("bake, room", yalivucu_bake_etc1_block(first, second, 1, tile, 15, room, 7), YALIVUCU_SHORT_DATA);
    same("bake, tile", yalivucu_bake_etc1_block(first, second, 1, tile, 15, room, 8), YALIVUCU_SHORT_IMAGE);
    for (size_t k = 0; k < 10; k++) same("bake, refused", room[k], 0xee);
    same("bake", yalivucu_bake_etc1_block(first, second, 1, tile, 16, room, sizeof room), YALIVUCU_DONE);
    for (size_t k = 0; k < 10; k++) same("bake, bytes", room[k], wanted[k]);
    same("check, block", yalivucu_check_etc1_block(room, 7, tile, 15, 255), YALIVUCU_SHORT_DATA);
    same("check, tile", yalivucu_check_etc1_block(room, 8, tile, 15, 255), YALIVUCU_SHORT_IMAGE);
    same("check, largest", yalivucu_check_etc1_block(room, 8, tile, 16, 108), YALIVUCU_DONE);
    same("check, below it", yalivucu_check_etc1_block(room, 8, tile, 16, 107), YALIVUCU_NOT_ACCEPTED);
    same("check, out of range", yalivucu_check_etc1_block(beyond, 8, tile, 16, UINT32_MAX), YALIVUCU_NOT_ACCEPTED);
}

static void sheets(void)
{
    uint8_t room[48];
    size_t written = 77, format = 77, width = 77, height = 77;
    memset(room, 0xEE, sizeof room);
    same("write, format", yalivucu_write_sheet(8, 16385, 1, ZERO, 0, room, 0, &written), YALIVUCU_NO_HEAD);
    same("write, large", yalivucu_write_sheet(3, SIZE_MAX, 1, ZERO, 0, room, 0, &written), YALIVUCU_TOO_LARGE);
    same("write, blocks", yalivucu_write_sheet(3, 4, 3, ZERO, 15, room, 0, &written), YALIVUCU_WRONG_BLOCKS);
    same("write, room", yalivucu_write_sheet(3, 4, 3, ZERO, 16, room, 36, &written), YALIVUCU_SHORT_IMAGE);
    same("write, refused", room[0], 0xEE);
    same("write, not written", (uint32_t)written, 77);
    same("write", yalivucu_write_sheet(3, 4, 3, ZERO, 16, room, sizeof room, &written), YALIVUCU_DONE);
    same("write, bytes", (uint32_t)written, 37);
    same("write, behind", room[37], 0xEE);
    same("head", yalivucu_sheet_head(room, written, &format, &width, &height), YALIVUCU_DONE);
    same("head, format", (uint32_t)format, 3);
    same("head, width", (uint32_t)width, 4);
    same("head, height", (uint32_t)height, 3);
    clear();
    same("sheet, short image", yalivucu_read_sheet(room, written, image, 11), YALIVUCU_SHORT_IMAGE);
    untouched("sheet, short image", 0);
    same("sheet", yalivucu_read_sheet(room, written, image, MOST), YALIVUCU_DONE);
    same("sheet, painted", image[11], 0x00020202);
    untouched("sheet", 12);
    clear();
    format = 77;
    same("sheet, cut", yalivucu_read_sheet(room, 36, image, MOST), YALIVUCU_CUT_SHORT);
    same("head, cut", yalivucu_sheet_head(room, 36, &format, &width, &height), YALIVUCU_CUT_SHORT);
    same("head, not written", (uint32_t)format, 77);
    same("sheet, no blocks", yalivucu_read_sheet(room, 15, image, MOST), YALIVUCU_WRONG_BLOCKS);
    room[19] = 3;
    same("sheet, other kind", yalivucu_read_sheet(room, written, image, MOST), YALIVUCU_OTHER_KIND);
    room[6] = 8;
    same("sheet, format", yalivucu_read_sheet(room, written, image, MOST), YALIVUCU_NO_HEAD);
    untouched("sheet, refused", 0);
}

/* A picture of 5 by 5 in rows of 6, in pieces of every length, beside the plain reader. */
static void pieces(void)
{
    const struct {
        const char *name;
        uint32_t (*start)(struct yalivucu_pieces *, size_t, size_t, size_t, const uint32_t *, size_t);
        uint32_t (*read)(const uint8_t *, size_t, size_t, size_t, size_t, uint32_t *, size_t);
        size_t size;
    } row[] = {
        {"pieces_etc1", yalivucu_pieces_etc1, yalivucu_decode_etc1_pitched, 8},
        {"pieces_etc2_rgb", yalivucu_pieces_etc2_rgb, yalivucu_decode_etc2_rgb_pitched, 8},
        {"pieces_etc2_rgba1", yalivucu_pieces_etc2_rgba1, yalivucu_decode_etc2_rgba1_pitched, 8},
        {"pieces_etc2_rgba8", yalivucu_pieces_etc2_rgba8, yalivucu_decode_etc2_rgba8_pitched, 16},
        {"pieces_eacr", yalivucu_pieces_eacr, yalivucu_decode_eacr_pitched, 8},
        {"pieces_eacr_signed", yalivucu_pieces_eacr_signed, yalivucu_decode_eacr_signed_pitched, 8},
        {"pieces_eacrg", yalivucu_pieces_eacrg, yalivucu_decode_eacrg_pitched, 16},
        {"pieces_eacrg_signed", yalivucu_pieces_eacrg_signed, yalivucu_decode_eacrg_signed_pitched, 16},
        {"pieces_bc1", yalivucu_pieces_bc1, yalivucu_decode_bc1_pitched, 8},
        {"pieces_bc1a", yalivucu_pieces_bc1a, yalivucu_decode_bc1a_pitched, 8},
        {"pieces_bc3", yalivucu_pieces_bc3, yalivucu_decode_bc3_pitched, 16},
        {"pieces_bc7", yalivucu_pieces_bc7, yalivucu_decode_bc7_pitched, 16},
        {"pieces_bc2", yalivucu_pieces_bc2, yalivucu_decode_bc2_pitched, 16},
        {"pieces_bc4", yalivucu_pieces_bc4, yalivucu_decode_bc4_pitched, 8},
        {"pieces_bc4_signed", yalivucu_pieces_bc4_signed, yalivucu_decode_bc4_signed_pitched, 8},
        {"pieces_bc5", yalivucu_pieces_bc5, yalivucu_decode_bc5_pitched, 16},
        {"pieces_bc5_signed", yalivucu_pieces_bc5_signed, yalivucu_decode_bc5_signed_pitched, 16},
    };
    uint8_t data[67];
    uint32_t plain[MOST];
    for (size_t k = 0; k < sizeof data; k++) data[k] = (uint8_t)(k * k * 5 + 89 * k + 7);
    for (size_t k = 0; k < sizeof row / sizeof *row; k++) {
        struct yalivucu_pieces state;
        const char *name = row[k].name;
        size_t all = 4 * row[k].size, painted = 77, unused = 77;
        clear();
        same(name, row[k].start(&state, 5, 5, 65537, image, 0), YALIVUCU_TOO_LARGE);
        same(name, row[k].start(&state, 5, 5, 4, image, 0), YALIVUCU_SHORT_PITCH);
        same(name, row[k].start(&state, 5, 5, 6, image, 28), YALIVUCU_SHORT_IMAGE);
        same(name, row[k].start(&state, 0, 5, 0, NULL, 0), YALIVUCU_DONE);
        same(name, yalivucu_pieces_end(&state), YALIVUCU_DONE);
        same(name, row[k].read(data, all, 5, 5, 6, image, MOST), YALIVUCU_DONE);
        memcpy(plain, image, sizeof plain);
        for (size_t length = 1; length <= all + 3; length++) {
            size_t blocks = 0;
            clear();
            same(name, row[k].start(&state, 5, 5, 6, image, MOST), YALIVUCU_DONE);
            same(name, yalivucu_pieces_end(&state), YALIVUCU_SHORT_DATA);
            for (size_t at = 0; at < all; at += length) {
                size_t left = all + 3 - at, n = left < length ? left : length;
                same(name, yalivucu_pieces_take(&state, data + at, n, image, 28, &painted, &unused), YALIVUCU_SHORT_IMAGE);
                same(name, (uint32_t)painted, 0);
                same(name, (uint32_t)unused, (uint32_t)n);
                same(name, yalivucu_pieces_take(&state, data + at, n, image, MOST, &painted, &unused), YALIVUCU_DONE);
                same(name, (uint32_t)unused, (uint32_t)(at + n > all ? at + n - all : 0));
                blocks += painted;
                same(name, yalivucu_pieces_take(&state, NULL, 0, image, MOST, &painted, &unused), YALIVUCU_DONE);
                same(name, (uint32_t)painted, 0);
            }
            same(name, (uint32_t)blocks, 4);
            same(name, yalivucu_pieces_end(&state), YALIVUCU_DONE);
            same(name, (uint32_t)memcmp(plain, image, sizeof plain), 0);
        }
        /* a state that somebody spoilt is a state */
        memset(&state, 0xff, sizeof state);
        same(name, yalivucu_pieces_take(&state, data, all, image, MOST, &painted, &unused), YALIVUCU_TOO_LARGE);
        same(name, yalivucu_pieces_end(&state), YALIVUCU_TOO_LARGE);
    }
}

/* A number of four bytes, the lowest first. */
static void put4(uint8_t *at, uint32_t number)
{
    for (int k = 0; k < 4; k++) at[k] = (uint8_t)(number >> 8 * k);
}

/* Opens a file: the answer, and all that is told, with 77 in every member that was not written. */
static void opened(const char *name, const uint8_t *data, size_t len, uint32_t answer, struct yalivucu_file due)
{
    struct yalivucu_file told;
    struct yalivucu_level_place level;
    const struct yalivucu_file none = {77, 77, 77, 77, 77, 77, 77, 77, 77};
    const struct yalivucu_level_place no_level = {77, 77, 77, 77};
    told = none, level = no_level;
    same(name, yalivucu_open_file(data, len, &told), answer);
    if (answer) due = none;
    same(name, memcmp(&told, &due, sizeof due) != 0, 0);
    same(name, yalivucu_file_level(data, len, answer ? 0 : due.levels, &level), answer ? answer : YALIVUCU_NO_LEVEL);
    same(name, yalivucu_file_level(data, len, SIZE_MAX, &level), answer ? answer : YALIVUCU_NO_LEVEL);
    same(name, memcmp(&level, &no_level, sizeof level) != 0, 0);
}

static void level_is(const char *name, const uint8_t *data, size_t len, size_t n, struct yalivucu_level_place due)
{
    struct yalivucu_level_place level = {77, 77, 77, 77};
    same(name, yalivucu_file_level(data, len, n, &level), YALIVUCU_DONE);
    same(name, memcmp(&level, &due, sizeof due) != 0, 0);
}

static const struct yalivucu_file NOTHING;

static void pkm(void)
{
    uint8_t file[25] = {'P', 'K', 'M', ' ', '1', '0', 0, 0, 0, 4, 0, 4, 0, 3, 0, 2, 0x04, 0, 0, 0x02};
    const struct yalivucu_file due = {YALIVUCU_PKM, YALIVUCU_ETC1, 0, 3, 2, 1, 1, YALIVUCU_UNTOLD, 1};
    opened("PKM", file, 25, YALIVUCU_DONE, due);
    level_is("PKM, level", file, 25, 0, (struct yalivucu_level_place){3, 2, 16, 8});
    opened("PKM, no bytes", NULL, 0, YALIVUCU_NO_TEXTURE, NOTHING);
    opened("PKM, header", file, 15, YALIVUCU_CUT_HEADER, NOTHING);
    opened("PKM, bytes", file, 23, YALIVUCU_LEVELS_MISSING, NOTHING);
    file[13] = 5;
    opened("PKM, sizes", file, 25, YALIVUCU_SIZES_DISAGREE, NOTHING);
    file[13] = file[9] = 0;
    opened("PKM, no pixel", file, 25, YALIVUCU_NO_PIXELS, NOTHING);
    file[4] = '3';
    opened("PKM, version", file, 25, YALIVUCU_NO_VERSION, NOTHING);
    file[0] = 'Q';
    opened("no texture", file, 25, YALIVUCU_NO_TEXTURE, NOTHING);
}

/* ETC2 RGBA8 in sRGB, 5 by 3 and a level of 2 by 1, as mipgen writes it: with a type of 1401 hex. */
static void ktx1(void)
{
    static const uint8_t head[16] = {0xAB, 'K', 'T', 'X', ' ', '1', '1', 0xBB, 13, 10, 26, 10, 1, 2, 3, 4};
    uint8_t file[64 + 4 + 32 + 4 + 16] = {0};
    const struct yalivucu_file due = {YALIVUCU_KTX1, YALIVUCU_ETC2_RGBA8, 1, 5, 3, 2, 0, YALIVUCU_UNTOLD, 0};
    memcpy(file, head, sizeof head);
    put4(file + 16, 0x1401), put4(file + 28, 0x9279), put4(file + 36, 5), put4(file + 40, 3), put4(file + 52, 1), put4(file + 56, 2);
    put4(file + 64, 32), put4(file + 100, 16);
    opened("KTX 1", file, sizeof file, YALIVUCU_DONE, due);
    level_is("KTX 1, level 0", file, sizeof file, 0, (struct yalivucu_level_place){5, 3, 68, 32});
    level_is("KTX 1, level 1", file, sizeof file, 1, (struct yalivucu_level_place){2, 1, 104, 16});
    opened("KTX 1, bytes", file, sizeof file - 1, YALIVUCU_LEVELS_MISSING, NOTHING);
    put4(file + 60, 0xFFFFFFFC);
    opened("KTX 1, keys", file, sizeof file, YALIVUCU_LEVELS_MISSING, NOTHING);
    put4(file + 60, 0), put4(file + 64, 31);
    opened("KTX 1, length", file, sizeof file, YALIVUCU_SIZES_DISAGREE, NOTHING);
    put4(file + 52, 6);
    opened("KTX 1, cube", file, sizeof file, YALIVUCU_NOT_FLAT, NOTHING);
    put4(file + 52, 1), put4(file + 28, 0x93B0);
    opened("KTX 1, format", file, sizeof file, YALIVUCU_NO_FORMAT, NOTHING);
}

/* BC7 in one level, which begins in the middle of nowhere. */
static void ktx2(void)
{
    static const uint8_t head[12] = {0xAB, 'K', 'T', 'X', ' ', '2', '0', 0xBB, 13, 10, 26, 10};
    uint8_t file[104 + 16] = {0};
    const struct yalivucu_file due = {YALIVUCU_KTX2, YALIVUCU_BC7, 0, 4, 4, 1, 0, YALIVUCU_UNTOLD, 0};
    memcpy(file, head, sizeof head);
    put4(file + 12, 145), put4(file + 20, 4), put4(file + 24, 4), put4(file + 36, 1), put4(file + 80, 104), put4(file + 88, 16);
    opened("KTX 2", file, sizeof file, YALIVUCU_DONE, due);
    level_is("KTX 2, level", file, sizeof file, 0, (struct yalivucu_level_place){4, 4, 104, 16});
    memset(file + 80, 0xFF, 8);
    opened("KTX 2, offset", file, sizeof file, YALIVUCU_LEVELS_MISSING, NOTHING);
    put4(file + 44, 2);
    opened("KTX 2, Zstandard", file, sizeof file, YALIVUCU_SUPERCOMPRESSED, NOTHING);
}

static void dds(void)
{
    uint8_t file[128 + 8] = {'D', 'D', 'S', ' ', 124};
    const struct yalivucu_file due = {YALIVUCU_DDS, YALIVUCU_BC1A, 0, 4, 1, 1, 0, YALIVUCU_UNTOLD, 0};
    put4(file + 12, 1), put4(file + 16, 4), put4(file + 76, 32), put4(file + 80, 4);
    memcpy(file + 84, "DXT1", 4);
    opened("DDS", file, sizeof file, YALIVUCU_DONE, due);
    level_is("DDS, level", file, sizeof file, 0, (struct yalivucu_level_place){4, 1, 128, 8});
    opened("DDS, header", file, 127, YALIVUCU_CUT_HEADER, NOTHING);
    opened("DDS, bytes", file, 135, YALIVUCU_LEVELS_MISSING, NOTHING);
    put4(file + 16, 65537);
    opened("DDS, too large", file, sizeof file, YALIVUCU_TOO_LARGE, NOTHING);
    put4(file + 112, 0x200);
    opened("DDS, cube", file, sizeof file, YALIVUCU_NOT_FLAT, NOTHING);
}

static void sheet_file(void)
{
    uint8_t room[40] = {0};
    size_t written = 0;
    const struct yalivucu_file due = {YALIVUCU_SHEET, YALIVUCU_EAC_RG, 0, 4, 3, 1, 0, YALIVUCU_UNTOLD, 0};
    same("sheet", yalivucu_write_sheet(6, 4, 3, ZERO, 16, room, sizeof room, &written), YALIVUCU_DONE);
    opened("sheet", room, written, YALIVUCU_DONE, due);
    level_is("sheet, level", room, written, 0, (struct yalivucu_level_place){4, 3, 21, 16});
    opened("sheet, cut", room, written - 1, YALIVUCU_CUT_SHORT, NOTHING);
}

static uint32_t bits_of(float value)
{
    uint32_t bits;
    memcpy(&bits, &value, sizeof bits);
    return bits;
}

/* Each with what is answered and the reading by bits, whose values are 1 before every call. */
static void degrees(void)
{
    const uint32_t one = 0x3f800000, red200 = 0xffc81234;
    const struct yalivucu_legend line = yalivucu_line(10, 0.5f), bend = yalivucu_bend(0.1f, 0.1f, -0.7f);
    const struct {
        const char *name;
        struct yalivucu_legend legend;
        size_t named, shown;
        uint32_t pixel;
        float measured;
        uint32_t answer, predicted, seen, difference;
    } row[] = {
        {"legend", yalivucu_level(720.00006103515625f), 5, 4, 0, 721, YALIVUCU_BAD_LEGEND, one, one, one},
        {"second step", yalivucu_bend(0, 0, -8.00000095367431640625f), 0, 0, red200, 0, YALIVUCU_BAD_LEGEND, one, one, one},
        {"kind", {3, 0, 0, 0}, 0, 0, red200, 0, YALIVUCU_BAD_LEGEND, one, one, one},
        {"largest kind", {SIZE_MAX, 0, 0, 0}, 0, 0, red200, 0, YALIVUCU_BAD_LEGEND, one, one, one},
        {"digits", line, 1, 2, 0, 721, YALIVUCU_BAD_DIGIT, one, one, one},
        {"sixth digit", line, 5, 5, 0, 721, YALIVUCU_BAD_DIGIT, one, one, one},
        {"digit of more than a byte", line, 256, 0, red200, 0, YALIVUCU_BAD_DIGIT, one, one, one},
        {"measurement", line, 1, 1, 0, 721, YALIVUCU_BAD_MEASUREMENT, one, one, one},
        {"no number", line, 1, 1, red200, 0.0f / 0.0f, YALIVUCU_BAD_MEASUREMENT, one, one, one},
        {"not measured", line, 1, 1, 0x00c81234, 100, YALIVUCU_NOT_MEASURED, one, one, one},
        {"level", yalivucu_level(-0.0f), 3, 3, red200, 0, YALIVUCU_DONE, 0x80000000, 0, 0x80000000},
        {"line", line, 1, 1, red200, 100, YALIVUCU_DONE, 0x42dc0000, 0x42c80000, 0x41200000},
        {"bend", bend, 4, 4, red200, -20, YALIVUCU_DONE, 0xc215ffff, 0xc1a00000, 0xc18bfffe},
    };
    for (size_t k = 0; k < sizeof row / sizeof *row; k++) {
        struct yalivucu_reading reading = {1, 1, 1};
        uint32_t answer = yalivucu_degrees(row[k].legend, row[k].named, row[k].shown, row[k].pixel, row[k].measured, &reading);
        same(row[k].name, answer, row[k].answer);
        same(row[k].name, bits_of(reading.predicted), row[k].predicted);
        same(row[k].name, bits_of(reading.measured), row[k].seen);
        same(row[k].name, bits_of(reading.difference), row[k].difference);
    }
}

int main(void)
{
    pictures();
    pitched();
    nothing();
    wholes();
    strict();
    strict_pitched();
    opaque();
    checks();
    blocks();
    channels();
    desktop();
    rest_of_the_desktop();
    bptc();
    censuses();
    baking();
    sheets();
    pieces();
    pkm();
    ktx1();
    ktx2();
    dds();
    sheet_file();
    degrees();
    puts(failures ? "C: FAILED" : "C: passed");
    return failures != 0;
}
