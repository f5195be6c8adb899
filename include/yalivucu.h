/* ETC1, ETC2, EAC, BC1 to BC5 and BC7 textures, the files that hold them, and the degrees that their colours mean, read by
 * proved code.
 *
 * Link with the static library that `bindings/archive FILE.a` writes. Every function may be
 * called from several threads at once, allocates nothing, keeps nothing between calls but in what
 * the caller lends, and always returns.
 *
 * Arguments
 *   data, data_len     the compressed bytes and how many there are. They are only read, and
 *                      bytes beyond the last block of the picture are not looked at.
 *   width, height      of the picture in pixels: any numbers; 0 is a picture with no pixels.
 *   pitch              how many elements a row of the image takes, of which the first width are
 *                      pixels and the others a gap. Where there is no such argument, the width.
 *   image, image_len   the pixels and how many elements there is room for. Pixel (x, y) is
 *                      image[y * pitch + x]; a pixel is
 *                      alpha << 24 | red << 16 | green << 8 | blue.
 *   out, out_len       the same for the sixteen pixels of one block, row by row.
 *   counts, counts_len the counts of a census and how many there is room for.
 *   tile, tile_len     the sixteen pixels that a block is held to, row by row; only read.
 *
 * Answers
 *   0  done: the picture's width * height elements, or a block's 16, or a census's 5 or 8 counts, or the 6 of an older viewer
 *      are written. No other element is touched, so gaps and what lies behind keep their value.
 *   1  refused: the width, the height or the pitch is above 65536; of a sheet, and of its writer,
 *      the width or the height above 16384.
 *   2  refused: data_len is less than the blocks have, or block_len less than 8. A picture has
 *      ((width + 3) / 4) * ((height + 3) / 4) blocks of 8 bytes, or 16 where it says so below.
 *   3  refused: image_len is less than (height - 1) * pitch + width, which is width * height where
 *      there is no gap (and 0 where a side is 0), or out_len or tile_len less than 16, or counts_len less than
 *      the census has counts.
 *   4  refused by yalivucu_decode_etc1_strict, its _pitched twin and its check alone: a block's base plus step is
 *      out of range.
 *   5  refused: the channel is above 3.
 *   6  refused by yalivucu_decode_etc1_strict, its _pitched twin and its check alone: there are more bytes than the
 *      blocks need. Every other reader ignores what follows its blocks.
 *   7  refused, of a sheet: a record is cut short, or there are no bytes at all.
 *   8  refused: the first record is not of kind 1, not 9 bytes long, or its format is above 7;
 *      of the writer: the format is above 7.
 *   9  refused: a record of another kind, a second one of kind 1 included.
 *  10  refused: no record of blocks, a second one, or blocks that are not of the exact length.
 *  11  refused by yalivucu_decode_etc2_rgba1_opaque, its _pitched twin and its check alone: a block's opaque bit is
 *      clear.
 *  12  refused: the pitch is below the width.
 *  13  refused, of degrees: a low or level of the legend does not lie in -720 to 720, or a step not in
 *      -8 to 8, or the legend is of no kind.
 *  14  refused: legend and picture name different digits, or one above 4.
 *  15  refused: the measurement does not lie in -720 to 720, or is not a number.
 *  16  refused by yalivucu_bake_etc1_block alone: a channel of a base is above 15, or the flip above 1.
 *  17  not measured: the pixel's alpha is 0.
 *  18  by yalivucu_check_etc1_block alone, and no refusal: the block is not accepted.
 *  20  refused, of a file, as are those below: it ends before its header does.
 *  21  its first bytes are those of no container that is known.
 *  22  a version or a byte order that nobody defined.
 *  23  a format that is not read here.
 *  24  its sizes contradict each other.
 *  25  a volume, an array or a cube.
 *  26  its picture has no pixel.
 *  37  it has fewer levels, or bytes of them, than it tells.
 *  38  by yalivucu_file_level alone: there is no level of that number.
 *  41  supercompressed (KTX 2): its levels are compressed once more.
 * Pictures test 1, 12, 2, 6, 3, 4 or 11 in that order, blocks 5, 2, 3, censuses 1, 2, 3. A sheet is walked
 * front to back and the first fault is the answer, 3 last; the writer tests 8, 1, 10, 3. Degrees test
 * 13, 14, 15, 17; the checker of a block 2, 3, its baker 16, 2, 3. A refusal touches no element. Pictures in
 * pieces have an order of their own, below, and their last answer,
 * 2, leaves what is painted.
 *
 * What the caller owes
 *   data (block, tile) points to data_len (block_len, tile_len) bytes or elements that may be read, and
 *   block of the baker to bytes that may be written, image (out, counts) to image_len (out_len,
 *   counts_len) elements that may be read and written, aligned as their type is, and the two do
 *   not overlap. Where a length is 0 the pointer is not followed and may be NULL. C checks none of
 *   this, and nothing here can. No number and no content of the bytes is wrong: for those there
 *   are the answers.
 */
#ifndef YALIVUCU_H
#define YALIVUCU_H

#include <stddef.h>
#include <stdint.h>

#ifdef __cplusplus
extern "C" {
#endif

enum yalivucu_answer {
    YALIVUCU_DONE = 0,
    YALIVUCU_TOO_LARGE = 1,
    YALIVUCU_SHORT_DATA = 2,
    YALIVUCU_SHORT_IMAGE = 3,
    YALIVUCU_OUT_OF_RANGE = 4,
    YALIVUCU_NO_CHANNEL = 5,
    YALIVUCU_LONG_DATA = 6,
    YALIVUCU_CUT_SHORT = 7,
    YALIVUCU_NO_HEAD = 8,
    YALIVUCU_OTHER_KIND = 9,
    YALIVUCU_WRONG_BLOCKS = 10,
    YALIVUCU_NOT_OPAQUE = 11,
    YALIVUCU_SHORT_PITCH = 12,
    YALIVUCU_BAD_LEGEND = 13,
    YALIVUCU_BAD_DIGIT = 14,
    YALIVUCU_BAD_MEASUREMENT = 15,
    YALIVUCU_NO_BASE = 16,
    YALIVUCU_NOT_MEASURED = 17,
    YALIVUCU_NOT_ACCEPTED = 18,
    YALIVUCU_CUT_HEADER = 20,
    YALIVUCU_NO_TEXTURE = 21,
    YALIVUCU_NO_VERSION = 22,
    YALIVUCU_NO_FORMAT = 23,
    YALIVUCU_SIZES_DISAGREE = 24,
    YALIVUCU_NOT_FLAT = 25,
    YALIVUCU_NO_PIXELS = 26,
    YALIVUCU_LEVELS_MISSING = 37,
    YALIVUCU_NO_LEVEL = 38,
    YALIVUCU_SUPERCOMPRESSED = 41
};

/* Pictures in blocks of 8 bytes. The last of three BC1 colours is black in bc1, and 0, transparent, in bc1a.
 * A signed channel's byte has 0 at 127 and the least value at 0, in EAC as in BC4 and BC5. */
uint32_t yalivucu_decode_etc1(const uint8_t *data, size_t data_len, size_t width, size_t height, uint32_t *image, size_t image_len);
uint32_t yalivucu_decode_etc2_rgb(const uint8_t *data, size_t data_len, size_t width, size_t height, uint32_t *image, size_t image_len);
uint32_t yalivucu_decode_etc2_rgba1(const uint8_t *data, size_t data_len, size_t width, size_t height, uint32_t *image, size_t image_len);
uint32_t yalivucu_decode_eacr(const uint8_t *data, size_t data_len, size_t width, size_t height, uint32_t *image, size_t image_len);
uint32_t yalivucu_decode_eacr_signed(const uint8_t *data, size_t data_len, size_t width, size_t height, uint32_t *image, size_t image_len);
uint32_t yalivucu_decode_bc1(const uint8_t *data, size_t data_len, size_t width, size_t height, uint32_t *image, size_t image_len);
uint32_t yalivucu_decode_bc1a(const uint8_t *data, size_t data_len, size_t width, size_t height, uint32_t *image, size_t image_len);
uint32_t yalivucu_decode_bc4(const uint8_t *data, size_t data_len, size_t width, size_t height, uint32_t *image, size_t image_len);
uint32_t yalivucu_decode_bc4_signed(const uint8_t *data, size_t data_len, size_t width, size_t height, uint32_t *image, size_t image_len);

/* Pictures in blocks of 16 bytes. */
uint32_t yalivucu_decode_etc2_rgba8(const uint8_t *data, size_t data_len, size_t width, size_t height, uint32_t *image, size_t image_len);
uint32_t yalivucu_decode_eacrg(const uint8_t *data, size_t data_len, size_t width, size_t height, uint32_t *image, size_t image_len);
uint32_t yalivucu_decode_eacrg_signed(const uint8_t *data, size_t data_len, size_t width, size_t height, uint32_t *image, size_t image_len);
uint32_t yalivucu_decode_bc3(const uint8_t *data, size_t data_len, size_t width, size_t height, uint32_t *image, size_t image_len);
uint32_t yalivucu_decode_bc7(const uint8_t *data, size_t data_len, size_t width, size_t height, uint32_t *image, size_t image_len);
uint32_t yalivucu_decode_bc2(const uint8_t *data, size_t data_len, size_t width, size_t height, uint32_t *image, size_t image_len);
uint32_t yalivucu_decode_bc5(const uint8_t *data, size_t data_len, size_t width, size_t height, uint32_t *image, size_t image_len);
uint32_t yalivucu_decode_bc5_signed(const uint8_t *data, size_t data_len, size_t width, size_t height, uint32_t *image, size_t image_len);

/* The same with a pitch, for an image whose rows have a gap. With pitch = width each does what the
 * function without one does. */
uint32_t yalivucu_decode_etc1_pitched(const uint8_t *data, size_t data_len, size_t width, size_t height, size_t pitch, uint32_t *image, size_t image_len);
uint32_t yalivucu_decode_etc2_rgb_pitched(const uint8_t *data, size_t data_len, size_t width, size_t height, size_t pitch, uint32_t *image, size_t image_len);
uint32_t yalivucu_decode_etc2_rgba1_pitched(const uint8_t *data, size_t data_len, size_t width, size_t height, size_t pitch, uint32_t *image, size_t image_len);
uint32_t yalivucu_decode_eacr_pitched(const uint8_t *data, size_t data_len, size_t width, size_t height, size_t pitch, uint32_t *image, size_t image_len);
uint32_t yalivucu_decode_eacr_signed_pitched(const uint8_t *data, size_t data_len, size_t width, size_t height, size_t pitch, uint32_t *image, size_t image_len);
uint32_t yalivucu_decode_etc2_rgba8_pitched(const uint8_t *data, size_t data_len, size_t width, size_t height, size_t pitch, uint32_t *image, size_t image_len);
uint32_t yalivucu_decode_eacrg_pitched(const uint8_t *data, size_t data_len, size_t width, size_t height, size_t pitch, uint32_t *image, size_t image_len);
uint32_t yalivucu_decode_eacrg_signed_pitched(const uint8_t *data, size_t data_len, size_t width, size_t height, size_t pitch, uint32_t *image, size_t image_len);
uint32_t yalivucu_decode_bc1_pitched(const uint8_t *data, size_t data_len, size_t width, size_t height, size_t pitch, uint32_t *image, size_t image_len);
uint32_t yalivucu_decode_bc1a_pitched(const uint8_t *data, size_t data_len, size_t width, size_t height, size_t pitch, uint32_t *image, size_t image_len);
uint32_t yalivucu_decode_bc3_pitched(const uint8_t *data, size_t data_len, size_t width, size_t height, size_t pitch, uint32_t *image, size_t image_len);
uint32_t yalivucu_decode_bc7_pitched(const uint8_t *data, size_t data_len, size_t width, size_t height, size_t pitch, uint32_t *image, size_t image_len);
uint32_t yalivucu_decode_bc2_pitched(const uint8_t *data, size_t data_len, size_t width, size_t height, size_t pitch, uint32_t *image, size_t image_len);
uint32_t yalivucu_decode_bc4_pitched(const uint8_t *data, size_t data_len, size_t width, size_t height, size_t pitch, uint32_t *image, size_t image_len);
uint32_t yalivucu_decode_bc4_signed_pitched(const uint8_t *data, size_t data_len, size_t width, size_t height, size_t pitch, uint32_t *image, size_t image_len);
uint32_t yalivucu_decode_bc5_pitched(const uint8_t *data, size_t data_len, size_t width, size_t height, size_t pitch, uint32_t *image, size_t image_len);
uint32_t yalivucu_decode_bc5_signed_pitched(const uint8_t *data, size_t data_len, size_t width, size_t height, size_t pitch, uint32_t *image, size_t image_len);

/* All eleven bits of EAC, as 16-bit numbers: R in blocks of 8 bytes, RG in blocks of 16. Unsigned values
 * are 0 to 2047 and signed ones -1023 to 1023. R has one number to a pixel. RG has two, red then
 * green: number c of pixel (x, y) is image[2 * (y * pitch + x) + c], the pitch counts pixels, and
 * image_len is wanted twice as large as answer 3 says. They test 1, 12, 2, 3 in that order. */
uint32_t yalivucu_decode_eacr11(const uint8_t *data, size_t data_len, size_t width, size_t height, uint16_t *image, size_t image_len);
uint32_t yalivucu_decode_eacr11_signed(const uint8_t *data, size_t data_len, size_t width, size_t height, int16_t *image, size_t image_len);
uint32_t yalivucu_decode_eacrg11(const uint8_t *data, size_t data_len, size_t width, size_t height, uint16_t *image, size_t image_len);
uint32_t yalivucu_decode_eacrg11_signed(const uint8_t *data, size_t data_len, size_t width, size_t height, int16_t *image, size_t image_len);
uint32_t yalivucu_decode_eacr11_pitched(const uint8_t *data, size_t data_len, size_t width, size_t height, size_t pitch, uint16_t *image, size_t image_len);
uint32_t yalivucu_decode_eacr11_signed_pitched(const uint8_t *data, size_t data_len, size_t width, size_t height, size_t pitch, int16_t *image, size_t image_len);
uint32_t yalivucu_decode_eacrg11_pitched(const uint8_t *data, size_t data_len, size_t width, size_t height, size_t pitch, uint16_t *image, size_t image_len);
uint32_t yalivucu_decode_eacrg11_signed_pitched(const uint8_t *data, size_t data_len, size_t width, size_t height, size_t pitch, int16_t *image, size_t image_len);

/* An ETC1 picture, in blocks of 8 bytes, that holds no block out of range and has no byte behind its
 * blocks: what it accepts, an ETC2 decoder shows alike. With answer 4, *block is the number of the first such block, from 0,
 * left to right and then down; with any other answer *block is not written. block is not NULL
 * and points into neither data nor image. */
uint32_t yalivucu_decode_etc1_strict(const uint8_t *data, size_t data_len, size_t width, size_t height, uint32_t *image, size_t image_len, size_t *block);
uint32_t yalivucu_decode_etc1_strict_pitched(const uint8_t *data, size_t data_len, size_t width, size_t height, size_t pitch, uint32_t *image, size_t image_len, size_t *block);

/* The same with its whole answer as one value, so that there is no pointer to be wrong about:
 * block is the first block out of range where answer is 4, and 0 with any other answer. */
struct yalivucu_strict {
    uint32_t answer;
    size_t block;
};
static inline struct yalivucu_strict yalivucu_etc1_strict(const uint8_t *data, size_t data_len, size_t width, size_t height, uint32_t *image, size_t image_len)
{
    struct yalivucu_strict told = {0, 0};
    told.answer = yalivucu_decode_etc1_strict(data, data_len, width, height, image, image_len, &told.block);
    return told;
}
static inline struct yalivucu_strict yalivucu_etc1_strict_pitched(const uint8_t *data, size_t data_len, size_t width, size_t height, size_t pitch, uint32_t *image, size_t image_len)
{
    struct yalivucu_strict told = {0, 0};
    told.answer = yalivucu_decode_etc1_strict_pitched(data, data_len, width, height, pitch, image, image_len, &told.block);
    return told;
}

/* An ETC2 RGBA1 picture, in blocks of 8 bytes, for a viewer that knows ETC2 RGB but nothing transparent:
 * what it accepts, readers of either format show alike. With answer 11, *block is the number of the first
 * block whose opaque bit is clear; with any other answer *block is not written. What follows the blocks
 * is ignored. block is not NULL and points into neither data nor image. */
uint32_t yalivucu_decode_etc2_rgba1_opaque(const uint8_t *data, size_t data_len, size_t width, size_t height, uint32_t *image, size_t image_len, size_t *block);
uint32_t yalivucu_decode_etc2_rgba1_opaque_pitched(const uint8_t *data, size_t data_len, size_t width, size_t height, size_t pitch, uint32_t *image, size_t image_len, size_t *block);

/* The checks of yalivucu_decode_etc1_strict and of yalivucu_decode_etc2_rgba1_opaque, without an image:
 * where an image is long enough, each answers as its reader does, with the same *block, and paints
 * nothing. With answer 4, or 11, *block is the number of the first bad block; with any other answer *block
 * is not written. block is not NULL and does not point into data. */
uint32_t yalivucu_check_strict(const uint8_t *data, size_t data_len, size_t width, size_t height, size_t *block);
uint32_t yalivucu_check_opaque(const uint8_t *data, size_t data_len, size_t width, size_t height, size_t *block);

/* One block of 8 bytes, into out[0] to out[15]. */
uint32_t yalivucu_decode_etc1_block(const uint8_t *data, size_t data_len, uint32_t *out, size_t out_len);
uint32_t yalivucu_decode_etc2_rgb_block(const uint8_t *data, size_t data_len, uint32_t *out, size_t out_len);
uint32_t yalivucu_decode_etc2_rgba1_block(const uint8_t *data, size_t data_len, uint32_t *out, size_t out_len);
uint32_t yalivucu_decode_eacr_block(const uint8_t *data, size_t data_len, uint32_t *out, size_t out_len);
uint32_t yalivucu_decode_eacr_signed_block(const uint8_t *data, size_t data_len, uint32_t *out, size_t out_len);
uint32_t yalivucu_decode_bc1_block(const uint8_t *data, size_t data_len, uint32_t *out, size_t out_len);
uint32_t yalivucu_decode_bc1a_block(const uint8_t *data, size_t data_len, uint32_t *out, size_t out_len);
uint32_t yalivucu_decode_bc4_block(const uint8_t *data, size_t data_len, uint32_t *out, size_t out_len);
uint32_t yalivucu_decode_bc4_signed_block(const uint8_t *data, size_t data_len, uint32_t *out, size_t out_len);

/* One block of 16 bytes, into out[0] to out[15]. */
uint32_t yalivucu_decode_etc2_rgba8_block(const uint8_t *data, size_t data_len, uint32_t *out, size_t out_len);
uint32_t yalivucu_decode_eacrg_block(const uint8_t *data, size_t data_len, uint32_t *out, size_t out_len);
uint32_t yalivucu_decode_eacrg_signed_block(const uint8_t *data, size_t data_len, uint32_t *out, size_t out_len);
uint32_t yalivucu_decode_bc3_block(const uint8_t *data, size_t data_len, uint32_t *out, size_t out_len);
uint32_t yalivucu_decode_bc7_block(const uint8_t *data, size_t data_len, uint32_t *out, size_t out_len);
uint32_t yalivucu_decode_bc2_block(const uint8_t *data, size_t data_len, uint32_t *out, size_t out_len);
uint32_t yalivucu_decode_bc5_block(const uint8_t *data, size_t data_len, uint32_t *out, size_t out_len);
uint32_t yalivucu_decode_bc5_signed_block(const uint8_t *data, size_t data_len, uint32_t *out, size_t out_len);

/* An alpha half of 8 bytes: replaces the top byte of out[0] to out[15] and keeps the rest. */
uint32_t yalivucu_decode_etc2_a8_block(const uint8_t *data, size_t data_len, uint32_t *out, size_t out_len);

/* One EAC block of 8 bytes: ORs its bytes into channel 0 blue, 1 green, 2 red or 3 alpha of
 * out[0] to out[15]. */
uint32_t yalivucu_decode_eac_block(const uint8_t *data, size_t data_len, size_t channel, uint32_t *out, size_t out_len);
uint32_t yalivucu_decode_eac_signed_block(const uint8_t *data, size_t data_len, size_t channel, uint32_t *out, size_t out_len);

/* The alpha half of a BC3 block, 8 bytes: puts its bytes in place of channel 0 blue, 1 green, 2 red or
 * 3 alpha of out[0] to out[15], and keeps the other three. */
uint32_t yalivucu_decode_bc3_alpha(const uint8_t *data, size_t data_len, size_t channel, uint32_t *out, size_t out_len);

/* Whether an ETC1 block of 8 bytes that somebody else baked is near enough to a tile: 0 exactly where it is
 * in range and each red, green and blue of each pixel differs from the tile's by at most the
 * tolerance, and 18 where not. Alpha is ignored. */
uint32_t yalivucu_check_etc1_block(const uint8_t *block, size_t block_len, const uint32_t *tile, size_t tile_len, uint32_t tolerance);

/* Bakes an individual ETC1 block into block[0] to block[7]: first and second are three four-bit channels
 * each, red, green and blue, of the two bases; flip is 0 or 1. Of all codes and indices it takes those
 * with the least sum of absolute red, green and blue differences from the tile, of those the lower
 * code, and then the lower index. Here answer 2 means that block_len is less than 8. first and second
 * are not NULL, and block overlaps nothing. */
uint32_t yalivucu_bake_etc1_block(const uint8_t first[3], const uint8_t second[3], size_t flip, const uint32_t *tile, size_t tile_len, uint8_t *block, size_t block_len);

/* Which kinds of blocks a picture of 8-byte blocks has: the count of each kind at its place below,
 * together all blocks of the picture. Nothing is painted. The counts are written with answer 0
 * alone; where counts has fewer than YALIVUCU_RGB_COUNTS or YALIVUCU_RGBA1_COUNTS elements the
 * answer is 3 and none is written, tested after 1 and 2. Where it has more, the others are kept. */
enum yalivucu_rgb_count {
    YALIVUCU_RGB_INDIVIDUAL,
    YALIVUCU_RGB_DIFFERENTIAL,
    YALIVUCU_RGB_T,
    YALIVUCU_RGB_H,
    YALIVUCU_RGB_PLANAR,
    YALIVUCU_RGB_COUNTS
};

/* RGBA1 has no individual blocks; each of its kinds is split by the block's opaque bit. */
enum yalivucu_rgba1_count {
    YALIVUCU_RGBA1_OPAQUE_DIFFERENTIAL,
    YALIVUCU_RGBA1_OPAQUE_T,
    YALIVUCU_RGBA1_OPAQUE_H,
    YALIVUCU_RGBA1_OPAQUE_PLANAR,
    YALIVUCU_RGBA1_CLEAR_DIFFERENTIAL,
    YALIVUCU_RGBA1_CLEAR_T,
    YALIVUCU_RGBA1_CLEAR_H,
    YALIVUCU_RGBA1_CLEAR_PLANAR,
    YALIVUCU_RGBA1_COUNTS
};

uint32_t yalivucu_census_etc2_rgb(const uint8_t *data, size_t data_len, size_t width, size_t height, size_t *counts, size_t counts_len);
uint32_t yalivucu_census_etc2_rgba1(const uint8_t *data, size_t data_len, size_t width, size_t height, size_t *counts, size_t counts_len);

/* What a viewer that knows ETC1 alone shows wrong of an ETC2 RGB picture, and one that knows ETC2 RGB, but
 * nothing transparent, of an RGBA1 picture, in blocks of 8 bytes: how many pixels differ and how many blocks have
 * one; the first such block, and the first such pixel of it, 0 to 15, row by row, or the number of blocks and 16
 * where there is none; the largest difference of any red, green or blue, and of any alpha. A tile that an edge
 * clips counts as far as it is shown. What follows the blocks is not counted. */
enum yalivucu_older_count {
    YALIVUCU_OLDER_PIXELS,
    YALIVUCU_OLDER_BLOCKS,
    YALIVUCU_OLDER_FIRST_BLOCK,
    YALIVUCU_OLDER_FIRST_PLACE,
    YALIVUCU_OLDER_COLOUR,
    YALIVUCU_OLDER_ALPHA,
    YALIVUCU_OLDER_COUNTS
};

uint32_t yalivucu_older_etc1(const uint8_t *data, size_t data_len, size_t width, size_t height, size_t *counts, size_t counts_len);
uint32_t yalivucu_older_rgb(const uint8_t *data, size_t data_len, size_t width, size_t height, size_t *counts, size_t counts_len);

/* A sheet: a head that names a format, 0 ETC1, 1 ETC2 RGB, 2 RGBA1, 3 RGBA8, 4 EAC R, 5 R signed,
 * 6 RG, 7 RG signed, with width and height; and the blocks. sheet, sheet_len are its bytes, all of
 * them and no others. Where the answer of the first is 0, *format, *width and *height are what the
 * head says, and the second then refuses with 3 alone; otherwise they are not written, and the
 * second gives the same answer. They are not NULL and point to three different numbers. */
uint32_t yalivucu_sheet_head(const uint8_t *sheet, size_t sheet_len, size_t *format, size_t *width, size_t *height);
uint32_t yalivucu_read_sheet(const uint8_t *sheet, size_t sheet_len, uint32_t *image, size_t image_len);

/* Writes a sheet to the front of room: 21 bytes and the blocks. With answer 0, *written is the
 * number of its bytes; with any other answer it is not written. Here answer 3 means that room_len
 * is less than that. */
uint32_t yalivucu_write_sheet(size_t format, size_t width, size_t height, const uint8_t *blocks, size_t blocks_len, uint8_t *room, size_t room_len, size_t *written);

/* A texture file: PKM 1.0 and 2.0, KTX 1 in either byte order, KTX 2, DDS, and sheets. data, data_len are the whole
 * file, which the first opens and in which the second finds level 0, 1, .., the largest first:
 *
 *     struct yalivucu_file file;
 *     struct yalivucu_level_place level;
 *     uint32_t answer = yalivucu_open_file(data, data_len, &file);
 *     if (!answer) answer = yalivucu_file_level(data, data_len, 0, &level);
 *     if (!answer && file.format == YALIVUCU_ETC2_RGBA8) answer = yalivucu_decode_etc2_rgba8(
 *         data + level.start, level.length, level.width, level.height, image, image_len);
 *
 * With answer 0 alone *file and *out are written, all members of them. Then bytes start to start + length - 1
 * lie inside the file and are exactly the level's blocks, and every level below file.levels is found. Where the
 * first refuses, the second gives the same answer; otherwise it refuses with 38 alone. What decides no pixel
 * refuses no file: a wrong glType or base format of KTX 1, a wrong linearSize of DDS, key and value data that
 * cannot be read. A sheet is refused as yalivucu_sheet_head refuses it, and then where it has no pixel. file and out
 * are not NULL and do not point into data; where data_len is 0 data may be NULL. */
enum yalivucu_container {
    YALIVUCU_PKM = 1,
    YALIVUCU_KTX1 = 2,
    YALIVUCU_KTX2 = 3,
    YALIVUCU_DDS = 4,
    YALIVUCU_SHEET = 5
};

/* The first eight are a sheet's numbers. */
enum yalivucu_format {
    YALIVUCU_ETC1 = 0,
    YALIVUCU_ETC2_RGB = 1,
    YALIVUCU_ETC2_RGBA1 = 2,
    YALIVUCU_ETC2_RGBA8 = 3,
    YALIVUCU_EAC_R = 4,
    YALIVUCU_EAC_R_SIGNED = 5,
    YALIVUCU_EAC_RG = 6,
    YALIVUCU_EAC_RG_SIGNED = 7,
    YALIVUCU_BC1 = 8,
    YALIVUCU_BC1A = 9,
    YALIVUCU_BC3 = 10,
    YALIVUCU_BC7 = 11,
    YALIVUCU_BC2 = 12,
    YALIVUCU_BC4 = 13,
    YALIVUCU_BC4_SIGNED = 14,
    YALIVUCU_BC5 = 15,
    YALIVUCU_BC5_SIGNED = 16
};

enum yalivucu_orientation {
    YALIVUCU_UNTOLD = 0,
    YALIVUCU_TOP_DOWN = 1,
    YALIVUCU_BOTTOM_UP = 2
};

struct yalivucu_file {
    uint64_t container;   /* of enum yalivucu_container */
    uint64_t format;      /* of enum yalivucu_format */
    uint64_t srgb;        /* 1 where the file says that its colours are sRGB, else 0; no reader converts them */
    uint64_t width;       /* of level 0, in pixels */
    uint64_t height;
    uint64_t levels;      /* how many there are: at least 1 */
    uint64_t big_endian;  /* 1 where the header's numbers are big-endian (always in PKM), else 0 */
    uint64_t orientation; /* of enum yalivucu_orientation: which row comes first */
    uint64_t left_over;   /* how many bytes stand behind the last level */
};

struct yalivucu_level_place {
    uint64_t width; /* in pixels */
    uint64_t height;
    uint64_t start;  /* where its blocks begin in data */
    uint64_t length; /* how many bytes they are */
};

uint32_t yalivucu_open_file(const uint8_t *data, size_t data_len, struct yalivucu_file *file);
uint32_t yalivucu_file_level(const uint8_t *data, size_t data_len, size_t level, struct yalivucu_level_place *out);

/* A picture whose bytes arrive in pieces of any length, 0 included: each block is painted as soon
 * as it is whole, and at most 15 bytes are kept in between. The caller owns the state, which is of
 * fixed size, needs no end and may be copied; its members are for the functions below alone.
 *
 *     struct yalivucu_pieces state;
 *     size_t painted, unused;
 *     uint32_t answer = yalivucu_pieces_etc1(&state, width, height, pitch, image, image_len);
 *     while (!answer && (n = read(cable, bytes, sizeof bytes)) > 0)
 *         answer = yalivucu_pieces_take(&state, bytes, n, image, image_len, &painted, &unused);
 *     if (!answer) answer = yalivucu_pieces_end(&state);
 *
 * Starting writes the state and answers 0, 1, 12 or 3; it only measures the image. A piece is lent
 * the image again: with answer 0 it painted *painted blocks and did not use the last *unused of its
 * bytes, which lie behind the last block; too short an image is answered 3, and then nothing is
 * taken or changed, *painted is 0 and *unused is bytes_len. The end is 0 where every block is
 * painted and 2 where not; what is painted stays. After a start that was refused with 1 or 12 the
 * pieces and the end get that answer again. Where the image comes back each time as it was
 * left, neither the picture nor the answers' total depend on where the bytes were cut.
 *
 * Every content of the state is a state: a spoilt one gets another picture, or is answered 1, 12, 3
 * or 2, and no element outside of what its picture needs is written. The pointers to the state, to
 * painted and to unused are not NULL, and nothing overlaps. */
struct yalivucu_pieces {
    size_t numbers_[5];
    uint8_t kept_[15];
};

uint32_t yalivucu_start_etc1(size_t width, size_t height, size_t pitch, const uint32_t *image, size_t image_len, size_t *numbers, uint8_t *kept);
uint32_t yalivucu_start_etc2_rgb(size_t width, size_t height, size_t pitch, const uint32_t *image, size_t image_len, size_t *numbers, uint8_t *kept);
uint32_t yalivucu_start_etc2_rgba1(size_t width, size_t height, size_t pitch, const uint32_t *image, size_t image_len, size_t *numbers, uint8_t *kept);
uint32_t yalivucu_start_etc2_rgba8(size_t width, size_t height, size_t pitch, const uint32_t *image, size_t image_len, size_t *numbers, uint8_t *kept);
uint32_t yalivucu_start_eacr(size_t width, size_t height, size_t pitch, const uint32_t *image, size_t image_len, size_t *numbers, uint8_t *kept);
uint32_t yalivucu_start_eacr_signed(size_t width, size_t height, size_t pitch, const uint32_t *image, size_t image_len, size_t *numbers, uint8_t *kept);
uint32_t yalivucu_start_eacrg(size_t width, size_t height, size_t pitch, const uint32_t *image, size_t image_len, size_t *numbers, uint8_t *kept);
uint32_t yalivucu_start_eacrg_signed(size_t width, size_t height, size_t pitch, const uint32_t *image, size_t image_len, size_t *numbers, uint8_t *kept);
uint32_t yalivucu_start_bc1(size_t width, size_t height, size_t pitch, const uint32_t *image, size_t image_len, size_t *numbers, uint8_t *kept);
uint32_t yalivucu_start_bc1a(size_t width, size_t height, size_t pitch, const uint32_t *image, size_t image_len, size_t *numbers, uint8_t *kept);
uint32_t yalivucu_start_bc3(size_t width, size_t height, size_t pitch, const uint32_t *image, size_t image_len, size_t *numbers, uint8_t *kept);
uint32_t yalivucu_start_bc7(size_t width, size_t height, size_t pitch, const uint32_t *image, size_t image_len, size_t *numbers, uint8_t *kept);
uint32_t yalivucu_start_bc2(size_t width, size_t height, size_t pitch, const uint32_t *image, size_t image_len, size_t *numbers, uint8_t *kept);
uint32_t yalivucu_start_bc4(size_t width, size_t height, size_t pitch, const uint32_t *image, size_t image_len, size_t *numbers, uint8_t *kept);
uint32_t yalivucu_start_bc4_signed(size_t width, size_t height, size_t pitch, const uint32_t *image, size_t image_len, size_t *numbers, uint8_t *kept);
uint32_t yalivucu_start_bc5(size_t width, size_t height, size_t pitch, const uint32_t *image, size_t image_len, size_t *numbers, uint8_t *kept);
uint32_t yalivucu_start_bc5_signed(size_t width, size_t height, size_t pitch, const uint32_t *image, size_t image_len, size_t *numbers, uint8_t *kept);
uint32_t yalivucu_take_piece(size_t *numbers, uint8_t *kept, const uint8_t *bytes, size_t bytes_len, uint32_t *image, size_t image_len, size_t *painted, size_t *unused);
uint32_t yalivucu_end_pieces(const size_t *numbers, const uint8_t *kept);

static inline uint32_t yalivucu_pieces_etc1(struct yalivucu_pieces *state, size_t width, size_t height, size_t pitch, const uint32_t *image, size_t image_len)
{
    return yalivucu_start_etc1(width, height, pitch, image, image_len, state->numbers_, state->kept_);
}
static inline uint32_t yalivucu_pieces_etc2_rgb(struct yalivucu_pieces *state, size_t width, size_t height, size_t pitch, const uint32_t *image, size_t image_len)
{
    return yalivucu_start_etc2_rgb(width, height, pitch, image, image_len, state->numbers_, state->kept_);
}
static inline uint32_t yalivucu_pieces_etc2_rgba1(struct yalivucu_pieces *state, size_t width, size_t height, size_t pitch, const uint32_t *image, size_t image_len)
{
    return yalivucu_start_etc2_rgba1(width, height, pitch, image, image_len, state->numbers_, state->kept_);
}
static inline uint32_t yalivucu_pieces_etc2_rgba8(struct yalivucu_pieces *state, size_t width, size_t height, size_t pitch, const uint32_t *image, size_t image_len)
{
    return yalivucu_start_etc2_rgba8(width, height, pitch, image, image_len, state->numbers_, state->kept_);
}
static inline uint32_t yalivucu_pieces_eacr(struct yalivucu_pieces *state, size_t width, size_t height, size_t pitch, const uint32_t *image, size_t image_len)
{
    return yalivucu_start_eacr(width, height, pitch, image, image_len, state->numbers_, state->kept_);
}
static inline uint32_t yalivucu_pieces_eacr_signed(struct yalivucu_pieces *state, size_t width, size_t height, size_t pitch, const uint32_t *image, size_t image_len)
{
    return yalivucu_start_eacr_signed(width, height, pitch, image, image_len, state->numbers_, state->kept_);
}
static inline uint32_t yalivucu_pieces_eacrg(struct yalivucu_pieces *state, size_t width, size_t height, size_t pitch, const uint32_t *image, size_t image_len)
{
    return yalivucu_start_eacrg(width, height, pitch, image, image_len, state->numbers_, state->kept_);
}
static inline uint32_t yalivucu_pieces_eacrg_signed(struct yalivucu_pieces *state, size_t width, size_t height, size_t pitch, const uint32_t *image, size_t image_len)
{
    return yalivucu_start_eacrg_signed(width, height, pitch, image, image_len, state->numbers_, state->kept_);
}
static inline uint32_t yalivucu_pieces_bc1(struct yalivucu_pieces *state, size_t width, size_t height, size_t pitch, const uint32_t *image, size_t image_len)
{
    return yalivucu_start_bc1(width, height, pitch, image, image_len, state->numbers_, state->kept_);
}
static inline uint32_t yalivucu_pieces_bc1a(struct yalivucu_pieces *state, size_t width, size_t height, size_t pitch, const uint32_t *image, size_t image_len)
{
    return yalivucu_start_bc1a(width, height, pitch, image, image_len, state->numbers_, state->kept_);
}
static inline uint32_t yalivucu_pieces_bc3(struct yalivucu_pieces *state, size_t width, size_t height, size_t pitch, const uint32_t *image, size_t image_len)
{
    return yalivucu_start_bc3(width, height, pitch, image, image_len, state->numbers_, state->kept_);
}
static inline uint32_t yalivucu_pieces_bc7(struct yalivucu_pieces *state, size_t width, size_t height, size_t pitch, const uint32_t *image, size_t image_len)
{
    return yalivucu_start_bc7(width, height, pitch, image, image_len, state->numbers_, state->kept_);
}
static inline uint32_t yalivucu_pieces_bc2(struct yalivucu_pieces *state, size_t width, size_t height, size_t pitch, const uint32_t *image, size_t image_len)
{
    return yalivucu_start_bc2(width, height, pitch, image, image_len, state->numbers_, state->kept_);
}
static inline uint32_t yalivucu_pieces_bc4(struct yalivucu_pieces *state, size_t width, size_t height, size_t pitch, const uint32_t *image, size_t image_len)
{
    return yalivucu_start_bc4(width, height, pitch, image, image_len, state->numbers_, state->kept_);
}
static inline uint32_t yalivucu_pieces_bc4_signed(struct yalivucu_pieces *state, size_t width, size_t height, size_t pitch, const uint32_t *image, size_t image_len)
{
    return yalivucu_start_bc4_signed(width, height, pitch, image, image_len, state->numbers_, state->kept_);
}
static inline uint32_t yalivucu_pieces_bc5(struct yalivucu_pieces *state, size_t width, size_t height, size_t pitch, const uint32_t *image, size_t image_len)
{
    return yalivucu_start_bc5(width, height, pitch, image, image_len, state->numbers_, state->kept_);
}
static inline uint32_t yalivucu_pieces_bc5_signed(struct yalivucu_pieces *state, size_t width, size_t height, size_t pitch, const uint32_t *image, size_t image_len)
{
    return yalivucu_start_bc5_signed(width, height, pitch, image, image_len, state->numbers_, state->kept_);
}
static inline uint32_t yalivucu_pieces_take(struct yalivucu_pieces *state, const uint8_t *bytes, size_t bytes_len, uint32_t *image, size_t image_len, size_t *painted, size_t *unused)
{
    return yalivucu_take_piece(state->numbers_, state->kept_, bytes, bytes_len, image, image_len, painted, unused);
}
static inline uint32_t yalivucu_pieces_end(const struct yalivucu_pieces *state)
{
    return yalivucu_end_pieces(state->numbers_, state->kept_);
}

/* From colour to degrees. A legend says what a pixel's red means: a level predicts its one value at
 * every red; a line low + step * red; a bend that line up to red 128, and beyond it
 * (low + step * 128) + second * (red - 128). Each operation rounds once, to the nearest float; none
 * is fused, whatever the flags of the program that calls. (The processor has to round to nearest and to
 * keep subnormals, as a program begins; one linked with -ffast-math does not.) What a kind does not have
 * is not looked at.
 *
 * Legend and picture each name a digit, 0 thumb to 4 little. With answer 0 the reading is what the
 * legend predicts at the pixel, what was measured, and predicted minus measured; with any other answer
 * it is not written. None of its values is infinite or a NaN. The pointers are not NULL, and point to
 * different floats. */
enum yalivucu_kind {
    YALIVUCU_LEVEL = 0,
    YALIVUCU_LINE = 1,
    YALIVUCU_BEND = 2
};

struct yalivucu_legend {
    size_t kind;
    float low; /* of a level, its value */
    float step;
    float second;
};

struct yalivucu_reading {
    float predicted;
    float measured;
    float difference;
};

uint32_t yalivucu_read_degrees(size_t kind, float low, float step, float second, size_t legend_digit, size_t picture_digit, uint32_t pixel, float measured, float *predicted, float *seen, float *difference);

static inline uint32_t yalivucu_degrees(struct yalivucu_legend legend, size_t legend_digit, size_t picture_digit, uint32_t pixel, float measured, struct yalivucu_reading *reading)
{
    return yalivucu_read_degrees(legend.kind, legend.low, legend.step, legend.second, legend_digit, picture_digit, pixel, measured, &reading->predicted, &reading->measured, &reading->difference);
}
static inline struct yalivucu_legend yalivucu_level(float value)
{
    struct yalivucu_legend legend = {YALIVUCU_LEVEL, value, 0, 0};
    return legend;
}
static inline struct yalivucu_legend yalivucu_line(float low, float step)
{
    struct yalivucu_legend legend = {YALIVUCU_LINE, low, step, 0};
    return legend;
}
static inline struct yalivucu_legend yalivucu_bend(float low, float step, float second)
{
    struct yalivucu_legend legend = {YALIVUCU_BEND, low, step, second};
    return legend;
}

#ifdef __cplusplus
}
#endif

#endif
