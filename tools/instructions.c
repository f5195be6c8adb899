/* One picture of random blocks, read by one function, for tools/instructions: count FUNCTION. It says what was painted by a sum. */
#include "yalivucu.h"
#ifdef ALONE /* tools/alone.c has these; what is counted stands in another part than this */
#pragma clang section text = "own"
int strcmp(const char *, const char *);
void say(uint32_t sum);
#else
#include <stdio.h>
#include <string.h>
static void say(uint32_t sum) { printf("%08x\n", sum); }
#endif

enum { SIDE = 256, PITCH = 272, BLOCKS = SIDE * SIDE / 16 };

static uint8_t data[BLOCKS * 16];
static uint32_t image[PITCH * SIDE];
static uint16_t sixteens[SIDE * SIDE * 2];

/* the readers that stand beside others, the crate's or plain ones, of blocks of so many bytes */
#define READERS(each) each(etc1, 8) each(etc2_rgb, 8) each(etc2_rgba1, 8) each(etc2_rgba8, 16) each(eacr, 8) each(eacr_signed, 8) \
    each(eacrg, 16) each(eacrg_signed, 16) each(bc1, 8) each(bc1a, 8) each(bc3, 16) each(bc7, 16) \
    each(bc2, 16) each(bc4, 8) each(bc4_signed, 8) each(bc5, 16) each(bc5_signed, 16)

#define DECLARED(name, size) uint32_t given_decode_##name(const uint8_t *, size_t, size_t, size_t, uint32_t *, size_t);
READERS(DECLARED)

/* The picture in pieces of 1,000 bytes, each of which begins in the middle of a block. */
__attribute__((noinline)) uint32_t yalivucu_decode_etc2_rgba8_pieces(void)
{
    struct yalivucu_pieces state;
    size_t painted, unused;
    uint32_t answer = yalivucu_pieces_etc2_rgba8(&state, SIDE, SIDE, SIDE, image, SIDE * SIDE);
    for (size_t at = 0, n = 7; !answer && at < sizeof data; at += n, n = 1000) {
        if (n > sizeof data - at) n = sizeof data - at;
        answer = yalivucu_pieces_take(&state, data + at, n, image, SIDE * SIDE, &painted, &unused);
    }
    return answer ? answer : yalivucu_pieces_end(&state);
}

/* makes individual blocks of those that strict ETC1 refuses */
static void in_range(void)
{
    for (size_t at = 0; at < BLOCKS * 8; at += 8)
        for (size_t k = 0; k < 3; k++) {
            const int sum = data[at + k] / 8 + (data[at + k] + 4) % 8 - 4;
            if (sum < 0 || sum > 31) data[at + 3] &= 0xfd;
        }
}

static uint32_t read_by(const char *function)
{
    size_t block;
#define BY(name, size) \
    if (!strcmp(function, "given_decode_" #name)) return given_decode_##name(data, BLOCKS * size, SIDE, SIDE, image, SIDE * SIDE); \
    if (!strcmp(function, "yalivucu_decode_" #name)) return yalivucu_decode_##name(data, BLOCKS * size, SIDE, SIDE, image, SIDE * SIDE); \
    if (!strcmp(function, "yalivucu_decode_" #name "_pitched")) \
        return yalivucu_decode_##name##_pitched(data, BLOCKS * size, SIDE, SIDE, PITCH, image, PITCH * SIDE);
    READERS(BY)
#define BY_SIXTEENS(name, size, lanes) \
    if (!strcmp(function, "yalivucu_decode_" #name)) \
        return yalivucu_decode_##name(data, BLOCKS * size, SIDE, SIDE, (void *)sixteens, SIDE * SIDE * lanes);
    BY_SIXTEENS(eacr11, 8, 1)
    BY_SIXTEENS(eacr11_signed, 8, 1)
    BY_SIXTEENS(eacrg11, 16, 2)
    BY_SIXTEENS(eacrg11_signed, 16, 2)
    if (!strcmp(function, "yalivucu_decode_etc2_rgba8_pieces")) return yalivucu_decode_etc2_rgba8_pieces();
    if (!strcmp(function, "yalivucu_decode_etc1_strict")) {
        in_range();
        return yalivucu_decode_etc1_strict(data, BLOCKS * 8, SIDE, SIDE, image, SIDE * SIDE, &block);
    }
    if (!strcmp(function, "yalivucu_decode_etc2_rgba1_opaque")) {
        for (size_t at = 3; at < BLOCKS * 8; at += 8) data[at] |= 2;
        return yalivucu_decode_etc2_rgba1_opaque(data, BLOCKS * 8, SIDE, SIDE, image, SIDE * SIDE, &block);
    }
    /* the alpha half alone, each block onto its own sixteen elements */
    if (strcmp(function, "yalivucu_decode_etc2_a8_block")) return 99;
    for (size_t k = 0; k < BLOCKS; k++)
        if (yalivucu_decode_etc2_a8_block(data + k * 8, 8, image + k * 16, 16)) return 99;
    return 0;
}

int main(int argc, char **argv)
{
    uint32_t sum = 0;
    uint64_t random = 88172645463325252u;
    for (size_t k = 0; k < sizeof data; k++) {
        random ^= random << 13;
        random ^= random >> 7;
        random ^= random << 17;
        data[k] = (uint8_t)random;
    }
    if (argc != 2 || read_by(argv[1])) return 2;
    for (size_t k = 0; k < PITCH * SIDE; k++) sum = sum * 31 + image[k];
    for (size_t k = 0; k < SIDE * SIDE * 2; k++) sum = sum * 31 + sixteens[k];
    say(sum);
    return 0;
}
