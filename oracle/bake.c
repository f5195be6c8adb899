/* A search through every code and every choice of indices, half by half, over the pixels
   that Android's libETC1 shows; and the library's checker and baker held to it.

       bake [SEED [TILES]]      compares, and ends with 0 where nothing differs
       bake --rows COUNT        prints rows, as crates/rules/proofs/Bakings.antt has eight of

   What it takes from document 01 is where the bases, the codes and the flip stand in a
   block. Which pixels a half has, where a pixel's index bits stand and what they show, it
   asks Android's decoder. */
#include <ETC1/etc1.h>
#include <stdint.h>
#include <stdio.h>
#include <stdlib.h>
#include <string.h>
#ifndef ROWS_ALONE
#include "yalivucu.h"
#endif

typedef struct { uint8_t base[2][3]; unsigned flip; uint32_t tile[16]; } Case;
typedef struct { uint8_t rgb[16][3]; } Pixels;

static unsigned place[16];   /* the bit of a pixel's index in either word */
static unsigned halves[2][16]; /* by flip: the half of a pixel */

static void put(uint8_t *block, const Case *c, unsigned first, unsigned second, unsigned high, unsigned low)
{
    for (int k = 0; k < 3; k++) block[k] = (uint8_t)(c->base[0][k] << 4 | c->base[1][k]);
    block[3] = (uint8_t)(first << 5 | second << 2 | c->flip);
    block[4] = (uint8_t)(high >> 8), block[5] = (uint8_t)high;
    block[6] = (uint8_t)(low >> 8), block[7] = (uint8_t)low;
}

static Pixels shown(const uint8_t *block)
{
    Pixels p;
    etc1_decode_block(block, &p.rgb[0][0]);
    return p;
}

static void learn(void)
{
    uint8_t block[8];
    Case c = {{{8, 8, 8}, {8, 8, 8}}, 0, {0}};
    put(block, &c, 0, 0, 0, 0);
    Pixels plain = shown(block);
    for (unsigned bit = 0; bit < 16; bit++) {
        put(block, &c, 0, 0, 0, 1u << bit);
        Pixels p = shown(block);
        for (int k = 0; k < 16; k++)
            if (memcmp(p.rgb[k], plain.rgb[k], 3) != 0) place[k] = bit;
    }
    memset(c.base[1], 15, 3);
    for (c.flip = 0; c.flip < 2; c.flip++) {
        put(block, &c, 0, 0, 0, 0);
        Pixels p = shown(block);
        for (int k = 0; k < 16; k++) halves[c.flip][k] = p.rgb[k][0] > 200;
    }
}

static unsigned apart(unsigned a, unsigned b) { return a < b ? b - a : a - b; }
static unsigned channel(uint32_t pixel, int k) { return pixel >> (16 - 8 * k) & 255; }

static unsigned differ(const uint8_t *rgb, uint32_t pixel)
{
    unsigned sum = 0;
    for (int k = 0; k < 3; k++) sum += apart(rgb[k], channel(pixel, k));
    return sum;
}

static unsigned largest(const uint8_t *block, const uint32_t *tile)
{
    Pixels p = shown(block);
    unsigned most = 0;
    for (int k = 0; k < 16; k++)
        for (int j = 0; j < 3; j++)
            if (most < apart(p.rgb[k][j], channel(tile[k], j))) most = apart(p.rgb[k][j], channel(tile[k], j));
    return most;
}

static unsigned cost(const uint8_t *block, const uint32_t *tile)
{
    Pixels p = shown(block);
    unsigned sum = 0;
    for (int k = 0; k < 16; k++) sum += differ(p.rgb[k], tile[k]);
    return sum;
}

/* Every choice of eight indices, in order; the first of those with the least sum is kept. */
typedef struct { unsigned part[8][4], now[8], best[8], least, code; } Search;

static void choose(Search *s, unsigned at, unsigned sum, unsigned code)
{
    if (at == 8) {
        if (sum >= s->least) return;
        s->least = sum, s->code = code;
        memcpy(s->best, s->now, sizeof s->now);
        return;
    }
    for (s->now[at] = 0; s->now[at] < 4; s->now[at]++) choose(s, at + 1, sum + s->part[at][s->now[at]], code);
}

static void bake(const Case *c, uint8_t *block)
{
    unsigned codes[2], high = 0, low = 0;
    for (unsigned half = 0; half < 2; half++) {
        unsigned own[8], n = 0;
        for (unsigned k = 0; k < 16; k++)
            if (halves[c->flip][k] == half) own[n++] = k;
        Search s = {.least = ~0u};
        for (unsigned code = 0; code < 8; code++) {
            for (unsigned index = 0; index < 4; index++) {
                put(block, c, code, code, index / 2 * 0xFFFF, index % 2 * 0xFFFF);
                Pixels p = shown(block);
                for (unsigned j = 0; j < 8; j++) s.part[j][index] = differ(p.rgb[own[j]], c->tile[own[j]]);
            }
            choose(&s, 0, 0, code);
        }
        codes[half] = s.code;
        for (unsigned j = 0; j < 8; j++) {
            high |= s.best[j] / 2 << place[own[j]];
            low |= s.best[j] % 2 << place[own[j]];
        }
    }
    put(block, c, codes[0], codes[1], high, low);
}

/* Tiles: any, near the bases, of few values, flat, and with a slope. */
static uint64_t state;
static uint32_t drawn(void)
{
    state ^= state << 13, state ^= state >> 7, state ^= state << 17;
    return (uint32_t)(state >> 16);
}

static uint32_t close_to(const uint8_t *base, unsigned reach)
{
    uint32_t pixel = drawn() << 24;
    for (int k = 0; k < 3; k++) {
        int v = base[k] * 17 + (int)(drawn() % (2 * reach + 1)) - (int)reach;
        pixel |= (uint32_t)(v < 0 ? 0 : v > 255 ? 255 : v) << (16 - 8 * k);
    }
    return pixel;
}

static Case some(unsigned kind)
{
    static const uint8_t few[4] = {0, 255, 17, 238};
    Case c = {.flip = drawn() % 2};
    for (int k = 0; k < 6; k++) c.base[k / 3][k % 3] = (uint8_t)(kind % 2 ? drawn() % 16 : drawn() % 2 * 15);
    uint32_t flat = drawn(), slope = drawn() & 0x070707;
    for (unsigned k = 0; k < 16; k++) {
        const uint8_t *base = c.base[halves[c.flip][k]];
        switch (kind % 10 / 2) {
        case 0: c.tile[k] = drawn(); break;
        case 1: c.tile[k] = close_to(base, 1u << drawn() % 8); break;
        case 2: c.tile[k] = drawn() << 24 | few[drawn() % 4] << 16 | few[drawn() % 4] << 8 | few[drawn() % 4]; break;
        case 3: c.tile[k] = kind % 3 ? flat : close_to(base, 0); break;
        default: c.tile[k] = (flat & 0x7F7F7F) + k * slope;
        }
    }
    return c;
}

static void print_rows(unsigned long count)
{
    state = 0x112;
    for (unsigned n = 0; n < count; n++) {
        Case c = some(n);
        uint8_t block[8];
        bake(&c, block);
        printf("    ∷ bakes 0x");
        for (int k = 0; k < 3; k++) printf("%X", c.base[0][k]);
        printf(" 0x");
        for (int k = 0; k < 3; k++) printf("%X", c.base[1][k]);
        printf(" %u 0x", c.flip);
        for (int k = 0; k < 16; k++) printf("%08X", c.tile[k]);
        printf(" 0x");
        for (int k = 0; k < 8; k++) printf("%02X", block[k]);
        printf(" %u %u\n", cost(block, c.tile), largest(block, c.tile));
    }
}

#ifndef ROWS_ALONE
static unsigned long wrong, tries[4];

static void held(int fact, const char *what, const Case *c)
{
    if (fact || wrong++ > 9) return;
    printf("%s: flip %u, bases", what, c->flip);
    for (int k = 0; k < 6; k++) printf(" %u", c->base[k / 3][k % 3]);
    for (int k = 0; k < 16; k++) printf(" %08x", c->tile[k]);
    printf("\n");
}

static uint32_t asked(const uint8_t *block, const Case *c, uint32_t tolerance)
{
    tries[1]++;
    return yalivucu_check_etc1_block(block, 8, c->tile, 16, tolerance);
}

static void baked(const Case *c)
{
    uint8_t due[8], room[12];
    size_t length = 8 + drawn() % 5;
    bake(c, due);
    memset(room, 0xEE, sizeof room);
    tries[0]++;
    held(yalivucu_bake_etc1_block(c->base[0], c->base[1], c->flip, c->tile, 16, room, length) == 0, "refused", c);
    held(memcmp(room, due, 8) == 0, "other bytes than the search", c);
    for (size_t k = 8; k < sizeof room; k++) held(room[k] == 0xEE, "a ninth byte", c);
    unsigned most = largest(room, c->tile);
    held(asked(room, c, most) == 0, "not accepted at its largest difference", c);
    held(asked(room, c, most + drawn() % 1000) == 0, "not accepted above it", c);
    if (most > 0) held(asked(room, c, most - 1) == 18, "accepted below it", c);
}

static int out_of_range(const uint8_t *block)
{
    for (int k = 0; k < 3; k++) {
        int sum = block[k] / 8 + (block[k] % 8 < 4 ? block[k] % 8 : block[k] % 8 - 8);
        if (block[3] / 2 % 2 && (sum < 0 || sum > 31)) return 1;
    }
    return 0;
}

/* Any block, and a tile that is what it shows or a little off it. */
static void checked(void)
{
    uint8_t block[8];
    Case c = {.flip = 9};
    for (int k = 0; k < 8; k++) block[k] = (uint8_t)drawn();
    Pixels p = shown(block);
    for (int k = 0; k < 16; k++)
        c.tile[k] = drawn() << 24 | (uint32_t)p.rgb[k][0] << 16 | (uint32_t)p.rgb[k][1] << 8 | p.rgb[k][2];
    if (drawn() % 4) c.tile[drawn() % 16] ^= 1u << drawn() % 24;
    unsigned most = largest(block, c.tile), out = out_of_range(block);
    for (unsigned t = most ? most - 1 : 0; t <= most + 1; t++)
        held(asked(block, &c, t) == (out || t < most ? 18u : 0u), "another verdict", &c);
    tries[2] += out;
}

/* 16, then 2, then 3, and nothing written. */
static void refused(void)
{
    static const uint8_t channels[4] = {0, 15, 16, 255};
    static const size_t flips[5] = {0, 1, 2, 256, (size_t)-1}, rooms[4] = {0, 7, 8, 9}, tiles[4] = {0, 15, 16, 17};
    uint32_t tile[17] = {0};
    for (unsigned at = 0; at < 6; at++)
        for (unsigned n = 0; n < 4 * 5 * 4 * 4; n++) {
            Case c = {.flip = 0};
            uint8_t room[9];
            memset(room, 0xEE, sizeof room);
            c.base[at / 3][at % 3] = channels[n % 4];
            size_t flip = flips[n / 4 % 5], space = rooms[n / 20 % 4], length = tiles[n / 80];
            uint32_t due = channels[n % 4] > 15 || flip > 1 ? 16 : space < 8 ? 2 : length < 16 ? 3 : 0;
            uint32_t got = yalivucu_bake_etc1_block(c.base[0], c.base[1], flip, tile, length, room, space);
            held(got == due, "another answer", &c);
            for (size_t k = due ? 0 : 8; k < sizeof room; k++) held(room[k] == 0xEE, "a refusal wrote", &c);
            due = space < 8 ? 2 : length < 16 ? 3 : 0; /* what is there is in range, and every difference at most 255 */
            held(yalivucu_check_etc1_block(room, space, tile, length, 255) == due, "another answer of the checker", &c);
            tries[3]++;
        }
}
#endif

int main(int argc, char **argv)
{
    learn();
    if (argc > 2 && strcmp(argv[1], "--rows") == 0) return print_rows(strtoul(argv[2], NULL, 10)), 0;
#ifndef ROWS_ALONE
    state = 0x9E3779B97F4A7C15u ^ strtoull(argc > 1 ? argv[1] : "1", NULL, 10);
    unsigned long tiles = strtoul(argc > 2 ? argv[2] : "20000", NULL, 10);
    for (unsigned n = 0; n < tiles; n++) {
        Case c = some(n);
        baked(&c);
        checked();
    }
    refused();
    printf("%lu tiles baked, %lu questions to the checker (%lu blocks out of range), %lu calls with a refusal due or just not\n",
        tries[0], tries[1], tries[2], tries[3]);
    printf("%lu differences\n", wrong);
#endif
    return
#ifndef ROWS_ALONE
        wrong != 0 ||
#endif
        0;
}
