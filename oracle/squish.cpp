/* libsquish as a decoder, speaking PROTOCOL.md for BC1 with alpha, for BC2 and for BC3, and accepted cases alone. */
#include <squish.h>
#include <cstdint>
#include <cstdio>
#include <cstdlib>

enum { MOST_DATA = 262144, MOST_IMAGE = 65536, BC1A = 9, BC3 = 10, BC2 = 12 };

static void need(bool fact, const char *what)
{
    if (fact) return;
    fprintf(stderr, "squish: %s\n", what);
    exit(1);
}

/* One block into its tile, clipped. squish writes red, green, blue, alpha. */
static void block(const uint8_t *data, int flags, uint32_t left, uint32_t top, const uint64_t *head, uint32_t *image)
{
    squish::u8 rgba[64];
    squish::Decompress(rgba, data, flags);
    for (uint32_t k = 0; k < 16; k++) {
        const uint32_t x = left + k % 4, y = top + k / 4;
        const squish::u8 *p = rgba + 4 * k;
        if (x < head[4] && y < head[5])
            image[y * head[4] + x] = (uint32_t)p[3] << 24 | (uint32_t)p[0] << 16 | (uint32_t)p[1] << 8 | p[2];
    }
}

int main()
{
    static uint8_t data[MOST_DATA];
    static uint64_t head[8]; /* number, a, b, c, width, height, bytes, elements */
    static uint32_t image[MOST_IMAGE];
    const uint32_t done[2] = {0, 0};
    while (fread(head, 8, 8, stdin) == 8) {
        need((head[0] == BC1A || head[0] == BC2 || head[0] == BC3) && head[6] <= MOST_DATA && head[7] <= MOST_IMAGE, "no such case here");
        need(fread(data, 1, head[6], stdin) == head[6], "data cut short");
        need(fread(image, 4, head[7], stdin) == head[7], "image cut short");
        need(head[7] == head[4] * head[5], "only pictures of the exact length");
        const uint32_t width = (uint32_t)head[4], height = (uint32_t)head[5];
        const uint32_t size = head[0] == BC1A ? 8 : 16, across = (width + 3) / 4, down = (height + 3) / 4;
        need(head[6] >= across * down * size, "only whole pictures");
        const int flags = head[0] == BC1A ? squish::kDxt1 : head[0] == BC2 ? squish::kDxt3 : squish::kDxt5;
        for (uint32_t n = 0; n < across * down; n++)
            block(data + n * size, flags, n % across * 4, n / across * 4, head, image);
        fwrite(done, 4, 2, stdout);
        fwrite(image, 4, head[7], stdout);
        fflush(stdout);
    }
    return 0;
}
