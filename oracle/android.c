/* Android's libETC1 as a decoder, speaking PROTOCOL.md for ETC1 pictures and accepted
   cases alone. It reads sums out of range as well. */
#include <ETC1/etc1.h>
#include <stdint.h>
#include <stdio.h>
#include <stdlib.h>

enum { MOST_DATA = 262144, MOST_IMAGE = 65536 };

static void need(int fact, const char *what)
{
    if (fact) return;
    fprintf(stderr, "android: %s\n", what);
    exit(1);
}

int main(void)
{
    static uint8_t data[MOST_DATA], rgb[MOST_IMAGE * 3];
    static uint64_t head[8]; /* number, a, b, c, width, height, bytes, elements */
    static uint32_t image[MOST_IMAGE];
    const uint32_t done[2] = {0, 0};
    while (fread(head, 8, 8, stdin) == 8) {
        need(head[0] == 0 && head[6] <= MOST_DATA && head[7] <= MOST_IMAGE, "no such case here");
        need(fread(data, 1, head[6], stdin) == head[6], "data cut short");
        need(fread(image, 4, head[7], stdin) == head[7], "image cut short");
        need(head[7] == head[4] * head[5], "only images of the exact length");
        need(etc1_decode_image(data, rgb, (etc1_uint32)head[4], (etc1_uint32)head[5], 3, (etc1_uint32)head[4] * 3) == 0, "refused");
        for (uint32_t k = 0; k < head[7]; k++)
            image[k] = 0xff000000u | (uint32_t)rgb[3 * k] << 16 | (uint32_t)rgb[3 * k + 1] << 8 | rgb[3 * k + 2];
        fwrite(done, 4, 2, stdout);
        fwrite(image, 4, head[7], stdout);
        fflush(stdout);
    }
    return 0;
}
