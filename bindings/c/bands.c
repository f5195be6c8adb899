/* A picture on several processors: cut between rows of blocks into bands, each read on a thread of its own from its own bytes
 * into its own part of the image. An example to copy from; main holds it to the plain reader. */
#include "yalivucu.h"
#include <pthread.h>
#include <stdio.h>
#include <stdlib.h>
#include <string.h>

enum { MOST = 16 };

typedef uint32_t reader(const uint8_t *, size_t, size_t, size_t, size_t, uint32_t *, size_t);

/* some rows of blocks of a picture, as a picture of their own */
struct band {
    reader *read;
    const uint8_t *data;
    size_t data_len, width, height, pitch;
    uint32_t *image;
    size_t image_len;
    uint32_t answer;
};

static void *read_band(void *given)
{
    struct band *band = given;
    band->answer = band->read(band->data, band->data_len, band->width, band->height, band->pitch, band->image, band->image_len);
    return NULL;
}

static size_t smaller(size_t a, size_t b)
{
    return a < b ? a : b;
}

/* Reads a picture in so many bands, up to MOST. The checks are the reader's: of a picture that has a row for each band it is asked
 * before anything is cut, with no data; it answers 2 where nothing else comes first, and then the lengths are all that is left. */
static uint32_t read_in_bands(size_t count, reader *read, size_t block, const uint8_t *data, size_t data_len, size_t width,
                              size_t height, size_t pitch, uint32_t *image, size_t image_len)
{
    struct band bands[MOST];
    pthread_t threads[MOST];
    int started[MOST];
    if (count < 1 || count > MOST || width == 0 || height == 0 || read(NULL, 0, width, height, pitch, NULL, 0) != YALIVUCU_SHORT_DATA)
        return read(data, data_len, width, height, pitch, image, image_len);
    const size_t rows = (height + 3) / 4, row = (width + 3) / 4 * block;
    if (data_len / row < rows || image_len < width || (image_len - width) / pitch < height - 1)
        return read(data, data_len, width, height, pitch, image, image_len);
    for (size_t k = 0; k < count; k++) {
        const size_t from = rows * k / count, to = rows * (k + 1) / count;
        const size_t first = from * 4 * pitch, end = to < rows ? to * 4 * pitch : image_len;
        bands[k] = (struct band){read, data + from * row, (to - from) * row, width, smaller(to * 4, height) - from * 4, pitch,
                                 image + first, end - first, 0};
        started[k] = k > 0 && !pthread_create(&threads[k], NULL, read_band, &bands[k]);
    }
    for (size_t k = 0; k < count; k++)
        if (!started[k]) read_band(&bands[k]);
    uint32_t answer = YALIVUCU_DONE;
    for (size_t k = 0; k < count; k++) {
        if (started[k]) pthread_join(threads[k], NULL);
        if (!answer) answer = bands[k].answer;
    }
    return answer;
}

int main(void)
{
    enum { SIDE = 70, GAP = 3 };
    static uint8_t data[SIDE * SIDE];
    static uint32_t plain[SIDE * (SIDE + GAP)], bands[SIDE * (SIDE + GAP)];
    uint64_t random = 88172645463325252u;
    unsigned long reads = 0, refused = 0, failures = 0;
    const struct {
        reader *read;
        size_t block;
    } of[] = {
        {yalivucu_decode_etc1_pitched, 8},       {yalivucu_decode_etc2_rgb_pitched, 8},    {yalivucu_decode_etc2_rgba1_pitched, 8},
        {yalivucu_decode_etc2_rgba8_pitched, 16}, {yalivucu_decode_eacr_pitched, 8},        {yalivucu_decode_eacr_signed_pitched, 8},
        {yalivucu_decode_eacrg_pitched, 16},      {yalivucu_decode_eacrg_signed_pitched, 16}, {yalivucu_decode_bc1_pitched, 8},
        {yalivucu_decode_bc1a_pitched, 8},        {yalivucu_decode_bc3_pitched, 16},
        {yalivucu_decode_bc7_pitched, 16},        {yalivucu_decode_bc2_pitched, 16},        {yalivucu_decode_bc4_pitched, 8},
        {yalivucu_decode_bc4_signed_pitched, 8},  {yalivucu_decode_bc5_pitched, 16},        {yalivucu_decode_bc5_signed_pitched, 16},
    };
    for (size_t k = 0; k < sizeof data; k++) {
        random = random * 6364136223846793005u + 1442695040888963407u;
        data[k] = (uint8_t)(random >> 56);
    }
    for (size_t k = 0; k < sizeof of / sizeof *of; k++) {
        for (size_t height = 0; height <= SIDE; height += 3) {
            for (size_t count = 1; count <= 5; count++) {
                const size_t width = height * 7 % SIDE, pitch = width + height % GAP, short_of = height % 5 == 4;
                const size_t bytes = (width + 3) / 4 * ((height + 3) / 4) * of[k].block;
                const size_t elements = width && height ? (height - 1) * pitch + width : 0;
                const size_t given = bytes - (short_of && bytes ? 1 : 0), room = elements - (count == 5 && elements ? 1 : 0);
                memset(plain, 0x11, sizeof plain);
                memset(bands, 0x11, sizeof bands);
                const uint32_t answer = of[k].read(data, given, width, height, pitch, plain, room);
                const uint32_t told = read_in_bands(count, of[k].read, of[k].block, data, given, width, height, pitch, bands, room);
                failures += told != answer || memcmp(plain, bands, sizeof plain) != 0;
                refused += answer != YALIVUCU_DONE;
                reads++;
            }
        }
    }
    printf("bands: %lu pictures, %lu of them refused, %lu differ from the plain reader\n", reads, refused, failures);
    return failures != 0;
}
