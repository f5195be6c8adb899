/* Opens the files that come on standard input, each a length of eight bytes, the lowest first, and the bytes, and says of each in one
   line what the library answers: what is told of the file, and behind bars what is told of each level, of the level behind the last, and
   of the largest number; or the refusals. With the word "pixels" the line is followed by the pixels of every level. It ends with 1 where
   something is written that must not be, where a level does not lie in the file, or where a reader refuses one. */
#include "yalivucu.h"
#include <inttypes.h>
#include <stdio.h>
#include <stdlib.h>
#include <string.h>

typedef uint32_t picture_reader(const uint8_t *, size_t, size_t, size_t, uint32_t *, size_t);

/* By the numbers of the formats. */
static picture_reader *const READER[] = {
    yalivucu_decode_etc1, yalivucu_decode_etc2_rgb, yalivucu_decode_etc2_rgba1, yalivucu_decode_etc2_rgba8,
    yalivucu_decode_eacr, yalivucu_decode_eacr_signed, yalivucu_decode_eacrg, yalivucu_decode_eacrg_signed,
    yalivucu_decode_bc1, yalivucu_decode_bc1a, yalivucu_decode_bc3, yalivucu_decode_bc7,
    yalivucu_decode_bc2, yalivucu_decode_bc4, yalivucu_decode_bc4_signed, yalivucu_decode_bc5, yalivucu_decode_bc5_signed,
};

static void need(int fact, const char *what)
{
    if (fact) return;
    fprintf(stderr, "files: %s\n", what);
    exit(1);
}

static void *room(size_t size)
{
    void *made = malloc(size ? size : 1);
    need(made != NULL, "no memory");
    return made;
}

/* The next file, in memory of exactly its length, so that valgrind sees a read beyond its end; NULL behind the last. */
static uint8_t *next(size_t *length)
{
    uint8_t head[8];
    if (fread(head, 1, 8, stdin) != 8) return NULL;
    *length = 0;
    for (int k = 8; k-- > 0;) *length = *length << 8 | head[k];
    uint8_t *data = room(*length);
    need(fread(data, 1, *length, stdin) == *length, "a file is cut short");
    return data;
}

static void show_level(const uint8_t *data, size_t length, size_t n)
{
    struct yalivucu_level_place level, stood;
    memset(&level, 0xA5, sizeof level);
    stood = level;
    uint32_t answer = yalivucu_file_level(data, length, n, &level);
    printf(" | %" PRIu32, answer);
    if (answer) {
        need(!memcmp(&level, &stood, sizeof level), "a refusal wrote a level");
        return;
    }
    need(level.start <= length && level.length <= length - level.start, "a level does not lie in its file");
    printf(" %" PRIu64 " %" PRIu64 " %" PRIu64 " %" PRIu64, level.width, level.height, level.start, level.length);
}

static void show_pixels(const uint8_t *data, size_t length, const struct yalivucu_file *file)
{
    for (size_t n = 0; n < file->levels; n++) {
        struct yalivucu_level_place level;
        need(!yalivucu_file_level(data, length, n, &level), "a level is refused");
        need(file->format < sizeof READER / sizeof *READER, "a format without a reader");
        size_t elements = level.width * level.height;
        uint32_t *image = room(4 * elements);
        picture_reader *reader = READER[file->format];
        need(!reader(data + level.start, level.length, level.width, level.height, image, elements), "a reader refuses a level");
        need(fwrite(image, 4, elements, stdout) == elements, "cannot write");
        free(image);
    }
}

static void show(const uint8_t *data, size_t length, int pixels)
{
    struct yalivucu_file file, stood;
    memset(&file, 0xA5, sizeof file);
    stood = file;
    uint32_t answer = yalivucu_open_file(data, length, &file);
    printf("%" PRIu32, answer);
    if (answer) {
        need(!memcmp(&file, &stood, sizeof file), "a refusal wrote what it tells");
        file.levels = 0;
    } else
        printf(" %" PRIu64 " %" PRIu64 " %" PRIu64 " %" PRIu64 " %" PRIu64 " %" PRIu64 " %" PRIu64 " %" PRIu64 " %" PRIu64, file.container,
               file.format, file.srgb, file.width, file.height, file.levels, file.big_endian, file.orientation, file.left_over);
    for (size_t n = 0; n <= file.levels; n++) show_level(data, length, n);
    show_level(data, length, SIZE_MAX);
    putchar('\n');
    if (pixels && !answer) show_pixels(data, length, &file);
}

int main(int count, char **words)
{
    int pixels = count > 1 && !strcmp(words[1], "pixels");
    size_t length;
    for (uint8_t *data; (data = next(&length)); free(data)) show(data, length, pixels);
    need(!ferror(stdin) && !fflush(stdout), "cannot read or write");
    return 0;
}
