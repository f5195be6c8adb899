/* Two archives on the same inputs, for bench/archives: whether they answer and write the same, and what time each takes.
 * bench/archives names the functions of one archive old_.. and those of the other new_... */
#define _POSIX_C_SOURCE 200809L
#include <stdint.h>
#include <stdio.h>
#include <stdlib.h>
#include <string.h>
#include <time.h>

enum { SIDE = 2048, RUNS = 5, TURNS = 20, SMALL = 20, LONGEST = 1 << 16 };

typedef uint32_t picture(const uint8_t *, size_t, size_t, size_t, uint32_t *, size_t);
typedef uint32_t baker(const uint8_t *, const uint8_t *, size_t, const uint32_t *, size_t, uint8_t *, size_t);
typedef uint32_t opener(const uint8_t *, size_t, uint64_t *);
typedef uint32_t finder(const uint8_t *, size_t, size_t, uint64_t *);
typedef uint32_t sheet_writer(size_t, size_t, size_t, const uint8_t *, size_t, uint8_t *, size_t, size_t *);

/* each reader of pictures, and the bytes of its blocks */
#define READERS(each) each(etc1, 8) each(etc2_rgb, 8) each(etc2_rgba1, 8) each(etc2_rgba8, 16) each(eacr, 8) each(eacr_signed, 8) \
    each(eacrg, 16) each(eacrg_signed, 16) each(bc1, 8) each(bc1a, 8) each(bc2, 16) each(bc3, 16) each(bc4, 8) each(bc4_signed, 8) \
    each(bc5, 16) each(bc5_signed, 16) each(bc7, 16)
#define DECLARED(name, size) picture old_yalivucu_decode_##name, new_yalivucu_decode_##name;
READERS(DECLARED)
baker old_yalivucu_bake_etc1_block, new_yalivucu_bake_etc1_block;
opener old_yalivucu_open_file, new_yalivucu_open_file;
finder old_yalivucu_file_level, new_yalivucu_file_level;
sheet_writer old_yalivucu_write_sheet;

static const struct reader { const char *name; size_t size; picture *both[2]; } readers[] = {
#define ROW(name, size) {#name, size, {old_yalivucu_decode_##name, new_yalivucu_decode_##name}},
    READERS(ROW)
};
enum { FORMATS = sizeof readers / sizeof *readers };
static baker *const bakers[2] = {old_yalivucu_bake_etc1_block, new_yalivucu_bake_etc1_block};
static opener *const openers[2] = {old_yalivucu_open_file, new_yalivucu_open_file};
static finder *const finders[2] = {old_yalivucu_file_level, new_yalivucu_file_level};

static uint8_t data[SIDE * SIDE], sheet[LONGEST];
static uint32_t image[SIDE * SIDE];
static uint32_t tiles[256][16];
static size_t sheet_length;
static long calls, differ;

static uint64_t next(void)
{
    static uint64_t state = 88172645463325252u;
    state ^= state << 13, state ^= state >> 7;
    return state ^= state << 17;
}

static void count(int same)
{
    calls++;
    differ += !same;
}

/* Pictures of small sizes, with too few bytes or elements now and then, and with equal colours in BC1's place. */
static void compare_pictures(const struct reader *reader)
{
    uint8_t blocks[SMALL * SMALL];
    uint32_t first[SMALL * SMALL], second[SMALL * SMALL];
    for (int turn = 0; turn < 200000; turn++) {
        for (size_t i = 0; i < sizeof blocks; i++) blocks[i] = (uint8_t)next();
        for (size_t i = next() % 32; i + 4 <= sizeof blocks; i += 32) memcpy(blocks + i + 2, blocks + i, 2);
        for (size_t i = 0; i < SMALL * SMALL; i++) first[i] = second[i] = (uint32_t)next();
        size_t width = next() % SMALL, height = next() % SMALL, length = next() % sizeof blocks, room = next() % (SMALL * SMALL);
        uint32_t answer = reader->both[0](blocks, length, width, height, first, room);
        count(answer == reader->both[1](blocks, length, width, height, second, room) && !memcmp(first, second, sizeof first));
    }
}

static void compare_baking(void)
{
    for (int turn = 0; turn < 200000; turn++) {
        uint32_t tile[16], answer[2];
        uint8_t bases[2][3], blocks[2][8] = {{7}, {7}};
        for (int i = 0; i < 16; i++) tile[i] = (uint32_t)next();
        for (int i = 0; i < 6; i++) bases[i / 3][i % 3] = next() % 17;
        size_t flip = next() % 3, pixels = next() % 8 ? 16 : next() % 16, bytes = next() % 8 ? 8 : next() % 8;
        for (int k = 0; k < 2; k++) answer[k] = bakers[k](bases[0], bases[1], flip, tile, pixels, blocks[k], bytes);
        count(answer[0] == answer[1] && !memcmp(blocks[0], blocks[1], 8));
    }
}

/* A file with one or two bytes of its front changed, whole or cut: what is told of it, and of its first three levels. */
static void compare_file(uint8_t *file, size_t length)
{
    for (int turn = 0; turn < 60000; turn++) {
        size_t front = length < 300 ? length : 300, places[2] = {next() % front, next() % front}, cut = next() % 3 ? length : next() % length;
        uint8_t kept[2] = {file[places[0]], file[places[1]]};
        file[places[0]] = (uint8_t)next();
        if (next() % 3 == 0) file[places[1]] = (uint8_t)next();
        for (size_t level = 0; level < 4; level++) {
            uint64_t told[2][16] = {{9}, {9}};
            uint32_t answer[2];
            for (int k = 0; k < 2; k++)
                answer[k] = level < 3 ? finders[k](file, cut, level, told[k]) : openers[k](file, cut, told[k]);
            count(answer[0] == answer[1] && !memcmp(told[0], told[1], sizeof told[0]));
        }
        file[places[1]] = kept[1], file[places[0]] = kept[0];
    }
}

static void compare_named(const char *name)
{
    static uint8_t file[LONGEST];
    FILE *opened = fopen(name, "rb");
    size_t length = opened ? fread(file, 1, sizeof file, opened) : 0;
    if (!length || !feof(opened)) fprintf(stderr, "bench/archives: %s is not read\n", name), exit(2);
    fclose(opened);
    compare_file(file, length);
}

/* What is timed: one call of archive k. */
struct job { const struct reader *reader; size_t side, batch; void (*call)(const struct job *, int k, size_t turn); };

static void call_reader(const struct job *job, int k, size_t turn)
{
    (void)turn;
    job->reader->both[k](data, (job->side / 4) * (job->side / 4) * job->reader->size, job->side, job->side, image, job->side * job->side);
}

static void call_baker(const struct job *job, int k, size_t turn)
{
    static const uint8_t bases[2][3] = {{3, 8, 12}, {9, 2, 5}};
    uint8_t block[8];
    (void)job;
    bakers[k](bases[0], bases[1], turn % 2, tiles[turn % 256], 16, block, 8);
}

static void call_opener(const struct job *job, int k, size_t turn)
{
    uint64_t told[16];
    (void)job, (void)turn;
    openers[k](sheet, sheet_length, told);
}

static void call_finder(const struct job *job, int k, size_t turn)
{
    uint64_t told[16];
    (void)job, (void)turn;
    finders[k](sheet, sheet_length, 0, told);
}

static double now(void)
{
    struct timespec time;
    clock_gettime(CLOCK_PROCESS_CPUTIME_ID, &time);
    return (double)time.tv_sec + 1e-9 * (double)time.tv_nsec;
}

/* The time of one call of archive k, of as many as take so many seconds. */
static double spent(const struct job *job, int k, double seconds)
{
    size_t done = 0;
    double begin = now(), so_far;
    do {
        for (size_t end = done + job->batch; done < end; done++) job->call(job, k, done);
        so_far = now() - begin;
    } while (so_far < seconds);
    return so_far / (double)done;
}

static int by_size(const void *a, const void *b)
{
    double first = *(const double *)a, second = *(const double *)b;
    return (first > second) - (first < second);
}

/* Five runs of each archive, in turns of a twentieth of a run; a line has the median of each, the least and the most, and the ratio. */
static void time_job(const char *name, struct job job, double seconds)
{
    double runs[2][RUNS] = {{0}};
    for (int run = 0; run < RUNS; run++)
        for (int turn = 0; turn < TURNS; turn++)
            for (int k = 0; k < 2; k++) runs[k][run] += spent(&job, k, seconds / TURNS) / TURNS;
    for (int k = 0; k < 2; k++) qsort(runs[k], RUNS, sizeof **runs, by_size);
    printf("%-14s %5zu", name, job.side);
    for (int k = 0; k < 2; k++) printf("%12.1f (%.1f to %.1f)", 1e9 * runs[k][RUNS / 2], 1e9 * runs[k][0], 1e9 * runs[k][RUNS - 1]);
    printf("%8.2f\n", runs[1][RUNS / 2] / runs[0][RUNS / 2]);
    fflush(stdout);
}

static void time_all(double seconds)
{
    puts("what, side, nanoseconds of the old archive and of the new: median (least to most), new by old");
    for (const struct reader *reader = readers; reader < readers + FORMATS; reader++) {
        time_job(reader->name, (struct job){reader, SIDE, 1, call_reader}, seconds);
        time_job(reader->name, (struct job){reader, 64, 100, call_reader}, seconds);
    }
    time_job("bake", (struct job){NULL, 4, 100, call_baker}, seconds);
    time_job("open a sheet", (struct job){NULL, 64, 10000, call_opener}, seconds);
    time_job("its level", (struct job){NULL, 64, 10000, call_finder}, seconds);
}

/* One picture, or 256 tiles, by one function alone, so that valgrind can count it. */
static int call_once(const char *function)
{
    char name[64];
    for (int k = 0; k < 2; k++) {
        const char *prefix = k ? "new" : "old";
        for (size_t i = 0; i < FORMATS; i++) {
            snprintf(name, sizeof name, "%s_yalivucu_decode_%s", prefix, readers[i].name);
            if (!strcmp(name, function)) return call_reader(&(struct job){readers + i, SIDE, 1, NULL}, k, 0), 0;
        }
        snprintf(name, sizeof name, "%s_yalivucu_bake_etc1_block", prefix);
        for (size_t turn = 0; turn < 256 && !strcmp(name, function); turn++) call_baker(NULL, k, turn);
        if (!strcmp(name, function)) return 0;
    }
    fprintf(stderr, "bench/archives: %s is no number of seconds and no function\n", function);
    return 2;
}

int main(int count_of_words, char **words)
{
    char *end;
    double seconds = strtod(words[1], &end);
    for (size_t i = 0; i < sizeof data; i++) data[i] = (uint8_t)next();
    for (size_t i = 0; i < 256 * 16; i++) tiles[i / 16][i % 16] = (uint32_t)next();
    if (end == words[1] || *end) return call_once(words[1]);
    if (old_yalivucu_write_sheet(1, 64, 64, data, 16 * 16 * 8, sheet, sizeof sheet, &sheet_length)) return 2;
    for (int i = 0; i < FORMATS; i++) compare_pictures(readers + i);
    compare_baking();
    compare_file(sheet, sheet_length);
    for (int i = 2; i < count_of_words; i++) compare_named(words[i]);
    printf("%ld calls, %ld differ\n", calls, differ);
    fflush(stdout);
    time_all(seconds);
    return differ != 0;
}
