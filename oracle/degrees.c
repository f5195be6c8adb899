/* The reader of degrees against C's own float arithmetic, by bits: degrees SEED CASES, called by oracle/degrees, which compiles it
 * without fused operations. On standard input it gets the rows of that script, each with the answer that is due; both the rule
 * below and the library are held to them. Then come so many random cases, in which the library is held to the rule. */
#include <float.h>
#include <inttypes.h>
#include <stdio.h>
#include <stdlib.h>
#include <string.h>

#include "yalivucu.h"

#if FLT_EVAL_METHOD != 0
#error "here an operation on floats does not round once"
#endif

#define STOOD 0x5A5A5A5Au /* the bits of each value of a reading before */
#define COUNT(list) (sizeof(list) / sizeof *(list))

static float float_of(uint32_t bits)
{
    float value;
    memcpy(&value, &bits, sizeof value);
    return value;
}

static uint32_t bits_of(float value)
{
    uint32_t bits;
    memcpy(&bits, &value, sizeof bits);
    return bits;
}

struct question {
    size_t kind;
    uint32_t legend[3]; /* bits */
    size_t named, shown;
    uint32_t pixel, measured;
};

struct answer {
    uint32_t number;
    uint32_t reading[3]; /* bits */
};

/* ---- what 02 says of M-111 */

static int lies_in(float value, float most)
{
    return value >= -most && value <= most;
}

static int is_sound(const struct question *q)
{
    if (q->kind > 2 || !lies_in(float_of(q->legend[0]), 720))
        return 0;
    for (size_t i = 1; i <= q->kind; i++)
        if (!lies_in(float_of(q->legend[i]), 8))
            return 0;
    return 1;
}

static float predicted(const struct question *q, unsigned red)
{
    float low = float_of(q->legend[0]), step = float_of(q->legend[1]), second = float_of(q->legend[2]);
    if (q->kind == 0)
        return low;
    if (q->kind == 1 || red <= 128)
        return low + step * (float)red;
    return (low + step * 128.0f) + second * (float)(red - 128);
}

static struct answer due(const struct question *q)
{
    struct answer a = {0, {STOOD, STOOD, STOOD}};
    float measured = float_of(q->measured);
    if (!is_sound(q))
        a.number = 13;
    else if (q->named != q->shown || q->named > 4)
        a.number = 14;
    else if (!lies_in(measured, 720))
        a.number = 15;
    else if (q->pixel >> 24 == 0)
        a.number = 17;
    else {
        float degrees = predicted(q, q->pixel >> 16 & 255);
        a.reading[0] = bits_of(degrees);
        a.reading[1] = bits_of(measured);
        a.reading[2] = bits_of(degrees - measured);
    }
    return a;
}

/* ---- what the library says */

static struct answer told(const struct question *q)
{
    struct yalivucu_legend legend = {q->kind, float_of(q->legend[0]), float_of(q->legend[1]), float_of(q->legend[2])};
    struct yalivucu_reading reading = {float_of(STOOD), float_of(STOOD), float_of(STOOD)};
    struct answer a;
    a.number = yalivucu_degrees(legend, q->named, q->shown, q->pixel, float_of(q->measured), &reading);
    a.reading[0] = bits_of(reading.predicted);
    a.reading[1] = bits_of(reading.measured);
    a.reading[2] = bits_of(reading.difference);
    return a;
}

static unsigned long differences;

static void hold(const char *what, const struct question *q, struct answer is, struct answer should)
{
    if (is.number == should.number && memcmp(is.reading, should.reading, sizeof is.reading) == 0)
        return;
    if (differences++ < 10)
        printf("%s: kind %zu %08" PRIX32 " %08" PRIX32 " %08" PRIX32 ", digits %zu %zu, pixel %08" PRIX32 ", measured %08" PRIX32
               ": %" PRIu32 " %08" PRIX32 " %08" PRIX32 " %08" PRIX32 ", due %" PRIu32 " %08" PRIX32 " %08" PRIX32 " %08" PRIX32 "\n",
               what, q->kind, q->legend[0], q->legend[1], q->legend[2], q->named, q->shown, q->pixel, q->measured, is.number,
               is.reading[0], is.reading[1], is.reading[2], should.number, should.reading[0], should.reading[1], should.reading[2]);
}

/* ---- the cases */

static uint64_t state;

static uint32_t any(void)
{
    state = state * 6364136223846793005u + 1442695040888963407u;
    uint32_t bits = (uint32_t)(((state >> 18) ^ state) >> 27), turn = (uint32_t)(state >> 59);
    return bits >> turn | bits << (-turn & 31);
}

static uint32_t below(uint32_t n)
{
    return any() % n;
}

/* The bits of a float: at an edge of the ranges or of the format, or near it; plain bits; a decimal; or somewhere in -most to most. */
static uint32_t some_float(uint32_t most)
{
    static const uint32_t edges[] = {
        0x00000000, 0x00000001, 0x007FFFFF, 0x00800000, 0x33800000, 0x3F7FFFFF, 0x3F800000, 0x3F800001, 0x40FFFFFF, 0x41000000, 0x41000001,
        0x41800000, 0x4433FFFF, 0x44340000, 0x44340001, 0x44800000, 0x4B800000, 0x7F7FFFFF, 0x7F800000, 0x7F800001, 0x7FBFFFFF, 0x7FC00000,
        0x7FFFFFFF,
    };
    uint32_t sign = below(2) << 31;
    switch (below(16)) {
    case 0:
        return sign | edges[below(COUNT(edges))];
    case 1:
        return any();
    case 2:
        return sign | below(0x00800000);
    case 3:
        return bits_of((float)((int32_t)below(2000 * most + 1) - (int32_t)(1000 * most)) / 1000.0f);
    case 4:
        return bits_of((float)most * (below(2) ? 1.0f : -1.0f)) - 2 + below(5);
    default:
        return sign | below(bits_of((float)most) + 1);
    }
}

static uint32_t range_float(uint32_t most)
{
    float share = (float)((int32_t)any() >> 7) / 16777216.0f; /* in -1 to 1 */
    return below(4) ? bits_of(share * (float)most) : some_float(most);
}

static struct question some_question(void)
{
    struct question q = {below(64) ? below(3) : any(), {0}, below(32) ? below(5) : below(8), 0, any(), 0};
    q.legend[0] = range_float(720);
    q.legend[1] = range_float(8);
    q.legend[2] = range_float(8);
    q.measured = range_float(720);
    q.shown = below(16) ? q.named : below(16) ? below(8) : q.named + ((size_t)1 << 32);
    if (below(16) == 0)
        q.pixel &= 0x00FFFFFF;
    if (below(4) == 0)
        q.pixel = (q.pixel & 0xFF00FFFF) | (126 + below(5)) << 16;
    return q;
}

static int read_row(struct question *q, struct answer *a)
{
    if (scanf("%zx %" SCNx32 " %" SCNx32 " %" SCNx32 " %zx %zx %" SCNx32 " %" SCNx32 " %" SCNx32, &q->kind, &q->legend[0], &q->legend[1],
              &q->legend[2], &q->named, &q->shown, &q->pixel, &q->measured, &a->number) != 9)
        return 0;
    if (scanf("%" SCNx32 " %" SCNx32 " %" SCNx32, &a->reading[0], &a->reading[1], &a->reading[2]) != 3)
        return 0;
    for (size_t i = 0; i < 3 && a->number != 0; i++)
        a->reading[i] = STOOD;
    return 1;
}

int main(int count, char **words)
{
    if (count != 3)
        return 2;
    state = strtoull(words[1], NULL, 10);
    unsigned long rows = 0, cases = strtoul(words[2], NULL, 10), numbers[18] = {0}, kinds[4] = {0};
    struct question q;
    struct answer a;
    for (; read_row(&q, &a); rows++) {
        hold("C", &q, due(&q), a);
        hold("the library, of a row", &q, told(&q), a);
    }
    for (unsigned long i = 0; i < cases; i++) {
        q = some_question();
        a = due(&q);
        hold("the library", &q, told(&q), a);
        numbers[a.number]++;
        kinds[q.kind < 3 ? q.kind : 3] += a.number == 0;
    }
    printf("degrees: %lu rows, C and the library; %lu cases: %lu readings (%lu level, %lu line, %lu bend), ", rows, cases, numbers[0],
           kinds[0], kinds[1], kinds[2]);
    printf("13 %lu, 14 %lu, 15 %lu, 17 %lu; %lu differences\n", numbers[13], numbers[14], numbers[15], numbers[17], differences);
    return differences != 0 || rows == 0;
}
