/* The calls with slices beside the plain ones, in frames and in fields: three slices, of all modes, and all
 * ways to give them to the macroblocks. A plain visit of each macroblock in raster order, with its
 * slice's A and B, and with strengths 0 on the edges that its mode leaves out, must give the same planes;
 * where all is one slice of mode 0, so must the plain whole-picture call. */
#include "slices.h"

enum { SLICES = 3, MODES = 3 };
static const int8_t offsets[SLICES][2] = {{0, 0}, {12, -6}, {-6, 12}};

static uint8_t drawn[sizeof planes], wanted[sizeof planes], drawn_strengths[sizeof strengths];

/* Noise, which the filter smooths, and strengths of all kinds. */
static void draw(void)
{
    uint32_t state = 1;
    for (size_t i = 0; i < sizeof planes; i++) {
        state = state * 1664525 + 1013904223;
        drawn[i] = (uint8_t)(100 + (state >> 24) % 12);
        drawn_strengths[i % sizeof strengths] = (state >> 16) % 5;
    }
    memset(qps, 36, sizeof qps);
    qps[1] = 44;
}

static void start(void)
{
    memcpy(planes, drawn, sizeof planes);
    memcpy(strengths, drawn_strengths, sizeof strengths);
    memset(marks, 0, sizeof marks);
}

/* A field has half as many macroblocks as its frame: here those of one row. */
static struct deblock_picture lend_part(uint8_t part)
{
    struct deblock_picture p = lend_slices(SLICES);
    p.part = part;
    p.offset_chroma = 2;
    p.offset_v_minus_u = -5;
    if (part == DEBLOCK_FRAME)
        return p;
    p.h = H / 2;
    p.strengths_len = 16 * N;
    p.qps_len = p.marks_len = p.slice_numbers_len = N / 2;
    return p;
}

/* Strengths 0 on what macroblock i leaves out. */
static void leave_out(size_t i)
{
    const uint8_t mode = table[numbers[i]].mode;
    uint8_t *own = strengths + 32 * i;
    if (mode == 1)
        memset(own, 0, 32);
    if (mode == 2 && i % W > 0 && numbers[i - 1] != numbers[i])
        memset(own, 0, 4);
    if (mode == 2 && i >= W && numbers[i - W] != numbers[i])
        memset(own + 16, 0, 4);
}

static void by_plain_visits(struct deblock_picture p)
{
    start();
    for (size_t i = 0; i < p.w * p.h; i++) {
        leave_out(i);
        p.offset_a = table[numbers[i]].a;
        p.offset_b = table[numbers[i]].b;
        expect("a plain visit", DEBLOCK_DONE, deblock_picture_visit(&p, i % W, i / W));
    }
    memcpy(wanted, planes, sizeof planes);
}

static void by_the_plain_call(struct deblock_picture p)
{
    start();
    p.offset_a = table[numbers[0]].a;
    p.offset_b = table[numbers[0]].b;
    expect("the plain call", DEBLOCK_DONE, deblock_picture_whole(&p));
    memcpy(wanted, planes, sizeof planes);
}

static void expect_wanted(const char *what, const struct deblock_picture *p)
{
    for (int way = 0; way < WAYS; way++) {
        start();
        filter_all(way, p);
        expect(what, 0, memcmp(planes, wanted, sizeof planes) != 0);
    }
}

static size_t power(size_t of, size_t n)
{
    return n == 0 ? 1 : of * power(of, n - 1);
}

/* Table k of those that differ in mode, and numbers k of those that there are. */
static void set_table(size_t k)
{
    for (size_t i = 0; i < SLICES; i++, k /= MODES) {
        table[i].mode = k % MODES;
        table[i].a = offsets[i][0];
        table[i].b = offsets[i][1];
    }
}

static void set_numbers(size_t k)
{
    for (size_t i = 0; i < N; i++, k /= SLICES)
        numbers[i] = k % SLICES;
}

static void all_settings(uint8_t part)
{
    const struct deblock_picture p = lend_part(part);
    const size_t tables = power(MODES, SLICES), grids = power(SLICES, p.w * p.h);
    for (size_t k = 0; k < tables * grids; k++) {
        set_table(k / grids);
        set_numbers(k % grids);
        by_plain_visits(p);
        expect_wanted("beside plain visits", &p);
    }
}

/* Each of the three alone, of mode 0. */
static void one_slice(uint8_t part)
{
    const struct deblock_picture p = lend_part(part);
    set_table(0);
    for (uint16_t slice = 0; slice < SLICES; slice++) {
        numbers[0] = numbers[1] = numbers[2] = numbers[3] = slice;
        by_the_plain_call(p);
        expect_wanted("beside the plain call", &p);
    }
}

int main(void)
{
    draw();
    for (uint8_t part = DEBLOCK_FRAME; part <= DEBLOCK_BOTTOM_FIELD; part++) {
        all_settings(part);
        one_slice(part);
    }
    return faults != 0;
}
