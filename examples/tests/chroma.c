/* What the two chroma offsets come to in the planes: each reaches its own plane alone, by all six filtering
 * functions. One macroblock of QP 30 with strength 1 everywhere, and in U and V the step 100 | 122 at the
 * inner edge; it is one slice of mode 0, with a and b 0.
 *
 * By hand, from Tables 8-15 to 8-17: with offset 0 the QP is mapped to 29, where alpha is 22, and a step of
 * 22 stays. With offset 1 it is 31, mapped to 30, where alpha is 25, beta 8 and tc0 1: the step is filtered
 * with tc 2, and (4 * 22 + (100 - 122) + 4) >> 3 = 8 is clipped to 2. */
#include "test.h"

static const uint8_t left_alone[8] = {100, 100, 100, 100, 122, 122, 122, 122};
static const uint8_t filtered[8] = {100, 100, 100, 102, 120, 122, 122, 122};

enum { WAYS = 6 };

static uint32_t filter(int way, const struct deblock_picture *p)
{
    switch (way) {
    case 0: return deblock_picture_whole(p);
    case 1: return deblock_picture_rows(p, 0, 1);
    case 2: return deblock_picture_visit(p, 0, 0);
    case 3: return deblock_picture_whole_slices(p);
    case 4: return deblock_picture_rows_slices(p, 0, 1);
    default: return deblock_picture_visit_slices(p, 0, 0);
    }
}

/* One macroblock's share of the station's buffers. */
static struct deblock_picture lend_macroblock(void)
{
    static const struct deblock_slice slice = {0, 0, 0};
    static const uint16_t number = 0;
    struct deblock_picture p = lend_picture();
    p.w = p.h = 1;
    p.luma_len = 256;
    p.u_len = p.v_len = 64;
    p.strengths_len = 32;
    p.qps_len = p.marks_len = 1;
    p.slices = &slice;
    p.slice_numbers = &number;
    p.slices_len = p.slice_numbers_len = 1;
    return p;
}

/* A sample of a plane in which all lines across the edge are alike: a vertical edge, or a horizontal one. */
static uint8_t sample(const uint8_t *line, int horizontal, size_t i)
{
    return line[horizontal ? i / 8 : i % 8];
}

static void start(int horizontal)
{
    memset(planes, 100, sizeof planes);
    for (size_t i = 0; i < 64; i++)
        u[i] = v[i] = sample(left_alone, horizontal, i);
    memset(strengths, 1, 32);
    qps[0] = 30;
    marks[0] = 0;
}

static void expect_plane(const char *what, const uint8_t *line, int horizontal, const uint8_t *plane)
{
    for (size_t i = 0; i < 64; i++)
        expect(what, sample(line, horizontal, i), plane[i]);
}

static void expect_lines(int32_t chroma_u, int32_t v_minus_u, const uint8_t *of_u, const uint8_t *of_v)
{
    struct deblock_picture p = lend_macroblock();
    p.offset_chroma = chroma_u;
    p.offset_v_minus_u = v_minus_u;
    for (int k = 0; k < 2 * WAYS; k++) {
        start(k % 2);
        expect("two offsets", DEBLOCK_DONE, filter(k / 2, &p));
        expect_plane("U", of_u, k % 2, u);
        expect_plane("V", of_v, k % 2, v);
    }
}

int main(void)
{
    expect_lines(0, 0, left_alone, left_alone);
    expect_lines(0, 1, left_alone, filtered);
    expect_lines(1, -1, filtered, left_alone);
    expect_lines(1, 0, filtered, filtered);
    return faults != 0;
}
