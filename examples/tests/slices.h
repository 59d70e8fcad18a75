/* For the tests of slices: a table and numbers for the picture of station.h, and the calls with slices in six
 * ways. */
#include "test.h"

enum { LONG = 300 };
static struct deblock_slice table[LONG];
static uint16_t numbers[N + 1];

/* A and B are not legal: no call with slices looks at them. */
static inline struct deblock_picture lend_slices(size_t len)
{
    struct deblock_picture p = lend_picture();
    p.offset_a = p.offset_b = 99;
    p.slices = table;
    p.slices_len = len;
    p.slice_numbers = numbers;
    p.slice_numbers_len = N;
    return p;
}

/* What the flat calls take after their first arguments. */
#define LENT(p) \
    p->offset_chroma, p->offset_chroma + p->offset_v_minus_u, \
    p->slices, p->slices_len, p->slice_numbers, p->slice_numbers_len, \
    p->luma, p->luma_len, p->u, p->u_len, p->v, p->v_len, \
    p->strengths, p->strengths_len, p->qps, p->qps_len, p->t8s ? p->t8s : p->qps, p->t8s_len

/* Over structs, and from 3 on flat. */
enum { WHOLE, ROWS, VISIT, WAYS = 6 };

/* The whole picture, rows a to b - 1, or macroblock (a, b). */
static inline uint32_t filter(int way, const struct deblock_picture *p, size_t a, size_t b)
{
    switch (way) {
    case WHOLE: return deblock_picture_whole_slices(p);
    case ROWS: return deblock_picture_rows_slices(p, a, b);
    case VISIT: return deblock_picture_visit_slices(p, a, b);
    case 3 + WHOLE: return deblock_whole_slices(p->w, p->h, p->part, LENT(p));
    case 3 + ROWS: return deblock_rows_slices(p->w, p->h, p->part, a, b, LENT(p));
    default: return deblock_visit_slices(p->w, p->h, p->part, a, b, LENT(p), p->marks, p->marks_len);
    }
}

/* All of the picture, row by row from the top or macroblock by macroblock in raster order. */
static inline void filter_all(int way, const struct deblock_picture *p)
{
    const size_t n = p->w * p->h, calls = way % 3 == WHOLE ? 1 : way % 3 == ROWS ? p->h : n;
    memset(p->marks, 0, n);
    for (size_t i = 0; i < calls; i++) {
        const int visit = way % 3 == VISIT;
        expect("all of it", DEBLOCK_DONE, filter(way, p, visit ? i % p->w : i, visit ? i / p->w : i + 1));
    }
}
