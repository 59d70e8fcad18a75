/* For the tests of reference tables: both lists of the picture of station.h, in which all blocks are inter
 * and none is coded, and the strength calls in ten ways. */
#include "test.h"

static int8_t ref1[16 * N];
static int16_t mv1[32 * N];

/* Both lists with their tables; list 1 may be left out. No pointer is null, since flat calls take them. */
static inline struct deblock_grids lend_lists(int list1, const int32_t *pictures0, size_t len0,
                                              const int32_t *pictures1, size_t len1)
{
    struct deblock_grids g = lend_grids();
    g.ref1 = ref1;
    g.mv1 = mv1;
    if (list1) {
        g.ref1_len = 16 * N;
        g.mv1_len = 32 * N;
    }
    g.pictures0 = pictures0;
    g.pictures0_len = len0;
    g.pictures1 = pictures1;
    g.pictures1_len = len1;
    return g;
}

/* What the flat calls take after their first arguments. No 8x8 flags are lent. */
#define LENT(g) \
    inter, 0, g.inter, g.inter_len, g.nnz, g.nnz_len, \
    g.ref0, g.ref0_len, g.mv0, g.mv0_len, g.ref1, g.ref1_len, g.mv1, g.mv1_len, \
    g.pictures0, g.pictures0_len, g.pictures1, g.pictures1_len, strengths, sizeof strengths

/* Those over structs, of which the last two take a row; as many are flat. */
enum { PLAIN, FLAGS, KIND, ROW, ROW_BY_KINDS, OVER_STRUCTS, WAYS = 2 * OVER_STRUCTS };

/* The kind of macroblock i; all others are inter. */
static inline const uint8_t *lend_kinds(size_t i, uint8_t kind)
{
    static uint8_t kinds[N];
    memset(kinds, DEBLOCK_INTER, sizeof kinds);
    if (i < N)
        kinds[i] = kind;
    return kinds;
}

/* Derives the strengths of macroblock i, or of its row, and says of it nothing, flags or a kind. */
static inline uint32_t derive_as(int way, struct deblock_grids g, size_t i, unsigned flags, uint8_t kind)
{
    const struct deblock_picture p = lend_picture();
    const uint8_t *kinds = lend_kinds(i, kind);
    const size_t x = i % W, y = i / W;
    const uint8_t flat = (flags & DEBLOCK_FLAT) != 0, uniform = (flags & DEBLOCK_UNIFORM) != 0;
    switch (way) {
    case PLAIN: return deblock_picture_strengths(&p, &g, x, y);
    case FLAGS: return deblock_picture_strengths_flags(&p, &g, x, y, flags);
    case KIND: return deblock_picture_strengths_kind(&p, &g, x, y, kind);
    case ROW: return deblock_picture_strengths_row(&p, &g, y, NULL, 0);
    case ROW_BY_KINDS: return deblock_picture_strengths_row(&p, &g, y, kinds, N);
    case OVER_STRUCTS + PLAIN: return deblock_strengths(W, H, 0, x, y, LENT(g));
    case OVER_STRUCTS + FLAGS: return deblock_strengths_flags(W, H, 0, x, y, flat, uniform, LENT(g));
    case OVER_STRUCTS + KIND: return deblock_strengths_kind(W, H, 0, x, y, kind, LENT(g));
    case OVER_STRUCTS + ROW: return deblock_strengths_row(W, H, 0, y, kinds, 0, LENT(g));
    default: return deblock_strengths_row(W, H, 0, y, kinds, N, LENT(g));
    }
}

/* Of inter blocks, of which nothing else is said. */
static inline uint32_t derive(int way, struct deblock_grids g, size_t i)
{
    return derive_as(way, g, i, 0, DEBLOCK_INTER);
}
