/* What the functions over structs hand to the flat calls. Stand-ins for these keep their arguments as
 * numbers, and every member has a number of its own, so that each argument is looked at in its place. */
#include "test.h"

/* Members that are pointers point into this, at their numbers. */
static int32_t room[64];

/* A pointer's number. A pointer to elsewhere has 0, null has 99. */
static size_t at(const void *pointer)
{
    size_t place = ((uintptr_t)pointer - (uintptr_t)room) / sizeof *room;
    if (!pointer)
        return 99;
    return place < 64 ? place : 0;
}

/* What the last call was handed. */
enum { MOST = 28 };
static size_t handed[MOST];

static uint32_t keep(const size_t *arguments, size_t bytes, uint32_t answer)
{
    memset(handed, 0, sizeof handed);
    memcpy(handed, arguments, bytes);
    return answer;
}

#define KEEP(answer, ...) \
    { const size_t all[] = {__VA_ARGS__}; return keep(all, sizeof all, answer); }
#define KEEP_TELLING(type, number, ...) \
    { \
        const size_t all[] = {__VA_ARGS__}; \
        struct type told = DEBLOCK_NONE; \
        told.answer = keep(all, sizeof all, number); \
        return told; \
    }
#define PLANES \
    uint8_t *y0, size_t yl, uint8_t *u0, size_t ul, uint8_t *v0, size_t vl, \
    const uint8_t *s, size_t sl, const uint8_t *q, size_t ql, const uint8_t *t, size_t tl
#define PLANES_KEPT at(y0), yl, at(u0), ul, at(v0), vl, at(s), sl, at(q), ql, at(t), tl
#define FILTERING int32_t a, int32_t b, int32_t cu, int32_t cv, PLANES
#define FILTERING_KEPT (size_t)a, (size_t)b, (size_t)cu, (size_t)cv, PLANES_KEPT
#define WITH_SLICES \
    int32_t cu, int32_t cv, const struct deblock_slice *r, size_t rl, const uint16_t *n, size_t nl, PLANES
#define WITH_SLICES_KEPT (size_t)cu, (size_t)cv, at(r), rl, at(n), nl, PLANES_KEPT
#define DERIVING \
    const uint8_t *t, size_t tl, const uint8_t *i, size_t il, const uint8_t *n, size_t nl, \
    const int8_t *r0, size_t r0l, const int16_t *m0, size_t m0l, \
    const int8_t *r1, size_t r1l, const int16_t *m1, size_t m1l, \
    const int32_t *p0, size_t p0l, const int32_t *p1, size_t p1l, uint8_t *s, size_t sl
#define DERIVING_KEPT \
    at(t), tl, at(i), il, at(n), nl, at(r0), r0l, at(m0), m0l, at(r1), r1l, at(m1), m1l, \
    at(p0), p0l, at(p1), p1l, at(s), sl

uint32_t deblock_whole(size_t w, size_t h, uint8_t part, FILTERING)
KEEP(101, w, h, part, FILTERING_KEPT)
uint32_t deblock_rows(size_t w, size_t h, uint8_t part, size_t first, size_t last, FILTERING)
KEEP(102, w, h, part, first, last, FILTERING_KEPT)
uint32_t deblock_visit(size_t w, size_t h, uint8_t part, size_t x, size_t y, FILTERING, uint8_t *m, size_t ml)
KEEP(103, w, h, part, x, y, FILTERING_KEPT, at(m), ml)
uint32_t deblock_whole_slices(size_t w, size_t h, uint8_t part, WITH_SLICES)
KEEP(109, w, h, part, WITH_SLICES_KEPT)
uint32_t deblock_rows_slices(size_t w, size_t h, uint8_t part, size_t first, size_t last, WITH_SLICES)
KEEP(110, w, h, part, first, last, WITH_SLICES_KEPT)
uint32_t deblock_visit_slices(size_t w, size_t h, uint8_t part, size_t x, size_t y, WITH_SLICES,
                              uint8_t *m, size_t ml)
KEEP(111, w, h, part, x, y, WITH_SLICES_KEPT, at(m), ml)
struct deblock_finality deblock_is_final(size_t w, size_t h, size_t x, size_t y, const uint8_t *m, size_t ml)
KEEP_TELLING(deblock_finality, 107, w, h, x, y, at(m), ml)
struct deblock_finals deblock_made_final(size_t w, size_t h, size_t x, size_t y, const uint8_t *m, size_t ml)
KEEP_TELLING(deblock_finals, 108, w, h, x, y, at(m), ml)
uint32_t deblock_strengths(size_t w, size_t h, uint8_t field, size_t x, size_t y, DERIVING)
KEEP(104, w, h, field, x, y, DERIVING_KEPT)
uint32_t deblock_strengths_flags(size_t w, size_t h, uint8_t field, size_t x, size_t y, uint8_t flat,
                                 uint8_t uniform, DERIVING)
KEEP(105, w, h, field, x, y, flat, uniform, DERIVING_KEPT)
uint32_t deblock_strengths_kind(size_t w, size_t h, uint8_t field, size_t x, size_t y, uint8_t kind, DERIVING)
KEEP(106, w, h, field, x, y, kind, DERIVING_KEPT)
uint32_t deblock_strengths_row(size_t w, size_t h, uint8_t field, size_t y, const uint8_t *k, size_t kl,
                               DERIVING)
KEEP(112, w, h, field, y, at(k), kl, DERIVING_KEPT)

/* EXPECT(what, answer, call, arguments..): what a call answers and hands on. */
static void expect_handed(const char *what, uint32_t answer, uint32_t got, const size_t *want)
{
    expect(what, answer, got);
    for (size_t i = 0; i < MOST; i++)
        expect(what, (uint32_t)want[i], (uint32_t)handed[i]);
}
#define EXPECT(what, answer, call, ...) \
    do { \
        const size_t want[MOST] = {__VA_ARGS__}; \
        expect_handed(what, answer, call, want); \
    } while (0)

/* Lengths are numbered from 11 on, each 20 below its pointer. V's chroma offset is 7 + 3, 10. */
static struct deblock_picture numbered_lengths(void)
{
    struct deblock_picture p = DEBLOCK_NONE;
    p.w = 1, p.h = 2, p.part = 6, p.offset_a = 4, p.offset_b = 5, p.offset_chroma = 7, p.offset_v_minus_u = 3;
    p.luma_len = 11, p.u_len = 12, p.v_len = 13, p.strengths_len = 14, p.qps_len = 15, p.t8s_len = 16;
    p.marks_len = 17, p.slices_len = 19, p.slice_numbers_len = 20;
    return p;
}

static struct deblock_picture numbered(void)
{
    struct deblock_picture p = numbered_lengths();
    p.luma = (uint8_t *)(room + 31);
    p.u = (uint8_t *)(room + 32);
    p.v = (uint8_t *)(room + 33);
    p.strengths = (uint8_t *)(room + 34);
    p.qps = (uint8_t *)(room + 35);
    p.t8s = (uint8_t *)(room + 36);
    p.marks = (uint8_t *)(room + 37);
    p.slices = (struct deblock_slice *)(room + 39);
    p.slice_numbers = (uint16_t *)(room + 40);
    return p;
}

static struct deblock_grids numbered_grid_lengths(void)
{
    struct deblock_grids g = DEBLOCK_NONE;
    g.inter_len = 21, g.nnz_len = 22, g.ref0_len = 23, g.mv0_len = 24, g.ref1_len = 25, g.mv1_len = 26;
    g.pictures0_len = 27, g.pictures1_len = 28;
    return g;
}

static struct deblock_grids numbered_grids(void)
{
    struct deblock_grids g = numbered_grid_lengths();
    g.inter = (uint8_t *)(room + 41);
    g.nnz = (uint8_t *)(room + 42);
    g.ref0 = (int8_t *)(room + 43);
    g.mv0 = (int16_t *)(room + 44);
    g.ref1 = (int8_t *)(room + 45);
    g.mv1 = (int16_t *)(room + 46);
    g.pictures0 = room + 47;
    g.pictures1 = room + 48;
    return g;
}

static const uint8_t *const kinds = (uint8_t *)(room + 38);

/* The numbers of the members from t8s to strengths, as strength calls are handed them; of inter bytes and
 * tables those given. */
#define DERIVED_WITH(inter, inter_len, pictures0, pictures0_len, pictures1, pictures1_len) \
    36, 16, inter, inter_len, 42, 22, 43, 23, 44, 24, 45, 25, 46, 26, \
    pictures0, pictures0_len, pictures1, pictures1_len, 34, 14
#define DERIVED_FROM DERIVED_WITH(41, 21, 47, 27, 48, 28)

/* Those from luma to t8s, as filtering calls are handed them, and those of slices. */
#define FILTERED 31, 11, 32, 12, 33, 13, 34, 14, 35, 15, 36, 16
#define SLICES 39, 19, 40, 20

static void all_filtering(void)
{
    const struct deblock_picture p = numbered();
    EXPECT("whole", 101, deblock_picture_whole(&p), 1, 2, 6, 4, 5, 7, 10, FILTERED);
    EXPECT("rows", 102, deblock_picture_rows(&p, 8, 9), 1, 2, 6, 8, 9, 4, 5, 7, 10, FILTERED);
    EXPECT("visit", 103, deblock_picture_visit(&p, 8, 9), 1, 2, 6, 8, 9, 4, 5, 7, 10, FILTERED, 37, 17);
    EXPECT("whole, slices", 109, deblock_picture_whole_slices(&p), 1, 2, 6, 7, 10, SLICES, FILTERED);
    EXPECT("rows, slices", 110, deblock_picture_rows_slices(&p, 8, 9),
           1, 2, 6, 8, 9, 7, 10, SLICES, FILTERED);
    EXPECT("visit, slices", 111, deblock_picture_visit_slices(&p, 8, 9),
           1, 2, 6, 8, 9, 7, 10, SLICES, FILTERED, 37, 17);
}

static void all_others(void)
{
    const struct deblock_picture p = numbered();
    const struct deblock_grids g = numbered_grids();
    EXPECT("is final", 107, deblock_picture_is_final(&p, 8, 9).answer, 1, 2, 8, 9, 37, 17);
    EXPECT("made final", 108, deblock_picture_made_final(&p, 8, 9).answer, 1, 2, 8, 9, 37, 17);
    EXPECT("strengths", 104, deblock_picture_strengths(&p, &g, 8, 9), 1, 2, 1, 8, 9, DERIVED_FROM);
    EXPECT("kind", 106, deblock_picture_strengths_kind(&p, &g, 8, 9, 18), 1, 2, 1, 8, 9, 18, DERIVED_FROM);
    EXPECT("flat", 105, deblock_picture_strengths_flags(&p, &g, 8, 9, DEBLOCK_FLAT),
           1, 2, 1, 8, 9, 1, 0, DERIVED_FROM);
    EXPECT("uniform", 105, deblock_picture_strengths_flags(&p, &g, 8, 9, DEBLOCK_UNIFORM),
           1, 2, 1, 8, 9, 0, 1, DERIVED_FROM);
    EXPECT("other bits", 105, deblock_picture_strengths_flags(&p, &g, 8, 9, ~3u),
           1, 2, 1, 8, 9, 0, 0, DERIVED_FROM);
    EXPECT("row", 112, deblock_picture_strengths_row(&p, &g, 9, kinds, 18), 1, 2, 1, 9, 38, 18, DERIVED_FROM);
}

/* To the strength calls all parts but the frame are a field. */
static void parts(void)
{
    struct deblock_picture p = numbered_lengths();
    static const struct deblock_grids g = DEBLOCK_NONE;
    for (p.part = DEBLOCK_FRAME; p.part <= DEBLOCK_BOTTOM_FIELD; p.part++) {
        const size_t field = p.part != DEBLOCK_FRAME;
        EXPECT("a part", 101, deblock_picture_whole(&p), 1, 2, p.part, 4, 5, 7, 10);
        EXPECT("a part, slices", 109, deblock_picture_whole_slices(&p), 1, 2, p.part, 7, 10);
        EXPECT("field", 104, deblock_picture_strengths(&p, &g, 8, 9), 1, 2, field, 8, 9);
        EXPECT("field by kind", 106, deblock_picture_strengths_kind(&p, &g, 8, 9, 18), 1, 2, field, 8, 9, 18);
        EXPECT("field by flags", 105, deblock_picture_strengths_flags(&p, &g, 8, 9, 0), 1, 2, field, 8, 9);
        EXPECT("field by row", 112, deblock_picture_strengths_row(&p, &g, 9, kinds, 18),
               1, 2, field, 9, 38, 18);
    }
}

/* Where a pointer is null, another goes on with length 0. */
static void all_null(void)
{
    static const struct deblock_grids none = DEBLOCK_NONE;
    const struct deblock_picture p = numbered_lengths();
    const struct deblock_grids g = numbered_grid_lengths();
    EXPECT("null members", 103, deblock_picture_visit(&p, 8, 9), 1, 2, 6, 8, 9, 4, 5, 7, 10);
    EXPECT("null members, slices", 111, deblock_picture_visit_slices(&p, 8, 9), 1, 2, 6, 8, 9, 7, 10);
    EXPECT("null marks", 107, deblock_picture_is_final(&p, 8, 9).answer, 1, 2, 8, 9);
    EXPECT("null marks", 108, deblock_picture_made_final(&p, 8, 9).answer, 1, 2, 8, 9);
    EXPECT("null grids", 104, deblock_picture_strengths(&p, &g, 8, 9), 1, 2, 1, 8, 9);
    EXPECT("no grids", 104, deblock_picture_strengths(&p, &none, 8, 9), 1, 2, 1, 8, 9);
    EXPECT("null kinds", 112, deblock_picture_strengths_row(&p, &g, 9, NULL, 18), 1, 2, 1, 9);
}

/* t8s, ref1 and mv1 may be left out; with a length they may not, so something goes with them that may not. */
static void null_with_a_length(void)
{
    struct deblock_picture p = numbered();
    struct deblock_grids g = numbered_grids();
    p.t8s = NULL;
    EXPECT("t8s", 101, deblock_picture_whole(&p), 1, 2, 6, 4, 5, 7, 10, 31, 11, 32, 12, 33, 13, 0, 0, 35, 15);
    EXPECT("t8s", 104, deblock_picture_strengths(&p, &g, 8, 9),
           1, 2, 1, 8, 9, 0, 0, 41, 21, 42, 22, 43, 23, 44, 24, 45, 25, 46, 26, 47, 27, 48, 28);
    p = numbered();
    g.ref1 = NULL;
    EXPECT("ref1", 104, deblock_picture_strengths(&p, &g, 8, 9),
           1, 2, 1, 8, 9, 36, 16, 0, 0, 42, 22, 43, 23, 44, 24, 0, 0, 46, 26, 47, 27, 48, 28, 34, 14);
    g = numbered_grids();
    g.mv1 = NULL;
    EXPECT("mv1", 104, deblock_picture_strengths(&p, &g, 8, 9),
           1, 2, 1, 8, 9, 36, 16, 0, 0, 42, 22, 43, 23, 44, 24, 45, 25, 0, 0, 47, 27, 48, 28, 34, 14);
}

/* So may kinds; with a length they may not, so the strengths go with them. */
static void null_kinds(void)
{
    const struct deblock_picture p = numbered();
    const struct deblock_grids g = numbered_grids();
    EXPECT("no kinds", 112, deblock_picture_strengths_row(&p, &g, 9, NULL, 0),
           1, 2, 1, 9, 0, 0, DERIVED_FROM);
    EXPECT("kinds of length 0", 112, deblock_picture_strengths_row(&p, &g, 9, kinds, 0),
           1, 2, 1, 9, 38, 0, DERIVED_FROM);
    EXPECT("kinds", 112, deblock_picture_strengths_row(&p, &g, 9, NULL, 18),
           1, 2, 1, 9, 0, 0, 36, 16, 41, 21, 42, 22, 43, 23, 44, 24, 45, 25, 46, 26, 47, 27, 48, 28, 34, 0);
}

/* A table of slices that is left out goes on as empty, and with a length their numbers go with it. Calls that
 * take neither are handed what they were. */
static void null_slices(void)
{
    struct deblock_picture p = numbered();
    p.slices = NULL;
    EXPECT("slices", 109, deblock_picture_whole_slices(&p), 1, 2, 6, 7, 10, 0, 0, 0, 0, FILTERED);
    EXPECT("no matter", 101, deblock_picture_whole(&p), 1, 2, 6, 4, 5, 7, 10, FILTERED);
    p.slices_len = 0;
    EXPECT("no slices", 109, deblock_picture_whole_slices(&p), 1, 2, 6, 7, 10, 0, 0, 40, 20, FILTERED);
    p = numbered();
    p.slice_numbers = NULL;
    EXPECT("numbers", 109, deblock_picture_whole_slices(&p), 1, 2, 6, 7, 10, 39, 19, 0, 0, FILTERED);
}

/* A table that is left out goes on as empty, and with a length the inter bytes go with it. */
static void null_tables(void)
{
    const struct deblock_picture p = numbered();
    struct deblock_grids g = numbered_grids();
#define EXPECT_TABLES(what, ...) \
    EXPECT(what, 104, deblock_picture_strengths(&p, &g, 8, 9), 1, 2, 1, 8, 9, DERIVED_WITH(__VA_ARGS__))
    g.pictures0 = NULL;
    EXPECT_TABLES("pictures0", 0, 0, 0, 0, 48, 28);
    g.pictures0_len = 0;
    EXPECT_TABLES("no pictures0", 41, 21, 0, 0, 48, 28);
    g = numbered_grids();
    g.pictures1 = NULL;
    EXPECT_TABLES("pictures1", 0, 0, 47, 27, 0, 0);
    g.pictures1_len = 0;
    EXPECT_TABLES("no pictures1", 41, 21, 47, 27, 0, 0);
}

/* What comes to V's chroma offset: a sum that every int32_t may be part of. Those below -13 and above 13 go
 * on as these. */
struct sum { int32_t chroma, v_minus_u, chroma_v; };

static const struct sum sums[] = {
    {0, 0, 0}, {12, -24, -12}, {-12, 24, 12}, {-2, 11, 9}, {9, -11, -2},
    {12, 1, 13}, {-12, -1, -13}, {12, 2, 13}, {-12, -2, -13}, {13, -1, 12}, {-13, 1, -12},
    {0, INT32_MAX, 13}, {0, INT32_MIN, -13}, {INT32_MAX, 0, 13}, {INT32_MIN, 0, -13},
    {1, INT32_MAX, 13}, {-1, INT32_MIN, -13}, {INT32_MAX, 1, 13}, {INT32_MIN, -1, -13},
    {INT32_MAX, INT32_MAX, 13}, {INT32_MIN, INT32_MIN, -13},
    {INT32_MAX, INT32_MIN, -1}, {INT32_MIN, INT32_MAX, -1},
};

static void all_sums(void)
{
    struct deblock_picture p = DEBLOCK_NONE;
    for (size_t i = 0; i < sizeof sums / sizeof *sums; i++) {
        const size_t chroma_u = (size_t)sums[i].chroma, chroma_v = (size_t)sums[i].chroma_v;
        p.offset_chroma = sums[i].chroma;
        p.offset_v_minus_u = sums[i].v_minus_u;
        EXPECT("sum, whole", 101, deblock_picture_whole(&p), 0, 0, 0, 0, 0, chroma_u, chroma_v);
        EXPECT("sum, rows", 102, deblock_picture_rows(&p, 8, 9), 0, 0, 0, 8, 9, 0, 0, chroma_u, chroma_v);
        EXPECT("sum, visit", 103, deblock_picture_visit(&p, 8, 9), 0, 0, 0, 8, 9, 0, 0, chroma_u, chroma_v);
        EXPECT("sum, slices", 109, deblock_picture_whole_slices(&p), 0, 0, 0, chroma_u, chroma_v);
    }
}

int main(void)
{
    all_filtering();
    all_others();
    all_sums();
    parts();
    all_null();
    null_with_a_length();
    null_kinds();
    null_slices();
    null_tables();
    return faults != 0;
}
