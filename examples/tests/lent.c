/* Answers where something is not lent, or is null with a length. */
#include "test.h"

/* The three with slices, of a picture that is one slice of mode 0. */
static void expect_with_slices(const char *what, uint32_t want, struct deblock_picture p)
{
    static const struct deblock_slice slice = {0, 0, 0};
    static const uint16_t numbers[N] = {0};
    p.slices = &slice;
    p.slices_len = 1;
    p.slice_numbers = numbers;
    p.slice_numbers_len = N;
    decode();
    expect(what, want, deblock_picture_whole_slices(&p));
    expect(what, want, deblock_picture_rows_slices(&p, 0, p.h));
    expect(what, want, deblock_picture_visit_slices(&p, 0, 0));
}

static const uint8_t kinds[N] = {DEBLOCK_INTER, DEBLOCK_INTER, DEBLOCK_INTER, DEBLOCK_INTER};

/* The filtering functions answer one number, the strength functions another. */
static void expect_all(const char *what, uint32_t filtering, uint32_t deriving,
                       const struct deblock_picture *p, const struct deblock_grids *g)
{
    decode();
    expect(what, filtering, deblock_picture_whole(p));
    expect(what, filtering, deblock_picture_rows(p, 0, p->h));
    expect(what, filtering, deblock_picture_visit(p, 0, 0));
    expect_with_slices(what, filtering, *p);
    expect(what, deriving, deblock_picture_strengths(p, g, 0, 0));
    expect(what, deriving, deblock_picture_strengths_flags(p, g, 0, 0, 0));
    expect(what, deriving, deblock_picture_strengths_kind(p, g, 0, 0, DEBLOCK_INTER));
    expect(what, deriving, deblock_picture_strengths_row(p, g, 0, NULL, 0));
    expect(what, deriving, deblock_picture_strengths_row(p, g, 0, kinds, p->w * p->h));
}

static void not_lent(void)
{
    static struct deblock_grids none;
    const struct deblock_grids g = lend_grids();
    struct deblock_picture p = DEBLOCK_NONE;
    expect_all("nothing", DEBLOCK_BAD_SIZE, DEBLOCK_BAD_SIZE, &p, &none);
    p.w = p.h = 1;
    expect_all("a size alone", DEBLOCK_PLANE_LENGTH, DEBLOCK_MACROBLOCK_GRID_LENGTH, &p, &none);
    p = lend_picture();
    expect_all("no grids", DEBLOCK_DONE, DEBLOCK_BLOCK_GRID_LENGTH, &p, &none);
    expect_all("no 8x8 flags and no list 1", DEBLOCK_DONE, DEBLOCK_DONE, &p, &g);
    p.marks = NULL;
    p.marks_len = 0;
    expect("no marks", DEBLOCK_DONE, deblock_picture_whole(&p));
    expect("no marks", DEBLOCK_MACROBLOCK_GRID_LENGTH, deblock_picture_visit(&p, 0, 0));
}

/* The flags, list 1 and the tables by themselves. Then each line takes one pointer more away; what is refused
 * for it comes earlier in the order of checks. */
static void null_with_a_length(void)
{
    struct deblock_picture p = lend_picture();
    struct deblock_grids g = lend_grids();
    p.t8s_len = N;
    expect_all("8x8 flags", DEBLOCK_MACROBLOCK_GRID_LENGTH, DEBLOCK_MACROBLOCK_GRID_LENGTH, &p, &g);
    p.t8s_len = 0;
    g.ref1_len = 16 * N;
    g.mv1_len = 32 * N;
    expect_all("list 1", DEBLOCK_DONE, DEBLOCK_BLOCK_GRID_LENGTH, &p, &g);
    g = lend_grids();
    g.pictures0_len = 1;
    expect_all("list 0's table", DEBLOCK_DONE, DEBLOCK_BLOCK_GRID_LENGTH, &p, &g);
    g.pictures0_len = 0;
    g.pictures1_len = 1;
    expect_all("list 1's table", DEBLOCK_DONE, DEBLOCK_BLOCK_GRID_LENGTH, &p, &g);
    p.strengths = NULL;
    expect_all("strengths", DEBLOCK_MACROBLOCK_GRID_LENGTH, DEBLOCK_MACROBLOCK_GRID_LENGTH, &p, &g);
    p.v = NULL;
    expect_all("V", DEBLOCK_PLANE_LENGTH, DEBLOCK_MACROBLOCK_GRID_LENGTH, &p, &g);
}

/* Null kinds with a length: after the size and the row, and before the grids. None at all are not lent. */
static void null_kinds(void)
{
    static const struct deblock_grids none = DEBLOCK_NONE;
    struct deblock_picture p = lend_picture();
    const struct deblock_grids g = lend_grids();
    decode();
    memset(strengths, 9, sizeof strengths);
    expect("kinds", DEBLOCK_MACROBLOCK_GRID_LENGTH, deblock_picture_strengths_row(&p, &g, 0, NULL, N));
    expect("a kind", DEBLOCK_MACROBLOCK_GRID_LENGTH, deblock_picture_strengths_row(&p, &g, 0, NULL, 1));
    expect("kinds, no grids", DEBLOCK_MACROBLOCK_GRID_LENGTH,
           deblock_picture_strengths_row(&p, &none, 0, NULL, N));
    expect("kinds, row H", DEBLOCK_OUTSIDE, deblock_picture_strengths_row(&p, &g, H, NULL, N));
    expect("a strength", 9, strengths[0]);
    expect("no kinds", DEBLOCK_DONE, deblock_picture_strengths_row(&p, &g, 0, NULL, 0));
    expect("no kinds, of a length 0", DEBLOCK_DONE, deblock_picture_strengths_row(&p, &g, 0, kinds, 0));
    expect("a strength", 0, strengths[0]);
    p.w = 0;
    expect("kinds, no size", DEBLOCK_BAD_SIZE, deblock_picture_strengths_row(&p, &g, 0, NULL, N));
}

int main(void)
{
    not_lent();
    null_with_a_length();
    null_kinds();
    return faults != 0;
}
