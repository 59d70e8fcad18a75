/* The 8x8 flags that strength calls are lent: which of them are read, and what a count comes to under them,
 * by all four functions. In the picture of station.h a macroblock has one motion and the next another. */
#include "test.h"

static uint8_t t8s[N + 1];

static struct deblock_picture lend_flags(size_t len)
{
    struct deblock_picture p = lend_picture();
    p.t8s = t8s;
    p.t8s_len = len;
    return p;
}

/* ROW: with nothing known; the way after it: by kinds. */
enum { ROW = 3, WAYS = 5 };

/* Derives the strengths of macroblock i, or of its row, with so many flags lent. */
static uint32_t derive(int way, size_t len, size_t i)
{
    static const uint8_t kinds[N] = {DEBLOCK_INTER, DEBLOCK_INTER, DEBLOCK_INTER, DEBLOCK_INTER};
    const struct deblock_picture p = lend_flags(len);
    const struct deblock_grids g = lend_grids();
    const size_t x = i % W, y = i / W;
    switch (way) {
    case 0: return deblock_picture_strengths(&p, &g, x, y);
    case 1: return deblock_picture_strengths_flags(&p, &g, x, y, 0);
    case 2: return deblock_picture_strengths_kind(&p, &g, x, y, DEBLOCK_INTER);
    case ROW: return deblock_picture_strengths_row(&p, &g, y, NULL, 0);
    default: return deblock_picture_strengths_row(&p, &g, y, kinds, N);
    }
}

/* With a flag 2. Of macroblock (1, 1) its own, its left and its upper neighbour's are read, and no other; of
 * row 1 all, since (0, 0) is above it, and of row 0 its own. */
static void flags_read(int way)
{
    const int by_row = way >= ROW;
    for (size_t i = 0; i < N; i++) {
        decode();
        memset(t8s, 0, sizeof t8s);
        t8s[i] = 2;
        expect("flag 2", i == 0 && !by_row ? DEBLOCK_DONE : DEBLOCK_NOT_A_BOOL, derive(way, N, 3));
        if (by_row)
            expect("flag 2, row 0", i < W ? DEBLOCK_NOT_A_BOOL : DEBLOCK_DONE, derive(way, N, 0));
    }
}

/* A flag 2 is there all the while: the length is asked about first, and of no flags none is read. */
static void lengths(int way)
{
    decode();
    memset(t8s, 2, sizeof t8s);
    expect("a flag too few", DEBLOCK_MACROBLOCK_GRID_LENGTH, derive(way, N - 1, 3));
    expect("a flag too many", DEBLOCK_MACROBLOCK_GRID_LENGTH, derive(way, N + 1, 3));
    expect("no flags", DEBLOCK_DONE, derive(way, 0, 3));
}

/* A count in one block of an 8x8 block, and the four strengths of an edge, as digits, with the count in its
 * upper left, upper right, lower left and lower right block. Block (x, y) is 8 * y + x, and edges 4 to 7 are
 * the horizontal ones. By hand: 2 beside what counts as coded, else 0 in a macroblock and 1 between two. */
struct count {
    const char *what;
    uint8_t flags[N];
    size_t upper_left, macroblock, edge;
    uint32_t strengths[4];
};

static const struct count counts[] = {
    {"4x4: edge 1", {0, 0, 0, 0}, 0, 0, 1, {2000, 2000, 200, 200}},
    {"4x4: edge 2", {0, 0, 0, 0}, 0, 0, 2, {0, 2000, 0, 200}},
    {"8x8: edge 1", {1, 0, 0, 0}, 0, 0, 1, {0, 0, 0, 0}},
    {"8x8: edge 2", {1, 0, 0, 0}, 0, 0, 2, {2200, 2200, 2200, 2200}},
    {"8x8: horizontal edge 2", {1, 0, 0, 0}, 0, 0, 6, {2200, 2200, 2200, 2200}},
    {"8x8: horizontal edge 3", {1, 0, 0, 0}, 0, 0, 7, {0, 0, 0, 0}},
    {"8x8: left edge", {0, 1, 0, 0}, 4, 1, 0, {2211, 2211, 2211, 2211}},
    {"left is 4x4", {0, 1, 1, 1}, 2, 1, 0, {1111, 2111, 1111, 1211}},
    {"left is 8x8", {1, 0, 0, 0}, 2, 1, 0, {2211, 2211, 2211, 2211}},
    {"above is 4x4", {0, 1, 1, 1}, 16, 2, 4, {1111, 1111, 2111, 1211}},
    {"above is 8x8", {1, 0, 0, 0}, 16, 2, 4, {2211, 2211, 2211, 2211}},
};

static uint32_t digits(const uint8_t *four)
{
    return four[0] * 1000u + four[1] * 100u + four[2] * 10u + four[3];
}

static void count_in_each(int way, const struct count *c)
{
    memcpy(t8s, c->flags, N);
    for (size_t k = 0; k < 4; k++) {
        decode();
        nnz[c->upper_left + k / 2 * 4 * W + k % 2] = 1;
        expect(c->what, DEBLOCK_DONE, derive(way, N, c->macroblock));
        expect(c->what, c->strengths[k], digits(strengths + 32 * c->macroblock + 4 * c->edge));
    }
}

static void all_counts(int way)
{
    for (size_t i = 0; i < sizeof counts / sizeof *counts; i++)
        count_in_each(way, counts + i);
}

int main(void)
{
    for (int way = 0; way < WAYS; way++) {
        flags_read(way);
        lengths(way);
        all_counts(way);
    }
    return faults != 0;
}
