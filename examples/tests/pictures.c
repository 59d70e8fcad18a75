/* What references name where tables are lent: the strength between two blocks, and what is uniform, by
 * picture and, without tables, by number. All is worked by hand, from docs/RULES.md, "Strengths". */
#include "lists.h"

/* A list's table, of which so many entries are lent. */
struct table { int32_t pictures[3]; size_t len; };

/* The references of a block in both lists, and the x of its two vectors. */
struct motion { int8_t ref0, ref1; int16_t x0, x1; };

/* Two blocks, and what comes out with the tables and without them. */
struct pair {
    const char *what;
    struct motion p, q;
    struct table table0, table1;
    uint32_t by_picture, by_number;
};

static void store(size_t block, struct motion m)
{
    ref0[block] = m.ref0;
    ref1[block] = m.ref1;
    mv0[2 * block] = m.x0;
    mv1[2 * block] = m.x1;
}

/* q in every block but those of macroblock 0 that p takes: all, or the last. */
static void store_pair(const struct pair *pair, int all)
{
    decode();
    for (size_t i = 0; i < 16 * N; i++)
        store(i, pair->q);
    for (size_t k = all ? 0 : 15; k < 16; k++)
        store(k / 4 * 4 * W + k % 4, pair->p);
}

static struct deblock_grids lend_tables(const struct pair *pair)
{
    return lend_lists(1, pair->table0.pictures, pair->table0.len, pair->table1.pictures, pair->table1.len);
}

static struct deblock_grids lend_none(const struct pair *pair)
{
    return lend_lists(1, pair->table0.pictures, 0, pair->table1.pictures, 0);
}

/* A strength, 0 or 1. Index 2 is past a table of two entries. */
static const struct pair strengths_between[] = {
    {"one index", {1, -1, 0, 0}, {1, -1, 0, 0}, {{5, 6}, 2}, {{9}, 1}, 0, 0},
    {"one picture", {0, -1, 0, 0}, {1, -1, 0, 0}, {{5, 5}, 2}, {{9}, 1}, 0, 1},
    {"one picture, the last entry", {0, -1, 0, 0}, {2, -1, 0, 0}, {{5, 6, 5}, 3}, {{9}, 1}, 0, 1},
    {"two pictures", {0, -1, 0, 0}, {1, -1, 0, 0}, {{5, 6}, 2}, {{5}, 1}, 1, 1},
    {"pictures 0 and 256", {0, -1, 0, 0}, {1, -1, 0, 0}, {{0, 256}, 2}, {{9}, 1}, 1, 1},
    {"pictures 65535 and 255", {0, -1, 0, 0}, {1, -1, 0, 0}, {{65535, 255}, 2}, {{9}, 1}, 1, 1},
    {"one picture, near", {0, -1, 0, 0}, {1, -1, 3, 0}, {{5, 5}, 2}, {{9}, 1}, 0, 1},
    {"one picture, far", {0, -1, 0, 0}, {1, -1, 4, 0}, {{5, 5}, 2}, {{9}, 1}, 1, 1},
    {"picture 65535, far", {0, -1, 0, 0}, {0, -1, 4, 0}, {{65535}, 1}, {{9}, 1}, 1, 1},
    {"past beside picture 0", {1, -1, 0, 0}, {2, -1, 0, 0}, {{5, 0}, 2}, {{9}, 1}, 1, 1},
    {"past beside its own number", {1, -1, 0, 0}, {2, -1, 0, 0}, {{5, 2}, 2}, {{9}, 1}, 1, 1},
    {"past beside the last entry", {1, -1, 0, 0}, {2, -1, 0, 0}, {{5, 6}, 2}, {{9}, 1}, 1, 1},
    {"past beside unused", {2, 0, 0, 0}, {-1, 0, 0, 0}, {{5, 6}, 2}, {{9}, 1}, 0, 1},
    {"past beside past, far", {2, -1, 0, 0}, {3, -1, 8, 0}, {{5, 6}, 2}, {{9}, 1}, 0, 1},
    {"past in list 1", {0, 1, 0, 0}, {0, -1, 0, 0}, {{5, 6}, 2}, {{9}, 1}, 0, 1},
    {"unused is no entry", {0, -1, 0, 0}, {0, 0, 0, 0}, {{5}, 1}, {{9}, 1}, 1, 1},
    {"one picture, by other lists", {0, -1, 0, 0}, {-1, 1, 0, 0}, {{5}, 1}, {{9, 5}, 2}, 0, 1},
    {"one index, by other lists", {0, -1, 0, 0}, {-1, 0, 0, 0}, {{5}, 1}, {{9}, 1}, 1, 0},
    {"crossed, near", {0, 0, 0, 8}, {1, 1, 8, 0}, {{5, 9}, 2}, {{9, 5}, 2}, 0, 1},
    {"crossed, far", {0, 0, 0, 8}, {1, 1, 0, 8}, {{5, 9}, 2}, {{9, 5}, 2}, 1, 1},
    {"crossed indices, four pictures", {0, 1, 0, 0}, {1, 0, 0, 0}, {{5, 6}, 2}, {{7, 8}, 2}, 1, 0},
    {"one picture twice, crossed", {0, 1, 0, 8}, {0, 1, 8, 0}, {{5}, 1}, {{9, 5}, 2}, 0, 1},
    {"one picture twice, far", {0, 1, 0, 8}, {0, 1, 8, 4}, {{5}, 1}, {{9, 5}, 2}, 1, 1},
    {"one picture twice and two", {0, 1, 0, 0}, {0, 0, 0, 0}, {{5}, 1}, {{9, 5}, 2}, 1, 1},
};

/* The first and the last strength of the left edge of macroblock 1 and of the upper edge of macroblock 2. */
static void expect_strength(const char *what, uint32_t want, struct deblock_grids g)
{
    for (int way = 0; way < WAYS; way++) {
        memset(strengths, 9, sizeof strengths);
        expect(what, DEBLOCK_DONE, derive(way, g, 1));
        expect(what, DEBLOCK_DONE, derive(way, g, 2));
        expect(what, want, strengths[32]);
        expect(what, want, strengths[35]);
        expect(what, want, strengths[64 + 16]);
        expect(what, want, strengths[64 + 19]);
    }
}

/* What a call answers that is told that a macroblock is uniform, or flat: 0 or 12. Each list is compared with
 * itself, and the vectors of a reference that names none count too. */
static const struct pair uniform_or_not[] = {
    {"one picture", {0, -1, 0, 0}, {1, -1, 0, 0}, {{5, 5}, 2}, {{9}, 1}, 0, 12},
    {"one picture in list 1", {-1, 1, 0, 0}, {-1, 0, 0, 0}, {{9}, 1}, {{5, 5}, 2}, 0, 12},
    {"two pictures", {0, -1, 0, 0}, {1, -1, 0, 0}, {{5, 6}, 2}, {{5}, 1}, 12, 12},
    {"one picture, other vectors", {0, -1, 0, 0}, {1, -1, 1, 0}, {{5, 5}, 2}, {{9}, 1}, 12, 12},
    {"past and unused", {2, 0, 0, 0}, {-1, 0, 0, 0}, {{5, 6}, 2}, {{9}, 1}, 0, 12},
    {"past and past", {2, -1, 0, 0}, {3, -1, 0, 0}, {{5, 6}, 2}, {{9}, 1}, 0, 12},
    {"past, other vectors", {2, 0, 0, 0}, {-1, 0, 1, 0}, {{5, 6}, 2}, {{9}, 1}, 12, 12},
    {"unused, other vectors", {0, -1, 0, 0}, {0, -1, 0, 1}, {{5}, 1}, {{9}, 1}, 12, 12},
    {"one picture by other lists", {0, -1, 0, 0}, {-1, 0, 0, 0}, {{5}, 1}, {{5}, 1}, 12, 12},
};

/* Said by flags and by kind, over structs and flat. */
static void expect_said(const char *what, uint32_t want, struct deblock_grids g)
{
    for (int way = 0; way < WAYS; way += OVER_STRUCTS) {
        expect(what, want, derive_as(way + FLAGS, g, 0, DEBLOCK_UNIFORM, 0));
        expect(what, want, derive_as(way + FLAGS, g, 0, DEBLOCK_FLAT, 0));
        expect(what, want, derive_as(way + KIND, g, 0, 0, DEBLOCK_INTER_UNIFORM));
        expect(what, want, derive_as(way + KIND, g, 0, 0, DEBLOCK_SKIP));
        expect(what, want, derive_as(way + ROW_BY_KINDS, g, 0, 0, DEBLOCK_INTER_UNIFORM));
        expect(what, want, derive_as(way + ROW_BY_KINDS, g, 0, 0, DEBLOCK_SKIP));
    }
}

/* Each pair with its tables and without them; p is in all blocks of macroblock 0, or in one. */
static void both_ways(const struct pair *pairs, size_t count, int all,
                      void (*expected)(const char *what, uint32_t want, struct deblock_grids g))
{
    for (const struct pair *pair = pairs; pair < pairs + count; pair++) {
        store_pair(pair, all);
        expected(pair->what, pair->by_picture, lend_tables(pair));
        expected(pair->what, pair->by_number, lend_none(pair));
    }
}

/* Index 127, the last that a grid can hold, in tables that end before it, with it and after it. */
static void last_index(void)
{
    static const struct pair pair = {"index 127", {0, -1, 0, 0}, {127, -1, 0, 0}, {{0}, 0}, {{0}, 0}, 0, 0};
    static int32_t pictures[300];
    store_pair(&pair, 1);
    expect_strength("127 entries", 1, lend_lists(1, pictures, 127, pictures, 1));
    expect_strength("128 entries", 0, lend_lists(1, pictures, 128, pictures, 1));
    expect_strength("300 entries", 0, lend_lists(1, pictures, 300, pictures, 1));
    pictures[127] = 5;
    expect_strength("300 entries, two pictures", 1, lend_lists(1, pictures, 300, pictures, 1));
}

int main(void)
{
    both_ways(strengths_between, sizeof strengths_between / sizeof *strengths_between, 1, expect_strength);
    both_ways(uniform_or_not, sizeof uniform_or_not / sizeof *uniform_or_not, 0, expect_said);
    last_index();
    return faults != 0;
}
