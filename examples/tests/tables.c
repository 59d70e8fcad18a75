/* What is refused of reference tables: which may be empty, what entries they may have, in which order that is
 * asked for, and null pointers. A refusal writes nothing. */
#include <stddef.h>

#include "lists.h"

enum { LONG = 1000 };
static int32_t table0[LONG], table1[LONG];

/* By each of the ways. */
static void expect_answer(const char *what, uint32_t want, struct deblock_grids g)
{
    for (int way = 0; way < WAYS; way++) {
        memset(strengths, 9, sizeof strengths);
        expect(what, want, derive(way, g, 3));
        expect(what, want == DEBLOCK_DONE ? 0 : 9, strengths[32 * 3 + 31]);
    }
}

/* Which of the tables are lent, with list 1 and without it. */
static void empty_tables(void)
{
    const uint32_t bad = DEBLOCK_BLOCK_GRID_LENGTH;
    decode();
    for (int list1 = 0; list1 < 2; list1++) {
        expect_answer("no table", DEBLOCK_DONE, lend_lists(list1, table0, 0, table1, 0));
        expect_answer("both tables", DEBLOCK_DONE, lend_lists(list1, table0, 1, table1, 1));
        expect_answer("a longer one", DEBLOCK_DONE, lend_lists(list1, table0, LONG, table1, 1));
        expect_answer("a shorter one", DEBLOCK_DONE, lend_lists(list1, table0, 1, table1, LONG));
        expect_answer("list 1's alone", bad, lend_lists(list1, table0, 0, table1, 1));
    }
    expect_answer("list 0's alone, one list", DEBLOCK_DONE, lend_lists(0, table0, 1, table1, 0));
    expect_answer("list 0's alone, two lists", bad, lend_lists(1, table0, 1, table1, 0));
}

/* One entry, used or not, in a table in which all others are 0. List 1 is lent or not. */
static void expect_entry(uint32_t want, int32_t *entry, int32_t picture)
{
    *entry = picture;
    expect_answer("an entry", want, lend_lists(0, table0, LONG, table1, LONG));
    expect_answer("an entry, two lists", want, lend_lists(1, table0, LONG, table1, LONG));
    *entry = 0;
}

static void entries(void)
{
    static const size_t places[] = {0, 1, 127, 128, LONG - 1};
    decode();
    for (size_t i = 0; i < sizeof places / sizeof *places; i++)
        for (int list = 0; list < 2; list++) {
            int32_t *entry = (list ? table1 : table0) + places[i];
            expect_entry(DEBLOCK_DONE, entry, 65535);
            expect_entry(DEBLOCK_BAD_PICTURE_NUMBER, entry, 65536);
            expect_entry(DEBLOCK_BAD_PICTURE_NUMBER, entry, -1);
            expect_entry(DEBLOCK_BAD_PICTURE_NUMBER, entry, INT32_MAX);
            expect_entry(DEBLOCK_BAD_PICTURE_NUMBER, entry, INT32_MIN);
        }
}

/* What is not lent is not asked about: entries behind a table's end. */
static void entries_not_lent(void)
{
    decode();
    table0[1] = table1[1] = -1;
    expect_answer("behind the end", DEBLOCK_DONE, lend_lists(1, table0, 1, table1, 1));
    expect_answer("behind no table", DEBLOCK_DONE, lend_lists(1, table0, 0, table1, 0));
    table0[1] = table1[1] = 0;
}

/* Each line mends what the one before it was refused for. The block is macroblock 2's last, beside macroblock
 * 3: of a row the first macroblock's answer comes first. */
static void order(void)
{
    const size_t block = 16 * N - 5;
    struct deblock_grids g = lend_lists(0, table0, 0, table1, LONG);
    decode();
    table1[LONG - 1] = 65536;
    ref0[block] = -2;
    inter[block] = 2;
    expect_answer("just one table", DEBLOCK_BLOCK_GRID_LENGTH, g);
    g.pictures0_len = 1;
    expect_answer("inter 2", DEBLOCK_NOT_A_BOOL, g);
    inter[block] = 0;
    expect_answer("reference -2", DEBLOCK_BAD_REFERENCE, g);
    ref0[block] = 0;
    expect_answer("picture 65536", DEBLOCK_BAD_PICTURE_NUMBER, g);
    table1[LONG - 1] = 65535;
    expect_answer("mixed", DEBLOCK_MIXED_INTER, g);
    inter[block] = 1;
    expect_answer("mended", DEBLOCK_DONE, g);
}

/* 22 is asked before 12. */
static void order_of_kinds(void)
{
    const struct deblock_grids g = lend_lists(0, table0, 1, table1, 0);
    decode();
    for (int way = 0; way < WAYS; way++) {
        if (way % OVER_STRUCTS != KIND && way % OVER_STRUCTS != ROW_BY_KINDS)
            continue;
        table0[0] = -1;
        expect("picture -1", DEBLOCK_BAD_PICTURE_NUMBER, derive_as(way, g, 0, 0, DEBLOCK_INTRA));
        table0[0] = 0;
        expect("picture 0", DEBLOCK_UNTRUE, derive_as(way, g, 0, 0, DEBLOCK_INTRA));
    }
}

/* Over structs: a null table is not lent, and with a length it is a wrong one, after earlier checks. */
static void expect_null(const char *what, uint32_t want, struct deblock_grids g)
{
    for (int way = 0; way < OVER_STRUCTS; way++) {
        expect(what, want, derive(way, g, 3));
        expect("outside, and null", DEBLOCK_OUTSIDE, derive(way, g, N));
    }
}

static void null_tables(int list1)
{
    const uint32_t bad = DEBLOCK_BLOCK_GRID_LENGTH, done = DEBLOCK_DONE;
    decode();
    expect_null("no tables", done, lend_lists(list1, NULL, 0, NULL, 0));
    expect_null("no table of list 0", bad, lend_lists(list1, NULL, 0, table1, 1));
    expect_null("no table of list 1", list1 ? bad : done, lend_lists(list1, table0, 1, NULL, 0));
    expect_null("null table of list 0", bad, lend_lists(list1, NULL, 1, table1, 1));
    expect_null("null table of list 0 alone", bad, lend_lists(list1, NULL, 1, table1, 0));
    expect_null("null table of list 1", bad, lend_lists(list1, table0, 1, NULL, 1));
    expect_null("null table of list 1 alone", bad, lend_lists(list1, table0, 0, NULL, 1));
    expect_null("null tables", bad, lend_lists(list1, NULL, 2, NULL, 2));
}

/* The tables stand behind the members that 0.7.0 had. */
static void members(void)
{
    const size_t last = offsetof(struct deblock_grids, mv1_len);
    expect("pictures0 behind them", 1, offsetof(struct deblock_grids, pictures0) > last);
    expect("pictures1 behind them", 1, offsetof(struct deblock_grids, pictures1) > last);
}

int main(void)
{
    empty_tables();
    entries();
    entries_not_lent();
    order();
    order_of_kinds();
    null_tables(0);
    null_tables(1);
    members();
    return faults != 0;
}
