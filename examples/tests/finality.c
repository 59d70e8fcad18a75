/* What is final, by both calls, flat and over a struct: the marks one by one, every answer in the order in
 * which it is asked for, and the members of the structs that are answered. */
#include "test.h"

static uint8_t lent[36864];

/* The answer and what it tells, as digits: 1 is done and final, 70 is a refusal with 7. */
static uint32_t digits_of_one(struct deblock_finality told)
{
    return told.answer * 10 + told.yes;
}

/* The same of three: 101 is done, with the macroblock and its upper neighbour final. */
static uint32_t digits_of_three(struct deblock_finals told)
{
    return told.answer * 1000 + told.own * 100u + told.left * 10u + told.upper;
}

/* All is left out but size and marks, and the part is none: nothing else is looked at. */
static struct deblock_picture lend_marks(size_t w, size_t h, size_t len)
{
    struct deblock_picture p = DEBLOCK_NONE;
    p.w = w;
    p.h = h;
    p.part = DEBLOCK_BOTTOM_FIELD + 1;
    p.marks = lent;
    p.marks_len = len;
    return p;
}

/* A question, its marks row by row, and the digits of both calls. */
struct question {
    const char *what;
    size_t w, h, x, y;
    const char *marks;
    uint32_t one, three;
};

static void ask(const struct question *q)
{
    const size_t len = strlen(q->marks);
    const struct deblock_picture p = lend_marks(q->w, q->h, len);
    for (size_t i = 0; i < len; i++)
        lent[i] = (uint8_t)(q->marks[i] - '0');
    expect(q->what, q->one, digits_of_one(deblock_is_final(q->w, q->h, q->x, q->y, lent, len)));
    expect(q->what, q->one, digits_of_one(deblock_picture_is_final(&p, q->x, q->y)));
    expect(q->what, q->three, digits_of_three(deblock_made_final(q->w, q->h, q->x, q->y, lent, len)));
    expect(q->what, q->three, digits_of_three(deblock_picture_made_final(&p, q->x, q->y)));
}

/* By hand. The lower right neighbour of the macroblock is not asked about, nor its upper left one. */
static const struct question questions[] = {
    {"1 by 1", 1, 1, 0, 0, "0", 0, 0},
    {"1 by 1, own", 1, 1, 0, 0, "1", 1, 100},
    {"2 by 1, own", 2, 1, 0, 0, "10", 0, 0},
    {"2 by 1, right", 2, 1, 0, 0, "01", 0, 0},
    {"2 by 1, both", 2, 1, 0, 0, "11", 1, 100},
    {"2 by 1, last: own", 2, 1, 1, 0, "01", 1, 100},
    {"2 by 1, last: both", 2, 1, 1, 0, "11", 1, 110},
    {"1 by 2, own", 1, 2, 0, 0, "10", 0, 0},
    {"1 by 2, lower", 1, 2, 0, 0, "01", 0, 0},
    {"1 by 2, both", 1, 2, 0, 0, "11", 1, 100},
    {"1 by 2, last: own", 1, 2, 0, 1, "01", 1, 100},
    {"1 by 2, last: both", 1, 2, 0, 1, "11", 1, 101},
    {"2 by 2, own is missing", 2, 2, 0, 0, "0111", 0, 0},
    {"2 by 2, right is missing", 2, 2, 0, 0, "1011", 0, 0},
    {"2 by 2, lower is missing", 2, 2, 0, 0, "1101", 0, 0},
    {"2 by 2, lower right is missing", 2, 2, 0, 0, "1110", 1, 100},
    {"3 by 3, all", 3, 3, 1, 1, "111111111", 1, 111},
    {"3 by 3, own is missing", 3, 3, 1, 1, "111101111", 0, 0},
    {"3 by 3, right is missing", 3, 3, 1, 1, "111110111", 0, 11},
    {"3 by 3, lower is missing", 3, 3, 1, 1, "111111101", 0, 11},
    {"3 by 3, left is missing", 3, 3, 1, 1, "111011111", 1, 101},
    {"3 by 3, lower left is missing", 3, 3, 1, 1, "111111011", 1, 101},
    {"3 by 3, upper is missing", 3, 3, 1, 1, "101111111", 1, 110},
    {"3 by 3, upper right is missing", 3, 3, 1, 1, "110111111", 1, 110},
    {"3 by 3, the others are missing", 3, 3, 1, 1, "011111110", 1, 111},
    {"3 by 2, upper corner", 3, 2, 2, 0, "111001", 1, 100},
    {"3 by 2, lower corner", 3, 2, 0, 1, "010110", 1, 100},
    {"no columns", 0, 1, 0, 0, "", 10, 1000},
    {"no rows", 1, 0, 0, 0, "", 10, 1000},
    {"257 wide", 257, 1, 257, 0, "2", 10, 1000},
    {"257 high", 1, 257, 0, 257, "2", 10, 1000},
    {"256 by 145", 256, 145, 0, 145, "2", 10, 1000},
    {"as large as can be said", SIZE_MAX, SIZE_MAX, 0, 0, "1", 10, 1000},
    {"right of it", 2, 1, 2, 0, "2", 20, 2000},
    {"below it", 2, 1, 0, 1, "2", 20, 2000},
    {"far right of it", 2, 1, SIZE_MAX, 0, "22", 20, 2000},
    {"far below it", 2, 1, 0, SIZE_MAX, "22", 20, 2000},
    {"no marks", 2, 1, 0, 0, "", 40, 4000},
    {"a mark too few", 2, 1, 0, 0, "2", 40, 4000},
    {"a mark too many", 2, 1, 0, 0, "222", 40, 4000},
};

static void all_questions(void)
{
    for (size_t i = 0; i < sizeof questions / sizeof *questions; i++)
        ask(questions + i);
}

/* Which marks of 3 by 3 each call reads, asked about (1, 1). */
static const char read_by_one[] = "000011010", read_by_three[] = "011111110";

/* A mark 2 in place i, and one mark in all others. */
static void mark_2(char others, size_t i)
{
    char marks[] = "000000000";
    const uint32_t told = others == '1';
    memset(marks, others, 9);
    marks[i] = '2';
    const struct question q = {"mark 2", 3, 3, 1, 1, marks, read_by_one[i] == '1' ? 70 : told,
                               read_by_three[i] == '1' ? 7000 : 111 * told};
    ask(&q);
}

static void marks_read(void)
{
    for (size_t i = 0; i < 9; i++) {
        mark_2('0', i);
        mark_2('1', i);
    }
}

static void largest(size_t w, size_t h)
{
    const struct deblock_picture p = lend_marks(w, h, sizeof lent);
    memset(lent, 1, sizeof lent);
    expect("largest, first", 1, digits_of_one(deblock_picture_is_final(&p, 0, 0)));
    expect("largest, last", 111, digits_of_three(deblock_picture_made_final(&p, w - 1, h - 1)));
    lent[w] = 0;
    expect("largest, lower is missing", 0, digits_of_one(deblock_picture_is_final(&p, 0, 0)));
    lent[sizeof lent - 1] = 0;
    expect("largest, last is missing", 0, digits_of_three(deblock_picture_made_final(&p, w - 1, h - 1)));
}

/* Marks that are not lent, with a length and without; what is asked for earlier is told all the same. */
static void null_marks(size_t len)
{
    struct deblock_picture p = lend_marks(2, 1, len);
    p.marks = NULL;
    expect("null marks", 40, digits_of_one(deblock_picture_is_final(&p, 0, 0)));
    expect("null marks", 4000, digits_of_three(deblock_picture_made_final(&p, 0, 0)));
    expect("null marks, outside", 20, digits_of_one(deblock_picture_is_final(&p, 0, 1)));
    expect("null marks, outside", 2000, digits_of_three(deblock_picture_made_final(&p, 0, 1)));
}

int main(void)
{
    all_questions();
    marks_read();
    largest(256, 144);
    largest(144, 256);
    null_marks(0);
    null_marks(2);
    expect("bytes of the first struct", 8, (uint32_t)sizeof(struct deblock_finality));
    expect("bytes of the second struct", 8, (uint32_t)sizeof(struct deblock_finals));
    return faults != 0;
}
