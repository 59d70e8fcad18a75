/* What is refused of slices: how many numbers are lent, what a record may hold, which numbers are read and
 * what they may be, in which order that is asked for, and null pointers. A refusal writes nothing. */
#include <stddef.h>

#include "slices.h"

static uint8_t planes_before[sizeof planes], marks_before[N];

/* All strengths are 1, and all is marked but macroblock i, so that its visit is ready. */
static void start(size_t i)
{
    decode();
    memset(strengths, 1, sizeof strengths);
    memset(marks, 1, sizeof marks);
    marks[i] = 0;
}

/* One call, which changes planes and marks where it has work to do and is not refused. */
static void expect_call(const char *what, uint32_t want, int way, const struct deblock_picture *p,
                        size_t a, size_t b)
{
    const int idle = want != DEBLOCK_DONE || (way % 3 == ROWS && a == b);
    memcpy(planes_before, planes, sizeof planes);
    memcpy(marks_before, marks, sizeof marks);
    expect(what, want, filter(way, p, a, b));
    expect(what, !idle, memcmp(planes_before, planes, sizeof planes) != 0);
    expect(what, !idle && way % 3 == VISIT, memcmp(marks_before, marks, sizeof marks) != 0);
}

/* All of the picture, both its rows, and macroblock (1, 1). */
static void expect_answer(const char *what, uint32_t want, const struct deblock_picture *p)
{
    for (int way = 0; way < WAYS; way++) {
        start(3);
        expect_call(what, want, way, p, way % 3 == VISIT, way % 3 == VISIT ? 1 : H);
    }
}

/* Rows y to y - 1. */
static void expect_of_no_rows(const char *what, uint32_t want, const struct deblock_picture *p)
{
    for (size_t k = 0; k < 2 * (H + 1); k++) {
        start(3);
        expect_call(what, want, k % 2 ? 3 + ROWS : ROWS, p, k / 2, k / 2);
    }
}

static void expect_both(const char *what, uint32_t want, const struct deblock_picture *p)
{
    expect_answer(what, want, p);
    expect_of_no_rows(what, want, p);
}

static void lengths(void)
{
    static const size_t wrong[] = {0, 1, N - 1, N + 1};
    struct deblock_picture p = lend_slices(1);
    expect_both("as many numbers as macroblocks", DEBLOCK_DONE, &p);
    for (size_t i = 0; i < sizeof wrong / sizeof *wrong; i++) {
        p.slice_numbers_len = wrong[i];
        expect_both("not as many", DEBLOCK_MACROBLOCK_GRID_LENGTH, &p);
    }
}

/* A record, and what is answered where it stands in a table in which all others are 0. */
struct record { struct deblock_slice slice; uint32_t answer; };

static const struct record records[] = {
    {{0, 12, 12}, DEBLOCK_DONE}, {{0, -12, -12}, DEBLOCK_DONE}, {{0, -12, 12}, DEBLOCK_DONE},
    {{0, 13, 0}, DEBLOCK_BAD_OFFSET}, {{0, -13, 0}, DEBLOCK_BAD_OFFSET}, {{0, 127, 0}, DEBLOCK_BAD_OFFSET},
    {{0, 0, 13}, DEBLOCK_BAD_OFFSET}, {{0, 0, -13}, DEBLOCK_BAD_OFFSET}, {{0, 0, -128}, DEBLOCK_BAD_OFFSET},
    {{3, 0, 0}, DEBLOCK_BAD_SLICE_MODE}, {{255, 0, 0}, DEBLOCK_BAD_SLICE_MODE},
    {{3, 13, 0}, DEBLOCK_BAD_OFFSET},
};

/* Used, at place 0, or not. */
static void place_record(const struct record *r, size_t place)
{
    const struct deblock_picture p = lend_slices(LONG), cut = lend_slices(place);
    table[place] = r->slice;
    expect_both("a record", r->answer, &p);
    if (place > 0)
        expect_both("a record behind the end", DEBLOCK_DONE, &cut);
    memset(table, 0, sizeof table);
}

static void place_records(void)
{
    static const size_t places[] = {0, 1, 255, 256, LONG - 1};
    const size_t count = sizeof records / sizeof *records;
    for (size_t k = 0; k < count * sizeof places / sizeof *places; k++)
        place_record(records + k % count, places[k / count]);
}

/* Modes 1 and 2 where they are not used: that they are legal is all that counts. */
static void legal_modes(void)
{
    const struct deblock_picture p = lend_slices(3);
    table[1].mode = 1;
    table[2].mode = 2;
    expect_both("modes 0, 1 and 2", DEBLOCK_DONE, &p);
    memset(table, 0, sizeof table);
}

/* One number, in tables that end before it and with it. All others are 0. */
static void expect_number(uint32_t want, int way, size_t i, size_t a, size_t b)
{
    static const uint16_t given[] = {1, 255, 256, LONG - 1};
    for (size_t k = 0; k < sizeof given / sizeof *given; k++) {
        const struct deblock_picture inside = lend_slices(given[k] + 1u), outside = lend_slices(given[k]);
        numbers[i] = given[k];
        start(way % 3 == VISIT ? b * W + a : 0);
        expect_call("a number inside", DEBLOCK_DONE, way, &inside, a, b);
        start(way % 3 == VISIT ? b * W + a : 0);
        expect_call("a number outside", want, way, &outside, a, b);
        numbers[i] = 0;
    }
}

/* A visit reads the numbers of its own, its left and its upper macroblock. */
static void read_by_visits(size_t i)
{
    for (size_t k = 0; k < 2 * N; k++) {
        const size_t own = k / 2, x = own % W, y = own / W;
        const int read = i == own || (x > 0 && i == own - 1) || (y > 0 && i == own - W);
        expect_number(read ? DEBLOCK_BAD_SLICE_NUMBER : DEBLOCK_DONE, k % 2 ? 3 + VISIT : VISIT, i, x, y);
    }
}

/* Rows read their own and those of the row above, a whole picture reads all. */
static void read_by_rows(size_t i)
{
    const size_t y = i / W;
    for (size_t k = 0; k < 2; k++) {
        const int rows = k ? 3 + ROWS : ROWS;
        expect_number(y == 0 ? DEBLOCK_BAD_SLICE_NUMBER : DEBLOCK_DONE, rows, i, 0, 1);
        expect_number(DEBLOCK_BAD_SLICE_NUMBER, rows, i, 1, 2);
        expect_number(DEBLOCK_BAD_SLICE_NUMBER, rows, i, 0, 2);
        expect_number(DEBLOCK_DONE, rows, i, 1, 1);
        expect_number(DEBLOCK_DONE, rows, i, 2, 2);
        expect_number(DEBLOCK_BAD_SLICE_NUMBER, k ? 3 + WHOLE : WHOLE, i, 0, 0);
    }
}

/* Of three rows the last does not read the numbers of the first. */
static void read_by_the_last_row(void)
{
    struct deblock_picture p = lend_slices(1);
    start(3);
    p.w = 1, p.h = 3;
    p.luma_len = 256 * 3, p.u_len = p.v_len = 64 * 3;
    p.strengths_len = 32 * 3, p.qps_len = p.marks_len = p.slice_numbers_len = 3;
    numbers[0] = 1;
    expect("row 2", DEBLOCK_DONE, filter(ROWS, &p, 2, 3));
    expect("row 1", DEBLOCK_BAD_SLICE_NUMBER, filter(ROWS, &p, 1, 2));
    numbers[0] = 0;
}

/* An empty table is not as none: it has no slice that a number could name. */
static void empty_table(void)
{
    const struct deblock_picture p = lend_slices(0);
    expect_answer("an empty table", DEBLOCK_BAD_SLICE_NUMBER, &p);
    expect_of_no_rows("an empty table, no rows", DEBLOCK_DONE, &p);
}

/* Each line mends what the one before it was refused for, in a call of one way. */
static void order(int way)
{
    struct deblock_picture p = lend_slices(LONG);
    const int visit = way % 3 == VISIT;
    const size_t a = visit, b = visit ? 1 : H;
    start(3);
    marks[3] = visit ? 2 : 0;
    marks[2] = 0;
    qps[3] = 52;
    strengths[32 * 3] = 5;
    numbers[3] = LONG;
    table[LONG - 1].mode = 3;
    table[LONG - 1].a = 13;
    p.slice_numbers_len--;
    p.v_len--;
    expect_call("V cut", DEBLOCK_PLANE_LENGTH, way, &p, a, b);
    p.v_len++;
    expect_call("numbers cut", DEBLOCK_MACROBLOCK_GRID_LENGTH, way, &p, a, b);
    p.slice_numbers_len++;
    expect_call("A at 13", DEBLOCK_BAD_OFFSET, way, &p, a, b);
    table[LONG - 1].a = 0;
    if (visit)
        expect_call("mark 2", DEBLOCK_NOT_A_BOOL, way, &p, a, b);
    marks[3] = 1;
    expect_call("QP 52", DEBLOCK_BAD_QP, way, &p, a, b);
    qps[3] = 51;
    expect_call("strength 5", DEBLOCK_BAD_STRENGTH, way, &p, a, b);
    strengths[32 * 3] = 4;
    expect_call("a number outside", DEBLOCK_BAD_SLICE_NUMBER, way, &p, a, b);
    numbers[3] = LONG - 2;
    expect_call("mode 3", DEBLOCK_BAD_SLICE_MODE, way, &p, a, b);
    table[LONG - 1].mode = 2;
    if (visit)
        expect_call("marked", DEBLOCK_MARKED_ALREADY, way, &p, a, b);
    marks[3] = 0;
    if (visit)
        expect_call("not ready", DEBLOCK_NOT_READY, way, &p, a, b);
    marks[2] = 1;
    expect_call("mended", DEBLOCK_DONE, way, &p, a, b);
    memset(table, 0, sizeof table);
    numbers[3] = 0;
}

static void all_orders(void)
{
    for (int way = 0; way < WAYS; way++)
        order(way);
}

/* The chroma offsets are asked about beside the records. */
static void chroma_offsets(void)
{
    struct deblock_picture p = lend_slices(1);
    p.offset_chroma = 12;
    p.offset_v_minus_u = -24;
    expect_both("at 12 and -12", DEBLOCK_DONE, &p);
    p.offset_v_minus_u = 1;
    expect_both("V's at 13", DEBLOCK_BAD_OFFSET, &p);
    p.offset_chroma = -13;
    expect_both("U's at -13", DEBLOCK_BAD_OFFSET, &p);
}

/* At every mode a visit of macroblock i waits for each of its three neighbours, and sets its mark. */
static void expect_waits(size_t i, size_t neighbour)
{
    const struct deblock_picture p = lend_slices(1);
    for (int k = 0; k < 6; k++) {
        const int way = k % 2 ? 3 + VISIT : VISIT;
        table[0].mode = (uint8_t)(k / 2);
        start(i);
        marks[neighbour] = 0;
        expect("waits", DEBLOCK_NOT_READY, filter(way, &p, i % W, i / W));
        marks[neighbour] = 1;
        expect("is ready", DEBLOCK_DONE, filter(way, &p, i % W, i / W));
        expect("its mark", 1, marks[i]);
        expect("once more", DEBLOCK_MARKED_ALREADY, filter(way, &p, i % W, i / W));
    }
    memset(table, 0, sizeof table);
}

static void visits_of_all_modes(void)
{
    expect_waits(3, 2); /* left */
    expect_waits(3, 1); /* upper */
    expect_waits(2, 1); /* upper right */
}

/* Over structs: a null pointer is not lent, and with a length it is a wrong one, after earlier checks. */
static void expect_null(const char *what, uint32_t of_rows, uint32_t of_no_rows, struct deblock_picture p)
{
    for (int way = WHOLE; way <= VISIT; way++) {
        start(3);
        expect_call(what, of_rows, way, &p, way == VISIT, way == VISIT ? 1 : H);
    }
    expect_call(what, of_no_rows, ROWS, &p, 1, 1);
    p.v_len--;
    expect_call("V cut, and null", DEBLOCK_PLANE_LENGTH, ROWS, &p, 1, 1);
}

static void null_pointers(void)
{
    const uint32_t bad = DEBLOCK_MACROBLOCK_GRID_LENGTH;
    struct deblock_picture p = lend_slices(0);
    p.slices = NULL;
    expect_null("no table", DEBLOCK_BAD_SLICE_NUMBER, DEBLOCK_DONE, p);
    p.slices_len = 1;
    expect_null("a null table", bad, bad, p);
    p = lend_slices(1);
    p.slice_numbers = NULL;
    expect_null("null numbers", bad, bad, p);
    p.slice_numbers_len = 0;
    expect_null("no numbers", bad, bad, p);
    p.slices = NULL;
    p.slices_len = 0;
    expect_null("neither", bad, bad, p);
}

/* The members of slices stand behind those that 0.8.0 had; a record is laid out as the archive has it. */
static void members(void)
{
    const size_t last = offsetof(struct deblock_picture, marks_len);
    expect("slices behind them", 1, offsetof(struct deblock_picture, slices) > last);
    expect("numbers behind them", 1, offsetof(struct deblock_picture, slice_numbers) > last);
    expect("a record's bytes", 3, sizeof(struct deblock_slice));
}

int main(void)
{
    lengths();
    place_records();
    legal_modes();
    for (size_t i = 0; i < N; i++) {
        read_by_visits(i);
        read_by_rows(i);
    }
    read_by_the_last_row();
    empty_table();
    all_orders();
    chroma_offsets();
    visits_of_all_modes();
    null_pointers();
    members();
    return faults != 0;
}
