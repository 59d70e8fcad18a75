/* A station to which slices arrive in a random order, one of them twice. It stores what arrives, visits what
 * is ready and shows what is final, by the rules of docs/GUIDE.md, "Slices as they arrive". Its planes and
 * its screen must then hold what the whole-picture call makes of a picture that had all data at the start,
 * and so must rows from the top. 50 pictures; at the first difference it says so and ends with status 1.
 *
 * The same in Rust is host/binding/examples/slices. Both cut and shuffle slices alike, and print
 * examples/slices.txt. */
#include "decoder.h"

static struct buffers station;
static uint8_t arrived[N], derived[N], shown[N];
static struct planes screen;

/* Stores macroblock i when it arrives, and not again: by then its samples may be filtered ones. */
static void store(size_t i)
{
    if (arrived[i])
        return;
    arrived[i] = 1;
    copy_samples(&station.planes, &sent.planes, i);
    copy(station.inter, sent.inter, i, 4, 4);
    copy(station.nnz, sent.nnz, i, 4, 4);
    copy(station.ref0, sent.ref0, i, 4, 4);
    copy(station.mv0, sent.mv0, i, 4, 8 * sizeof *sent.mv0);
    copy(station.ref1, sent.ref1, i, 4, 4);
    copy(station.mv1, sent.mv1, i, 4, 8 * sizeof *sent.mv1);
    station.qps[i] = sent.qps[i];
    station.t8s[i] = sent.t8s[i];
}

/* Derives the strengths of macroblock i once the blocks and flags to its left and above are there too. The
 * call could not tell that they are not, and would answer 0 with other strengths. */
static void derive(size_t i)
{
    const int left = i % W == 0 || arrived[i - 1];
    const int upper = i < W || arrived[i - W];
    if (derived[i] || !(arrived[i] && left && upper))
        return;
    const struct deblock_picture p = lend_picture(&station);
    const struct deblock_grids g = lend_grids(&station);
    must_be_done(deblock_picture_strengths(&p, &g, i % W, i / W));
    derived[i] = 1;
}

/* Visits macroblock i if it waits. At 14 it goes on waiting: so it does while its strengths are not derived,
 * since its left or upper neighbour is unmarked then. */
static void visit(size_t i)
{
    if (!arrived[i] || station.marks[i])
        return;
    const struct deblock_picture p = lend_picture(&station);
    const uint32_t answer = deblock_picture_visit(&p, i % W, i / W);
    if (answer != DEBLOCK_NOT_READY)
        must_be_done(answer);
}

/* Shows macroblock i once, when it is final. examples/painter.c asks after each visit instead. */
static void show(size_t i)
{
    if (shown[i])
        return;
    const struct deblock_picture p = lend_picture(&station);
    const struct deblock_finality told = deblock_picture_is_final(&p, i % W, i / W);
    must_be_done(told.answer);
    shown[i] = told.yes;
    if (shown[i])
        copy_samples(&screen, &station.planes, i);
}

static void each(void (*step)(size_t), size_t first, size_t last)
{
    for (size_t i = first; i <= last; i++)
        step(i);
}

/* A slice has arrived. One pass in raster order makes all visits that can be made: what a visit makes ready
 * comes later in raster order. */
static void arrive(struct slice s)
{
    each(store, s.first, s.last);
    each(derive, 0, N - 1);
    each(visit, 0, N - 1);
    each(show, 0, N - 1);
}

static char letter(size_t i)
{
    if (shown[i])
        return 's';
    if (station.marks[i])
        return 'm';
    return arrived[i] ? 'w' : '.';
}

/* Prints the macroblocks' letters in rows. */
static void print_letters(struct slice s)
{
    printf("%2u to %2u", (unsigned)s.first, (unsigned)s.last);
    for (size_t i = 0; i < N; i++)
        printf("%s%c", i % W == 0 ? "  " : "", letter(i));
    printf("\n");
}

/* All of these are 0 at first, by the guide: a visit that is not ready may look at strengths that are not
 * derived and at QPs that have not arrived, and they must be legal. Planes and grids may hold what they held:
 * nothing reads that before it is written. */
static void start_picture(void)
{
    memset(station.strengths, 0, sizeof station.strengths);
    memset(station.qps, 0, sizeof station.qps);
    memset(station.t8s, 0, sizeof station.t8s);
    memset(station.marks, 0, sizeof station.marks);
    memset(arrived, 0, sizeof arrived);
    memset(derived, 0, sizeof derived);
    memset(shown, 0, sizeof shown);
}

static void receive_slices(void)
{
    start_picture();
    for (size_t s = 0; s < arrivals; s++) {
        arrive(slices[s]);
        if (number == 1)
            print_letters(slices[s]);
    }
}

static void filter_rows(struct buffers *b)
{
    const struct deblock_picture p = lend_picture(b);
    for (size_t y = 0; y < H; y++)
        must_be_done(deblock_picture_rows(&p, y, y + 1));
}

static void compare(void)
{
    static struct buffers whole, rows;
    whole = sent;
    const struct deblock_picture p = lend_picture(&whole);
    const struct deblock_grids g = lend_grids(&whole);
    derive_all(&p, &g);
    rows = whole;
    filter_rows(&rows);
    must_be_done(deblock_picture_whole(&p));
    must(memcmp(&rows.planes, &whole.planes, sizeof screen) == 0, "rows from the top give other planes");
    must(memcmp(&station.planes, &whole.planes, sizeof screen) == 0, "visits give other planes");
    must(memcmp(&screen, &whole.planes, sizeof screen) == 0, "the screen is not as the planes are");
}

int main(void)
{
    memset(&station, 255, sizeof station); /* nothing leans on what the memory held */
    printf("picture 1 after each slice: . has not arrived, w waits, m is marked, s is shown\n");
    for (number = 1; number <= 50; number++) {
        decode(number);
        receive_slices();
        compare();
    }
    printf("50 pictures: visits, screen and rows from the top are equal to the whole picture's\n");
    return 0;
}
