/* A painter, which shows each macroblock once: when it is final (docs/GUIDE.md, "When a macroblock may be
 * shown"). Macroblocks arrive in a mixed order and are visited as they become ready; after each visit that is
 * done it asks what the visit has made final, and copies that to its screen. In the end the screen must hold
 * the picture as the whole-picture call filters it; else it says so and ends with status 1.
 *
 * It prints examples/painter.txt, which was worked out without it, from the rules: a macroblock is painted
 * after the last of the visits of it, its right and its lower neighbour. Here the grids are there at the
 * start; examples/slices.c derives strengths as slices arrive. */
#include "decoder.h"

/* Of each macroblock the number of its arrival, that of its visit, and that of the visit after which it was
 * painted. The last two are 0 until then. */
static const unsigned arrival[N] = {
     2,  4,  1,  9, 15,
     3,  6, 11, 12, 17,
     5, 10, 14, 18,  8,
     7, 13, 19, 16, 20,
};
static unsigned visited[N], painted[N];

static unsigned visits;
static struct buffers station, whole;
static struct planes screen;

/* Paints macroblock i, which is final. What the planes hold of it is not looked at again. */
static void paint(size_t i)
{
    must(!painted[i], "a macroblock is painted twice");
    painted[i] = visits;
    copy_samples(&screen, &station.planes, i);
}

/* Paints what the visit of macroblock i has made final: of itself, its left and its upper neighbour. */
static void paint_made_final(const struct deblock_picture *p, size_t i)
{
    const struct deblock_finals made = deblock_picture_made_final(p, i % W, i / W);
    must_be_done(made.answer);
    if (made.own)
        paint(i);
    if (made.left)
        paint(i - 1);
    if (made.upper)
        paint(i - W);
}

/* Visits macroblock i if it is among the first so many to arrive and waits. At 14 it goes on waiting. */
static void visit(const struct deblock_picture *p, size_t i, unsigned arrived)
{
    if (arrival[i] > arrived || visited[i])
        return;
    const uint32_t answer = deblock_picture_visit(p, i % W, i / W);
    if (answer == DEBLOCK_NOT_READY)
        return;
    must_be_done(answer);
    visited[i] = ++visits;
    paint_made_final(p, i);
}

/* One more arrives and is stored. One pass in raster order makes all visits that can be made: what a visit
 * makes ready comes later in raster order. */
static void arrive(const struct deblock_picture *p, unsigned arrived)
{
    for (size_t i = 0; i < N; i++) {
        if (arrival[i] == arrived)
            copy_samples(&station.planes, &sent.planes, i);
        visit(p, i, arrived);
    }
}

/* The strengths are derived; of the samples nothing has arrived. */
static void start(void)
{
    whole = sent;
    const struct deblock_picture p = lend_picture(&whole);
    const struct deblock_grids g = lend_grids(&whole);
    derive_all(&p, &g);
    station = whole;
    memset(&station.planes, 255, sizeof station.planes);
    must_be_done(deblock_picture_whole(&p));
}

static void compare(void)
{
    for (size_t i = 0; i < N; i++)
        must(painted[i] != 0, "a macroblock is never painted");
    must(memcmp(&screen, &whole.planes, sizeof screen) == 0, "the screen is not the whole picture filtered");
}

static void print_row(const unsigned *numbers, const char *end)
{
    for (size_t x = 0; x < W; x++)
        printf("%3u", numbers[x]);
    printf("%s", end);
}

static void print_numbers(void)
{
    printf("each macroblock's arrival, its visit, and the visit after which it is painted\n");
    for (size_t i = 0; i < N; i += W) {
        print_row(arrival + i, "    ");
        print_row(visited + i, "    ");
        print_row(painted + i, "\n");
    }
}

int main(void)
{
    decode(++number);
    start();
    const struct deblock_picture p = lend_picture(&station);
    for (unsigned arrived = 1; arrived <= N; arrived++)
        arrive(&p, arrived);
    compare();
    print_numbers();
    printf("%u macroblocks painted, each once: the screen is the whole picture filtered\n", (unsigned)N);
    return 0;
}
