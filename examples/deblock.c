/* Strengths from the grids, visits in the order of arrival, and the same by the whole-picture call. */
#include <stdio.h>

#include "station.h"

/* Derives the strengths of macroblock i and prints the first of its left, upper and inner edges. */
static void derive(const struct deblock_picture *p, const struct deblock_grids *g, size_t i)
{
    uint32_t answer = deblock_picture_strengths(p, g, i % W, i / W);
    const uint8_t *own = p->strengths + 32 * i;
    printf("strengths of (%zu, %zu): %s; left edge %u, upper edge %u, inner edges %u\n", i % W, i / W,
           deblock_answer_text(answer), own[0], own[16], own[4]);
}

static uint8_t waiting[N];

/* Visits macroblock i if it has arrived and waits. It goes on waiting until it is done: at 14 for a
 * neighbour, at another number for whoever mends what is lent. */
static void visit_if_waiting(const struct deblock_picture *p, size_t i)
{
    if (!waiting[i])
        return;
    uint32_t answer = deblock_picture_visit(p, i % W, i / W);
    waiting[i] = answer != DEBLOCK_DONE && answer != DEBLOCK_MARKED_ALREADY;
    printf("visit of (%zu, %zu): %u, %s\n", i % W, i / W, (unsigned)answer, deblock_answer_text(answer));
}

/* Macroblock i has arrived. One pass in raster order makes all visits that can be made: what a visit
 * makes ready comes later in raster order. */
static void arrive(const struct deblock_picture *p, size_t i)
{
    waiting[i] = 1;
    for (size_t j = 0; j < N; j++)
        visit_if_waiting(p, j);
}

/* Prints luma of column 15: four samples above the edge at row 16, and four below. By hand, at QP 40 and
 * strength 1, where tc0 is 4: the visit of (1, 0) moves 100 | 103 by (4 * 3 - 3 + 4) >> 3 = 1, so that column
 * 15 holds 101; then that of (0, 1) moves 101 | 105 by (4 * 4 - 4 + 4) >> 3 = 2, and the samples next to them
 * by 1. The old release, which did not wait for (1, 0), had 102 in row 15. */
static void print_column(void)
{
    printf("column 15 across row 16:");
    for (size_t row = 12; row < 20; row++)
        printf("%s%u", row == 16 ? " | " : " ", luma[16 * W * row + 15]);
    printf("\n");
}

int main(void)
{
    decode();
    struct deblock_picture p = lend_picture();
    struct deblock_grids g = lend_grids();
    for (size_t i = 0; i < N; i++)
        derive(&p, &g, i);

    arrive(&p, 0);
    arrive(&p, 2); /* (0, 1) waits for its upper right neighbour, (1, 0) */
    arrive(&p, 1);
    arrive(&p, 3);
    arrive(&p, 3); /* once more: refused */
    print_column();

    uint8_t by_visits[sizeof planes];
    memcpy(by_visits, planes, sizeof planes);
    decode();
    uint32_t answer = deblock_picture_whole(&p);
    printf("whole picture: %s, %s planes\n", deblock_answer_text(answer),
           memcmp(by_visits, planes, sizeof planes) == 0 ? "the same" : "other");
    return 0;
}
