/* Weighted prediction, where two indices of a reference list may name one picture (docs/GUIDE.md, "Reference
 * lists"): a macroblock's strengths by index and by picture, side by side. Then two slices with lists of
 * their own, which one table cannot serve. All blocks are inter, without coefficients and with vectors 0, so
 * that nothing but their pictures can differ.
 *
 * It prints examples/weighted.txt, which was worked out without it, from the rules: the strength between two
 * blocks is 1 where what their references name differs, and else 0. */
#include <stdio.h>
#include <stdlib.h>

#include "station.h"

/* Derives the strengths of macroblock (1, 0), with list 0's table or, of length 0, without one. */
static void derive(const int32_t *pictures0, size_t len, uint8_t *own)
{
    const struct deblock_picture p = lend_picture();
    struct deblock_grids g = lend_grids();
    g.pictures0 = pictures0;
    g.pictures0_len = len;
    const uint32_t answer = deblock_picture_strengths(&p, &g, 1, 0);
    if (answer != DEBLOCK_DONE) {
        fprintf(stderr, "%s\n", deblock_answer_text(answer));
        exit(1);
    }
    memcpy(own, p.strengths + 32, 32);
}

static void print_edge(const uint8_t *four, const char *end)
{
    printf("   %u %u %u %u%s", four[0], four[1], four[2], four[3], end);
}

/* The indices of (0, 0) and (1, 0), an 8x8 block each, and list 0: indices 0 and 1, which differ in their
 * weights, are picture 7, and index 2 is picture 9. */
static void one_list(void)
{
    static const int8_t indices[2][4] = {
        {0, 0, 0, 1},
        {0, 0, 2, 0},
    };
    static const int32_t pictures0[] = {7, 7, 9};
    uint8_t by_index[32], by_picture[32];
    for (size_t block = 0; block < 32; block++)
        ref0[block] = indices[block / 16][block / 2 % 4];
    derive(NULL, 0, by_index);
    derive(pictures0, 3, by_picture);
    printf("one list: strengths of (1, 0)    by index by picture\n");
    for (size_t edge = 0; edge < 8; edge++) {
        printf("%10s edge %u              ", edge < 4 ? "vertical" : "horizontal", (unsigned)edge % 4);
        print_edge(by_index + 4 * edge, "");
        print_edge(by_picture + 4 * edge, "\n");
    }
}

/* Stores a reference in every block of macroblock (x, 0). */
static void store(size_t x, int32_t reference)
{
    for (size_t row = 0; row < 4; row++)
        memset(ref0 + 4 * W * row + 4 * x, reference, 4);
}

static void print_left_edge(const char *what, const int32_t *pictures0, size_t len)
{
    uint8_t own[32];
    derive(pictures0, len, own);
    printf("%-31s", what);
    print_edge(own, "\n");
}

/* (0, 0) and (1, 0) are slices with lists of their own: index 0 is picture 7 in the first and picture 9
 * in the second, so the strength between them is 1. */
static void two_lists(void)
{
    static const int32_t first[] = {7}, second[] = {9};
    store(0, 0); /* indices: one table cannot say what both mean */
    store(1, 0);
    print_left_edge("  indices, the first's table", first, 1);   /* 0: wrong */
    print_left_edge("  indices, the second's table", second, 1); /* 0: wrong */
    store(0, first[0]); /* numbers of pictures, each by the list of its own slice */
    store(1, second[0]);
    print_left_edge("  numbers, both tables empty", NULL, 0); /* 1 */
}

int main(void)
{
    decode();
    one_list();
    printf("two slices with lists of their own: left edge of (1, 0)\n");
    two_lists();
    return 0;
}
