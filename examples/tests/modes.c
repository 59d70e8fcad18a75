/* What the settings of slices come to in the planes: one edge of macroblock (1, 1) at a time, in all six
 * ways. All strengths are 0 but for that edge's, which are 1, and a step lies at it throughout the planes.
 * All is worked by hand, from docs/RULES.md, "Filtering". */
#include "slices.h"

/* A step at the edge, p3 to p0 and q0 to q3, and what comes out where it is filtered: in chroma p1, p0, q0
 * and q1. Chroma has the line from p1 to q1, and QPs below 30 are mapped to themselves. */
struct step {
    uint8_t qp, line[8], luma[8], chroma[4];
};

/* alpha 80, beta 13, tc0 4; (4 * 3 - 3 + 4) >> 3 = 1. In chroma, index 36, the same. */
static const struct step small = {
    40, {100, 100, 100, 100, 103, 103, 103, 103},
    {100, 100, 101, 101, 102, 102, 103, 103}, {100, 101, 102, 103}};

/* At index A 29 alpha is 22, and the step stays. With A 1 it is 25, and tc0 is 1: so tc is 3, in chroma 2. */
static const struct step by_a = {
    29, {100, 100, 100, 100, 122, 122, 122, 122},
    {100, 100, 101, 103, 119, 121, 122, 122}, {100, 102, 120, 122}};

/* At index B 29 beta is 7, and the step stays. With B 1 it is 8; (93 - 100 + 4) >> 3 = -1. */
static const struct step by_b = {
    29, {93, 93, 93, 100, 100, 100, 100, 100},
    {93, 93, 94, 99, 101, 100, 100, 100}, {93, 99, 101, 100}};

/* A table, the numbers of the four macroblocks, and which edges of (1, 1) are filtered: the vertical ones
 * from 0 to 3, then the horizontal ones. */
struct setting {
    const char *what;
    const struct step *step;
    struct deblock_slice slices[2];
    uint16_t numbers[N];
    const char *filtered;
};

static const struct setting settings[] = {
    {"mode 0", &small, {{0, 0, 0}, {1, 0, 0}}, {0, 0, 0, 0}, "11111111"},
    {"mode 0 beside others", &small, {{2, 0, 0}, {0, 0, 0}}, {0, 0, 0, 1}, "11111111"},
    {"mode 0 beside mode 1", &small, {{1, 0, 0}, {0, 0, 0}}, {0, 0, 0, 1}, "11111111"},
    {"mode 1", &small, {{0, 0, 0}, {1, 0, 0}}, {1, 1, 1, 1}, "00000000"},
    {"mode 1 beside mode 0", &small, {{0, 0, 0}, {1, 0, 0}}, {0, 0, 0, 1}, "00000000"},
    {"mode 2", &small, {{1, 0, 0}, {2, 0, 0}}, {1, 1, 1, 1}, "11111111"},
    {"mode 2 beside others", &small, {{0, 0, 0}, {2, 0, 0}}, {0, 0, 0, 1}, "01110111"},
    {"mode 2, left is another", &small, {{0, 0, 0}, {2, 0, 0}}, {1, 1, 0, 1}, "01111111"},
    {"mode 2, upper is another", &small, {{0, 0, 0}, {2, 0, 0}}, {1, 0, 1, 1}, "11110111"},
    {"mode 2, (0, 0) is another", &small, {{0, 0, 0}, {2, 0, 0}}, {0, 1, 1, 1}, "11111111"},
    {"mode 2, equal records", &small, {{2, 0, 0}, {2, 0, 0}}, {0, 0, 0, 1}, "01110111"},
    {"A of its slice", &by_a, {{0, 0, 0}, {0, 1, 0}}, {0, 0, 0, 1}, "11111111"},
    {"A of the others", &by_a, {{0, 1, 0}, {0, 0, 0}}, {0, 0, 0, 1}, "00000000"},
    {"B for A", &by_a, {{0, 0, 1}, {0, 0, 1}}, {0, 0, 0, 1}, "00000000"},
    {"B of its slice", &by_b, {{0, 0, 0}, {0, 0, 1}}, {0, 0, 0, 1}, "11111111"},
    {"B of the others", &by_b, {{0, 0, 1}, {0, 0, 0}}, {0, 0, 0, 1}, "00000000"},
    {"A for B", &by_b, {{0, 1, 0}, {0, 1, 0}}, {0, 0, 0, 1}, "00000000"},
    {"A at mode 1", &by_a, {{0, 0, 0}, {1, 1, 0}}, {0, 0, 0, 1}, "00000000"},
    {"A at mode 2", &by_a, {{0, 0, 0}, {2, 1, 0}}, {0, 0, 0, 1}, "01110111"},
};

/* Of a sample its place along a line across the edge, 0 at p3 and before it, 4 at q0, 7 at q3 and after it,
 * and whether that is a line of the edge. */
struct place { size_t along; int on_line; };

/* Sample i of a plane in which macroblocks have sides of so many samples. */
static struct place place_of(size_t i, size_t side, size_t edge)
{
    const size_t x = i % (side * W), y = i / (side * W), first = side + side / 4 * (edge % 4);
    const size_t along = edge < 4 ? x : y, across = edge < 4 ? y : x;
    struct place place;
    place.along = along + 4 < first ? 0 : along - first + 4;
    place.along = place.along < 8 ? place.along : 7;
    place.on_line = across >= side;
    return place;
}

static void draw_plane(uint8_t *plane, size_t side, const struct step *step, size_t edge)
{
    for (size_t i = 0; i < side * side * N; i++)
        plane[i] = step->line[place_of(i, side, edge).along];
}

static void draw(const struct step *step, size_t edge)
{
    draw_plane(luma, 16, step, edge);
    draw_plane(u, 8, step, edge);
    draw_plane(v, 8, step, edge);
    memset(qps, step->qp, sizeof qps);
    memset(strengths, 0, sizeof strengths);
    memset(strengths + 32 * 3 + 4 * edge, 1, 4);
}

/* Lines of the edge are like this, and all others as they were. */
static void expect_plane(const struct setting *s, const uint8_t *plane, size_t side, const uint8_t *line,
                         size_t edge)
{
    for (size_t i = 0; i < side * side * N; i++) {
        const struct place place = place_of(i, side, edge);
        expect(s->what, (place.on_line ? line : s->step->line)[place.along], plane[i]);
    }
}

/* Chroma has edges at luma edges 0 and 2. */
static void expect_edge(const struct setting *s, size_t edge)
{
    const int filtered = s->filtered[edge] == '1';
    uint8_t chroma[8];
    memcpy(chroma, s->step->line, 8);
    if (filtered && edge % 2 == 0)
        memcpy(chroma + 2, s->step->chroma, 4);
    expect_plane(s, luma, 16, filtered ? s->step->luma : s->step->line, edge);
    expect_plane(s, u, 8, chroma, edge);
    expect_plane(s, v, 8, chroma, edge);
}

static void each_edge(const struct setting *s)
{
    const struct deblock_picture p = lend_slices(2);
    memcpy(table, s->slices, sizeof s->slices);
    memcpy(numbers, s->numbers, sizeof s->numbers);
    for (size_t k = 0; k < 8 * WAYS; k++) {
        draw(s->step, k % 8);
        filter_all((int)(k / 8), &p);
        expect_edge(s, k % 8);
    }
}

int main(void)
{
    for (size_t i = 0; i < sizeof settings / sizeof *settings; i++)
        each_edge(settings + i);
    return faults != 0;
}
