/* Slices with settings of their own (docs/GUIDE.md, "Slices"): three, of modes 0, 2 and 1, which arrive in
 * each of the six orders. With a slice the station stores its record, its macroblocks' numbers and what
 * else belongs to them; then it visits what is ready and shows what is final. It numbers slices in two ways:
 * by their places in the picture, in a table that holds zeros for each slice that has not arrived, and as
 * they arrive, in a table that grows. Each time its planes and its screen must then hold what the
 * whole-picture call makes of a picture that had all data at the start. 50 pictures; at the first difference
 * it says so and ends with status 1.
 *
 * It prints examples/settings.txt, which was worked out without it, from the rules. Here the strengths are
 * there at the start; examples/slices.c derives them as slices arrive. */
#include "decoder.h"

enum { FIRST, SECOND, THIRD, SLICES, ORDERS = 6 };

/* By their places in the picture. They meet within rows, so that left edges lie between them too. */
static const char *const names[SLICES] = {"first", "second", "third"};
static const struct slice places[SLICES] = {{0, 6}, {7, 12}, {13, N - 1}};
static const struct deblock_slice settings[SLICES] = {{0, 4, 2}, {2, -2, 6}, {1, 0, -4}};

/* In the first of them the second slice is late. */
static const int orders[ORDERS][SLICES] = {
    {FIRST, THIRD, SECOND}, {FIRST, SECOND, THIRD}, {SECOND, FIRST, THIRD},
    {SECOND, THIRD, FIRST}, {THIRD, FIRST, SECOND}, {THIRD, SECOND, FIRST},
};

/* The picture with its strengths, before and after the whole-picture call. */
static struct buffers decoded, whole;

static struct buffers station;
static struct planes screen;
static uint8_t arrived[N];

/* What the station lends of slices. */
static struct deblock_slice table[SLICES];
static size_t records;
static uint16_t numbers[N];

static struct deblock_picture lend_station(void)
{
    struct deblock_picture p = lend_picture(&station);
    p.slices = table;
    p.slices_len = records;
    p.slice_numbers = numbers;
    p.slice_numbers_len = N;
    return p;
}

/* Stores a slice's record and its macroblocks' numbers: at its own place of the table, or behind those that
 * are there. */
static void store_slice(int slice, int growing)
{
    const size_t number_of_it = growing ? records++ : (size_t)slice;
    table[number_of_it] = settings[slice];
    for (size_t i = places[slice].first; i <= places[slice].last; i++)
        numbers[i] = (uint16_t)number_of_it;
}

static void store_macroblocks(int slice)
{
    for (size_t i = places[slice].first; i <= places[slice].last; i++) {
        arrived[i] = 1;
        copy_samples(&station.planes, &sent.planes, i);
        station.qps[i] = sent.qps[i];
    }
}

/* Shows what the visit of macroblock i has made final, as examples/painter.c does: slices change nothing. */
static void show_made_final(const struct deblock_picture *p, size_t i)
{
    const struct deblock_finals made = deblock_picture_made_final(p, i % W, i / W);
    must_be_done(made.answer);
    if (made.own)
        copy_samples(&screen, &station.planes, i);
    if (made.left)
        copy_samples(&screen, &station.planes, i - 1);
    if (made.upper)
        copy_samples(&screen, &station.planes, i - W);
}

/* Visits macroblock i if it waits. At 14 it goes on waiting. */
static void visit(size_t i)
{
    const struct deblock_picture p = lend_station();
    if (!arrived[i] || station.marks[i])
        return;
    const uint32_t answer = deblock_picture_visit_slices(&p, i % W, i / W);
    if (answer == DEBLOCK_NOT_READY)
        return;
    must_be_done(answer);
    show_made_final(&p, i);
}

static void visit_ready(void)
{
    for (size_t i = 0; i < N; i++)
        visit(i);
}

/* Prints the table as it is lent. */
static void print_table(int slice)
{
    printf("%s slice:", names[slice]);
    for (size_t k = 0; k < records; k++)
        printf(" (%d, %d, %d)", table[k].mode, table[k].a, table[k].b);
    printf("\n");
}

static char letter(size_t i)
{
    if (station.marks[i])
        return 'm';
    return arrived[i] ? 'w' : '.';
}

/* Prints the macroblocks' numbers and letters in rows. */
static void print_macroblocks(void)
{
    for (size_t i = 0; i < N; i++)
        printf("%s%u%c", i % W == 0 ? "    " : " ", numbers[i], letter(i));
    printf("\n");
}

static void print_station(int slice)
{
    print_table(slice);
    print_macroblocks();
}

/* Before a slice arrives its record is zeros, or the table ends before it. The numbers and QPs of its
 * macroblocks are 0: a visit that is not ready may look at them, and they must be legal. */
static void start(int growing)
{
    station = decoded;
    memset(&station.planes, 255, sizeof station.planes);
    memset(&screen, 0, sizeof screen);
    memset(station.qps, 0, sizeof station.qps);
    memset(arrived, 0, sizeof arrived);
    memset(table, 0, sizeof table);
    memset(numbers, 0, sizeof numbers);
    records = growing ? 0 : SLICES;
}

static void receive(const int *order, int growing)
{
    start(growing);
    for (size_t k = 0; k < SLICES; k++) {
        store_slice(order[k], growing);
        store_macroblocks(order[k]);
        visit_ready();
        if (number == 1 && order == orders[0])
            print_station(order[k]);
    }
    must(memcmp(&station.planes, &whole.planes, sizeof screen) == 0, "visits give other planes");
    must(memcmp(&screen, &whole.planes, sizeof screen) == 0, "the screen is not the whole picture filtered");
}

/* Filters the picture whole, with all settings there from the start. */
static void filter_whole(void)
{
    static uint16_t by_place[N];
    whole = decoded;
    for (size_t i = 0; i < N; i++)
        by_place[i] = (i >= places[SECOND].first) + (i >= places[THIRD].first);
    struct deblock_picture p = lend_picture(&whole);
    p.slices = settings;
    p.slices_len = SLICES;
    p.slice_numbers = by_place;
    p.slice_numbers_len = N;
    must_be_done(deblock_picture_whole_slices(&p));
}

static void decode_with_strengths(void)
{
    decode(number);
    decoded = sent;
    const struct deblock_picture p = lend_picture(&decoded);
    const struct deblock_grids g = lend_grids(&decoded);
    derive_all(&p, &g);
}

static void receive_in_all_orders(int growing)
{
    for (size_t i = 0; i < ORDERS; i++)
        receive(orders[i], growing);
}

int main(void)
{
    printf("the second slice is late: . has not arrived, w waits, m is marked\n");
    for (number = 1; number <= 50; number++) {
        decode_with_strengths();
        filter_whole();
        receive_in_all_orders(0); /* by place */
        receive_in_all_orders(1); /* by arrival */
    }
    printf("50 pictures, 6 orders, numbers by place and by arrival: as the whole picture is filtered\n");
    return 0;
}
