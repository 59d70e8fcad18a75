/* record FILE QP [V_MINUS_U [PICTURE [MODE]]]: writes a recording (crates/recordings/FORMAT.md) from a
 * station's buffers, with this QP in every macroblock. The offsets are 0, but V's chroma offset is V_MINUS_U
 * if that is given. If PICTURE is given, list 0 has a table: index 0 names this picture, index 1 the next. If
 * MODE is given, each row is a slice: the upper one of mode 0, with offset A 6, the lower one of this mode.
 * `target/host/release/deblock replay FILE` replays it. */
#include <stdio.h>
#include <stdlib.h>

#include "station.h"

/* Writes the low bytes of a number, the lowest first. */
static void put(FILE *file, unsigned long number, int bytes)
{
    for (int i = 0; i < bytes; i++)
        fputc((int)(number >> 8 * i & 255), file);
}

static void put_motion(FILE *file, const int16_t *motion, size_t len)
{
    for (size_t i = 0; i < len; i++)
        put(file, (unsigned long)motion[i], 2);
}

/* Writes a grid, which may be one that is not lent. */
static void put_grid(FILE *file, const void *grid, size_t len)
{
    if (len > 0)
        fwrite(grid, 1, len, file);
}

static void put_table(FILE *file, const int32_t *pictures, size_t len)
{
    put(file, len, 2);
    for (size_t i = 0; i < len; i++)
        put(file, (unsigned long)pictures[i], 2);
}

/* Writes the header and all planes. `before` is Y, U and V as they were before p was filtered. */
static void put_planes(FILE *file, const uint8_t *before, const struct deblock_picture *p, int flags)
{
    fputs("DBV1", file);
    put(file, p->w, 2);
    put(file, p->h, 2);
    put(file, 8, 1); /* bits a sample */
    put(file, 1, 1); /* one frame */
    put(file, (unsigned long)flags, 1);
    put(file, (unsigned long)p->offset_chroma, 1);
    put(file, (unsigned long)deblock_picture_chroma_v(p), 1);
    put(file, 0, 1);
    fwrite(before, 1, p->luma_len + p->u_len + p->v_len, file);
    fwrite(p->luma, 1, p->luma_len, file);
    fwrite(p->u, 1, p->u_len, file);
    fwrite(p->v, 1, p->v_len, file);
}

/* An empty table is one too, so the numbers tell. */
static int has_slices(const struct deblock_picture *p)
{
    return p->slice_numbers_len > 0;
}

/* A and B of the picture: 0 where slices have their own. */
static void put_offsets(FILE *file, const struct deblock_picture *p)
{
    put(file, has_slices(p) ? 0 : (unsigned long)p->offset_a, 1);
    put(file, has_slices(p) ? 0 : (unsigned long)p->offset_b, 1);
}

static void put_slices(FILE *file, const struct deblock_slice *slices, size_t len)
{
    put(file, len, 2);
    for (size_t i = 0; i < len; i++) {
        put(file, slices[i].mode, 1);
        put(file, (unsigned long)slices[i].a, 1);
        put(file, (unsigned long)slices[i].b, 1);
    }
}

static void put_numbers(FILE *file, const uint16_t *numbers, size_t len)
{
    for (size_t i = 0; i < len; i++)
        put(file, numbers[i], 2);
}

/* List 0 has a table wherever list 1 has one. */
static int has_tables(const struct deblock_grids *g)
{
    return g->pictures0_len > 0;
}

/* 16 only informs here: where the chroma offsets differ, a reader expects grids with it and without it. */
static int flags_of(const struct deblock_picture *p, const struct deblock_grids *g)
{
    return (g->ref1_len > 0 ? 1 : 0) | (p->t8s_len > 0 ? 2 : 0) | (has_slices(p) ? 4 : 0) |
           (has_tables(g) ? 8 : 0) | (p->offset_v_minus_u != 0 ? 16 : 0);
}

static void record(FILE *file, const uint8_t *before, const struct deblock_picture *p,
                   const struct deblock_grids *g)
{
    put_planes(file, before, p, flags_of(p, g));
    put_offsets(file, p);
    if (has_slices(p))
        put_slices(file, p->slices, p->slices_len);
    if (has_tables(g)) {
        put_table(file, g->pictures0, g->pictures0_len);
        put_table(file, g->pictures1, g->pictures1_len);
    }
    put_grid(file, p->qps, p->qps_len);
    put_grid(file, p->t8s, p->t8s_len);
    put_numbers(file, p->slice_numbers, p->slice_numbers_len);
    put_grid(file, g->inter, g->inter_len);
    put_grid(file, g->nnz, g->nnz_len);
    put_grid(file, g->ref0, g->ref0_len);
    put_motion(file, g->mv0, g->mv0_len);
    put_grid(file, g->ref1, g->ref1_len);
    put_motion(file, g->mv1, g->mv1_len);
    put_grid(file, p->strengths, p->strengths_len);
}

/* Derives all strengths and filters the picture. */
static uint32_t filter(const struct deblock_picture *p, const struct deblock_grids *g)
{
    uint32_t answer = DEBLOCK_DONE;
    for (size_t y = 0; y < H && answer == DEBLOCK_DONE; y++)
        answer = deblock_picture_strengths_row(p, g, y, NULL, 0);
    if (answer != DEBLOCK_DONE)
        return answer;
    return has_slices(p) ? deblock_picture_whole_slices(p) : deblock_picture_whole(p);
}

/* The settings of two slices, one a row. */
static void lend_slices(struct deblock_picture *p, uint8_t mode)
{
    static const uint16_t numbers[N] = {0, 0, 1, 1};
    static struct deblock_slice slices[] = {{0, 6, 0}, {0, 0, 0}};
    slices[1].mode = mode;
    p->slices = slices;
    p->slices_len = 2;
    p->slice_numbers = numbers;
    p->slice_numbers_len = N;
}

static int trouble(const char *what)
{
    fprintf(stderr, "record: %s\n", what);
    return 2;
}

int main(int argc, char **argv)
{
    if (argc < 3 || argc > 6)
        return trouble("the arguments are FILE, QP and, if you like, V_MINUS_U, PICTURE and MODE");
    decode();
    memset(qps, atoi(argv[2]), sizeof qps);
    struct deblock_picture p = lend_picture();
    struct deblock_grids g = lend_grids();
    if (argc > 3)
        p.offset_v_minus_u = atoi(argv[3]);
    int32_t picture = argc > 4 ? atoi(argv[4]) : 0;
    int32_t pictures[] = { picture, picture + 1 };
    if (argc > 4) {
        g.pictures0 = pictures;
        g.pictures0_len = 2;
    }
    if (argc > 5)
        lend_slices(&p, (uint8_t)atoi(argv[5]));
    uint8_t before[sizeof planes];
    memcpy(before, planes, sizeof planes);
    uint32_t answer = filter(&p, &g);
    if (answer != DEBLOCK_DONE)
        return trouble(deblock_answer_text(answer));

    FILE *file = fopen(argv[1], "wb");
    if (!file)
        return trouble("the file cannot be made");
    record(file, before, &p, &g);
    int bad = ferror(file);
    bad |= fclose(file);
    return bad ? trouble("the file cannot be written") : 0;
}
