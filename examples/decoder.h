/* For examples/slices.c, painter.c, fields.c and settings.c: a decoder's stand-in, which makes random
 * pictures and the order in which their slices arrive; a picture's memory, how it is lent and how a
 * macroblock of it is copied; and what must hold. All values are legal, though no encoder would choose them
 * so. */
#include <stdio.h>
#include <stdlib.h>
#include <string.h>

#include "deblock.h"

enum { W = 5, H = 4, N = W * H };

struct planes { uint8_t luma[256 * N], u[64 * N], v[64 * N]; };

/* The memory of a picture. */
struct buffers {
    struct planes planes;
    uint8_t strengths[32 * N], qps[N], t8s[N], marks[N], inter[16 * N], nnz[16 * N];
    int8_t ref0[16 * N], ref1[16 * N];
    int16_t mv0[32 * N], mv1[32 * N];
};

/* Macroblocks first to last, in raster order. */
struct slice { size_t first, last; };

/* What the decoder makes: all but strengths and marks, which stay 0. */
static struct buffers sent;

/* In the order in which they arrive. */
static struct slice slices[N + 1];
static size_t arrivals;

static uint32_t random_state;

/* A random number below n. */
static inline uint32_t below(size_t n)
{
    random_state ^= random_state << 13;
    random_state ^= random_state >> 17;
    random_state ^= random_state << 5;
    return (random_state >> 8) % (uint32_t)n;
}

/* Slices of 1 to 6 macroblocks, and one of them once more. */
static inline void cut_slices(void)
{
    arrivals = 0;
    for (size_t first = 0; first < N; first = slices[arrivals++].last + 1) {
        const size_t last = first + below(6);
        slices[arrivals].first = first;
        slices[arrivals].last = last < N ? last : N - 1;
    }
    slices[arrivals] = slices[below(arrivals)];
    arrivals++;
}

static inline void shuffle_slices(void)
{
    for (size_t i = arrivals - 1; i > 0; i--) {
        const size_t j = below(i + 1);
        const struct slice other = slices[i];
        slices[i] = slices[j];
        slices[j] = other;
    }
}

/* Noise, which the filter smooths. */
static inline void decode_plane(uint8_t *plane, size_t len)
{
    for (size_t i = 0; i < len; i++)
        plane[i] = (uint8_t)(100 + below(10));
}

/* A block's reference and vector in a list: -1 and 0 where it does not use the list. */
static inline void decode_motion(int uses, int8_t *ref, int16_t *mv)
{
    *ref = uses ? (int8_t)below(2) : -1;
    mv[0] = uses ? (int16_t)below(8) : 0;
    mv[1] = uses ? (int16_t)below(8) : 0;
}

/* Inter blocks use list 0, list 1 or both. Counts are the blocks' own, also under an 8x8 transform, as CAVLC
 * has them (docs/GUIDE.md, "What the numbers in the grids mean"). */
static inline void decode_macroblock(size_t i)
{
    const uint8_t inter = below(3) > 0, t8 = below(3) == 0;
    const uint32_t coded = below(65536); /* a bit a block */
    sent.qps[i] = (uint8_t)(30 + below(22));
    sent.t8s[i] = t8;
    for (size_t k = 0; k < 16; k++) {
        const size_t block = (i / W * 4 + k / 4) * 4 * W + i % W * 4 + k % 4;
        const uint32_t lists = inter ? 1 + below(3) : 0;
        sent.inter[block] = inter;
        sent.nnz[block] = coded >> k & 1;
        decode_motion((lists & 1) != 0, sent.ref0 + block, sent.mv0 + 2 * block);
        decode_motion((lists & 2) != 0, sent.ref1 + block, sent.mv1 + 2 * block);
    }
}

/* Picture 1, 2 and so on. The slices come first: so their order depends on nothing else. */
static inline void decode(uint32_t number)
{
    random_state = number * 57639; /* with this factor picture 1 has a bit of everything */
    cut_slices();
    shuffle_slices();
    decode_plane(sent.planes.luma, sizeof sent.planes.luma);
    decode_plane(sent.planes.u, sizeof sent.planes.u);
    decode_plane(sent.planes.v, sizeof sent.planes.v);
    for (size_t i = 0; i < N; i++)
        decode_macroblock(i);
}

static inline struct deblock_picture lend_picture(struct buffers *b)
{
    struct deblock_picture p = DEBLOCK_NONE;
    p.w = W; p.h = H;
    p.offset_a = 2; p.offset_b = -2;
    p.offset_chroma = 1; p.offset_v_minus_u = -4; /* V's is -3: a High profile stream may send two */
    p.luma = b->planes.luma; p.luma_len = 256 * N;
    p.u = b->planes.u; p.u_len = 64 * N;
    p.v = b->planes.v; p.v_len = 64 * N;
    p.strengths = b->strengths; p.strengths_len = 32 * N;
    p.qps = b->qps; p.qps_len = N;
    p.t8s = b->t8s; p.t8s_len = N;
    p.marks = b->marks; p.marks_len = N;
    return p;
}

static inline struct deblock_grids lend_grids(const struct buffers *b)
{
    struct deblock_grids g = DEBLOCK_NONE;
    g.inter = b->inter; g.inter_len = 16 * N;
    g.nnz = b->nnz; g.nnz_len = 16 * N;
    g.ref0 = b->ref0; g.ref0_len = 16 * N;
    g.mv0 = b->mv0; g.mv0_len = 32 * N;
    g.ref1 = b->ref1; g.ref1_len = 16 * N;
    g.mv1 = b->mv1; g.mv1_len = 32 * N;
    return g;
}

/* Copies macroblock i of a plane or grid in which it has so many rows of so many bytes. */
static inline void copy(void *to, const void *from, size_t i, size_t rows, size_t bytes)
{
    for (size_t row = i / W * rows; row < (i / W + 1) * rows; row++) {
        const size_t first = (row * W + i % W) * bytes;
        memcpy((char *)to + first, (const char *)from + first, bytes);
    }
}

static inline void copy_samples(struct planes *to, const struct planes *from, size_t i)
{
    copy(to->luma, from->luma, i, 16, 16);
    copy(to->u, from->u, i, 8, 8);
    copy(to->v, from->v, i, 8, 8);
}

static uint32_t number; /* of the picture, or of the frame */

/* Where it does not hold the program says so and ends with status 1. */
static inline void must(int holds, const char *what)
{
    if (holds)
        return;
    fprintf(stderr, "picture %u: %s\n", (unsigned)number, what);
    exit(1);
}

static inline void must_be_done(uint32_t answer)
{
    must(answer == DEBLOCK_DONE, deblock_answer_text(answer));
}

/* All strengths of a picture whose data are all there, row by row. */
static inline void derive_all(const struct deblock_picture *p, const struct deblock_grids *g)
{
    for (size_t y = 0; y < H; y++)
        must_be_done(deblock_picture_strengths_row(p, g, y, NULL, 0));
}
