/* The buffers of a small station, as its decoder leaves them, and how they are lent: a picture of 2 by 2
 * macroblocks, that of crates/recordings/data/upper-right.dbv. */
#include <string.h>

#include "deblock.h"

enum { W = 2, H = 2, N = W * H };

static uint8_t planes[384 * N];
static uint8_t *const luma = planes, *const u = planes + 256 * N, *const v = planes + 320 * N;
static uint8_t strengths[32 * N], qps[N], marks[N];
static uint8_t inter[16 * N], nnz[16 * N];
static int8_t ref0[16 * N];
static int16_t mv0[32 * N];

/* Every macroblock has one value. */
static inline void decode_luma(void)
{
    static const uint8_t values[N] = {100, 103, 105, 104};
    for (size_t i = 0; i < 256 * N; i++)
        luma[i] = values[i / 512 * W + i / 16 % W];
}

/* Waves in the right half of the first macroblock. */
static inline void decode_u(void)
{
    static const uint8_t waves[8] = {113, 107, 94, 87, 87, 94, 107, 113};
    memset(u, 100, 64 * N);
    for (size_t row = 0; row < 8; row++)
        memcpy(u + 16 * row + 4, waves + row / 4 * 4, 4);
}

/* The first macroblock in two halves, and the last. */
static inline void decode_v(void)
{
    memset(v, 100, 64 * N);
    for (size_t row = 0; row < 16; row++)
        memset(v + 16 * row + row / 8 * 8, row < 4 ? 105 : 95, 8);
}

/* All blocks are inter, without coefficients or motion; neighbours predict from different pictures. */
static inline void decode_grids(void)
{
    memset(inter, 1, sizeof inter);
    memset(nnz, 0, sizeof nnz);
    memset(mv0, 0, sizeof mv0);
    for (size_t i = 0; i < 16 * N; i++)
        ref0[i] = (i / 4 + i / 32) % 2;
}

static inline void decode(void)
{
    decode_luma();
    decode_u();
    decode_v();
    decode_grids();
    memset(qps, 40, sizeof qps);
    memset(marks, 0, sizeof marks);
}

/* No macroblock has the 8x8 transform: t8s is not lent. The offsets are 0. */
static inline struct deblock_picture lend_picture(void)
{
    struct deblock_picture p = DEBLOCK_NONE;
    p.w = W;
    p.h = H;
    p.luma = luma;
    p.luma_len = 256 * N;
    p.u = u;
    p.u_len = 64 * N;
    p.v = v;
    p.v_len = 64 * N;
    p.strengths = strengths;
    p.strengths_len = 32 * N;
    p.qps = qps;
    p.qps_len = N;
    p.marks = marks;
    p.marks_len = N;
    return p;
}

/* No block uses list 1: ref1 and mv1 are not lent. */
static inline struct deblock_grids lend_grids(void)
{
    struct deblock_grids g = DEBLOCK_NONE;
    g.inter = inter;
    g.inter_len = 16 * N;
    g.nnz = nnz;
    g.nnz_len = 16 * N;
    g.ref0 = ref0;
    g.ref0_len = 16 * N;
    g.mv0 = mv0;
    g.mv0_len = 32 * N;
    return g;
}
