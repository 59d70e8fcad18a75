/* Interlaced frames. The macroblocks of both fields arrive mixed, in a random order; what arrives is stored
 * in the frame's planes, what is ready is visited, and what is final is shown, once, on its field's lines of
 * a screen. Each field is a picture of its own (docs/GUIDE.md, "Fields"): it has grids, strengths, QPs, flags
 * and marks of its own, and its marks tell what of it is final. In the end frame and screen must hold what
 * the two whole-picture calls make of the frame, and what each field is if it is filtered apart from the
 * other. 50 frames; at the first difference it says so and ends with status 1.
 *
 * Here the grids are there at the start. examples/slices.c derives strengths as slices arrive. */
#include "decoder.h"

struct frame { uint8_t luma[512 * N], u[128 * N], v[128 * N]; };

static unsigned refused; /* visits, since a neighbour was not marked */
static struct frame decoded, frame, screen, whole, woven;

/* By parity, 0 for the top field. Their planes are those that the decoder made, of the field alone. */
static struct buffers fields[2];
static uint8_t arrived[2][N], shown[2][N];

/* W and H are those of the field, so all is as for a picture of that size but for the planes. */
static struct deblock_picture lend_field(struct frame *f, size_t parity)
{
    struct deblock_picture p = lend_picture(&fields[parity]);
    p.part = parity == 0 ? DEBLOCK_TOP_FIELD : DEBLOCK_BOTTOM_FIELD;
    p.luma = f->luma; p.luma_len = 512 * N;
    p.u = f->u; p.u_len = 128 * N;
    p.v = f->v; p.v_len = 128 * N;
    return p;
}

/* Copies a field's plane to the field's lines of a frame's plane. */
static void weave(uint8_t *to, const uint8_t *from, size_t parity, size_t side)
{
    for (size_t line = 0; line < H * side; line++)
        memcpy(to + (2 * line + parity) * W * side, from + line * W * side, W * side);
}

static void weave_field(struct frame *to, size_t parity)
{
    weave(to->luma, fields[parity].planes.luma, parity, 16);
    weave(to->u, fields[parity].planes.u, parity, 8);
    weave(to->v, fields[parity].planes.v, parity, 8);
}

/* Copies macroblock i of a field between planes of frames: the field's lines of it alone. */
static void copy_lines(uint8_t *to, const uint8_t *from, size_t parity, size_t i, size_t side)
{
    for (size_t line = i / W * side; line < (i / W + 1) * side; line++) {
        const size_t first = ((2 * line + parity) * W + i % W) * side;
        memcpy(to + first, from + first, side);
    }
}

static void copy_macroblock(struct frame *to, const struct frame *from, size_t parity, size_t i)
{
    copy_lines(to->luma, from->luma, parity, i, 16);
    copy_lines(to->u, from->u, parity, i, 8);
    copy_lines(to->v, from->v, parity, i, 8);
}

/* What the decoder makes of a field, and its strengths: a strength call is told that it is one. */
static void decode_field(size_t parity)
{
    decode(2 * number + (uint32_t)parity);
    fields[parity] = sent;
    weave_field(&decoded, parity);
    const struct deblock_picture p = lend_field(&frame, parity);
    const struct deblock_grids g = lend_grids(&fields[parity]);
    derive_all(&p, &g);
}

/* Shows macroblock i of a field, which is final. What the frame holds of it is not looked at again. */
static void show(size_t parity, size_t i)
{
    must(!shown[parity][i], "a macroblock is shown twice");
    shown[parity][i] = 1;
    copy_macroblock(&screen, &frame, parity, i);
}

/* Shows what the visit of macroblock i of a field has made final, as examples/painter.c does in a frame. */
static void show_made_final(size_t parity, size_t i)
{
    const struct deblock_picture p = lend_field(&frame, parity);
    const struct deblock_finals made = deblock_picture_made_final(&p, i % W, i / W);
    must_be_done(made.answer);
    if (made.own)
        show(parity, i);
    if (made.left)
        show(parity, i - 1);
    if (made.upper)
        show(parity, i - W);
}

/* Visits macroblock i of a field if it has arrived and waits: for neighbours of its own field. */
static void visit(size_t parity, size_t i)
{
    const struct deblock_picture p = lend_field(&frame, parity);
    if (!arrived[parity][i] || p.marks[i])
        return;
    const uint32_t answer = deblock_picture_visit(&p, i % W, i / W);
    if (answer == DEBLOCK_NOT_READY) {
        refused++;
        return;
    }
    must_be_done(answer);
    show_made_final(parity, i);
}

/* Visits what is ready of a field. */
static void visit_ready(size_t parity)
{
    for (size_t i = 0; i < N; i++)
        visit(parity, i);
}

/* Each time another macroblock of either field arrives, the first from a random one on. */
static void receive(void)
{
    memset(arrived, 0, sizeof arrived);
    memset(shown, 0, sizeof shown);
    for (size_t count = 0; count < 2 * N; count++) {
        size_t i = below(2 * N);
        while (arrived[i % 2][i / 2])
            i = (i + 1) % (2 * N);
        arrived[i % 2][i / 2] = 1;
        copy_macroblock(&frame, &decoded, i % 2, i / 2);
        visit_ready(i % 2);
    }
}

/* A field by the whole-picture call on its lines; then apart, by that call on its planes, and woven. */
static void filter_whole(size_t parity)
{
    const struct deblock_picture p = lend_field(&whole, parity), apart = lend_picture(&fields[parity]);
    must_be_done(deblock_picture_whole(&p));
    must_be_done(deblock_picture_whole(&apart));
    weave_field(&woven, parity);
}

int main(void)
{
    for (number = 1; number <= 50; number++) {
        decode_field(0);
        decode_field(1);
        receive();
        whole = decoded;
        filter_whole(0);
        filter_whole(1);
        must(memcmp(&frame, &whole, sizeof frame) == 0, "visits give other planes");
        must(!memchr(shown, 0, sizeof shown), "a macroblock is never shown");
        must(memcmp(&screen, &whole, sizeof screen) == 0, "the screen is not the whole fields filtered");
        must(memcmp(&frame, &woven, sizeof frame) == 0, "fields apart give other planes");
    }
    printf("50 frames, %u visits refused: visits, whole fields and fields apart give the same\n", refused);
    return 0;
}
