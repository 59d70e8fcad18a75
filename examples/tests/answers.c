/* Every answer, part, kind and flag by its name, but for the answers of streams (streams.c), and the version.
 * Prints the texts of all answers, and that of a number which is none. */
#include "test.h"

/* Each change stays while the next, which an earlier check finds, is made. */
static void filtering(void)
{
    struct deblock_picture p = lend_picture();
    decode();
    expect("not ready", DEBLOCK_NOT_READY, deblock_picture_visit(&p, 1, 1));
    expect("ready", DEBLOCK_DONE, deblock_picture_visit(&p, 0, 0));
    expect("once more", DEBLOCK_MARKED_ALREADY, deblock_picture_visit(&p, 0, 0));
    strengths[0] = 5;
    expect("strength 5", DEBLOCK_BAD_STRENGTH, deblock_picture_whole(&p));
    qps[0] = 52;
    expect("QP 52", DEBLOCK_BAD_QP, deblock_picture_whole(&p));
    marks[0] = 2;
    expect("mark 2", DEBLOCK_NOT_A_BOOL, deblock_picture_visit(&p, 0, 0));
    p.offset_v_minus_u = 13;
    expect("V's offset 13", DEBLOCK_BAD_OFFSET, deblock_picture_whole(&p));
    p.marks_len--;
    expect("marks cut", DEBLOCK_MACROBLOCK_GRID_LENGTH, deblock_picture_visit(&p, 0, 0));
    p.v_len--;
    expect("V cut", DEBLOCK_PLANE_LENGTH, deblock_picture_whole(&p));
    p.part = DEBLOCK_BOTTOM_FIELD + 1;
    expect("part 3", DEBLOCK_BAD_PARITY, deblock_picture_whole(&p));
    expect("part 3, no rows", DEBLOCK_BAD_PARITY, deblock_picture_rows(&p, 0, 0));
    expect("part 3, visit", DEBLOCK_BAD_PARITY, deblock_picture_visit(&p, 0, 0));
    expect("outside", DEBLOCK_OUTSIDE, deblock_picture_visit(&p, 0, H));
    expect("rows 1 to 0", DEBLOCK_OUTSIDE, deblock_picture_rows(&p, 1, 0));
    p.w = 257;
    expect("257 wide", DEBLOCK_BAD_SIZE, deblock_picture_whole(&p));
    strengths[0] = 0;
}

/* The same with slices. */
static void filtering_with_slices(void)
{
    static struct deblock_slice slice;
    static uint16_t numbers[N];
    struct deblock_picture p = lend_picture();
    p.slices = &slice;
    p.slices_len = 1;
    p.slice_numbers = numbers;
    p.slice_numbers_len = N;
    decode();
    expect("slices: not ready", DEBLOCK_NOT_READY, deblock_picture_visit_slices(&p, 1, 1));
    expect("slices: ready", DEBLOCK_DONE, deblock_picture_visit_slices(&p, 0, 0));
    expect("slices: once more", DEBLOCK_MARKED_ALREADY, deblock_picture_visit_slices(&p, 0, 0));
    slice.mode = 3;
    expect("mode 3", DEBLOCK_BAD_SLICE_MODE, deblock_picture_visit_slices(&p, 0, 0));
    numbers[0] = 1;
    expect("slice 1 of 1", DEBLOCK_BAD_SLICE_NUMBER, deblock_picture_visit_slices(&p, 0, 0));
    strengths[0] = 5;
    expect("slices: strength 5", DEBLOCK_BAD_STRENGTH, deblock_picture_visit_slices(&p, 0, 0));
    slice.b = 13;
    expect("B of a slice at 13", DEBLOCK_BAD_OFFSET, deblock_picture_visit_slices(&p, 0, 0));
    p.slice_numbers_len--;
    expect("numbers cut", DEBLOCK_MACROBLOCK_GRID_LENGTH, deblock_picture_visit_slices(&p, 0, 0));
    strengths[0] = 0;
}

/* Offsets A, B, U's, and V's minus U's, which may have a sum that is no int32_t. */
struct offsets {
    const char *what;
    int32_t a, b, chroma, v_minus_u;
    uint32_t answer;
};

static const struct offsets offsets[] = {
    {"all at 12", 12, 12, 12, 0, DEBLOCK_DONE},
    {"all at -12", -12, -12, -12, 0, DEBLOCK_DONE},
    {"U's at 12, V's at -12", 0, 0, 12, -24, DEBLOCK_DONE},
    {"U's at -12, V's at 12", 0, 0, -12, 24, DEBLOCK_DONE},
    {"A at 13", 13, 0, 0, 0, DEBLOCK_BAD_OFFSET},
    {"A at -13", -13, 0, 0, 0, DEBLOCK_BAD_OFFSET},
    {"B at 13", 0, 13, 0, 0, DEBLOCK_BAD_OFFSET},
    {"B at -13", 0, -13, 0, 0, DEBLOCK_BAD_OFFSET},
    {"U's alone at 13", 0, 0, 13, -1, DEBLOCK_BAD_OFFSET},
    {"U's alone at -13", 0, 0, -13, 1, DEBLOCK_BAD_OFFSET},
    {"V's alone at 13", 0, 0, 12, 1, DEBLOCK_BAD_OFFSET},
    {"V's alone at -13", 0, 0, -12, -1, DEBLOCK_BAD_OFFSET},
    {"V's alone at 14", 0, 0, 0, 14, DEBLOCK_BAD_OFFSET},
    {"V's alone at -14", 0, 0, 0, -14, DEBLOCK_BAD_OFFSET},
    {"V's alone above all", 0, 0, 12, INT32_MAX, DEBLOCK_BAD_OFFSET},
    {"V's alone below all", 0, 0, -12, INT32_MIN, DEBLOCK_BAD_OFFSET},
    {"U's alone above all", 0, 0, INT32_MAX, -INT32_MAX, DEBLOCK_BAD_OFFSET},
    {"U's alone below all", 0, 0, INT32_MIN, INT32_MAX, DEBLOCK_BAD_OFFSET},
    {"both above all", 0, 0, INT32_MAX, INT32_MAX, DEBLOCK_BAD_OFFSET},
    {"both below all", 0, 0, INT32_MIN, INT32_MIN, DEBLOCK_BAD_OFFSET},
};

static void filter_with(const struct offsets *o)
{
    struct deblock_picture p = lend_picture();
    decode();
    p.offset_a = o->a;
    p.offset_b = o->b;
    p.offset_chroma = o->chroma;
    p.offset_v_minus_u = o->v_minus_u;
    expect(o->what, o->answer, deblock_picture_whole(&p));
    expect(o->what, o->answer, deblock_picture_rows(&p, 0, 0));
    expect(o->what, o->answer, deblock_picture_visit(&p, 0, 0));
}

static void all_offsets(void)
{
    for (size_t i = 0; i < sizeof offsets / sizeof *offsets; i++)
        filter_with(offsets + i);
}

static void deriving(void)
{
    static const int32_t pictures0[] = {65536};
    const struct deblock_picture p = lend_picture();
    struct deblock_grids g = lend_grids();
    decode();
    expect("inter", DEBLOCK_DONE, deblock_picture_strengths_kind(&p, &g, 0, 0, DEBLOCK_INTER));
    expect("intra", DEBLOCK_UNTRUE, deblock_picture_strengths_kind(&p, &g, 0, 0, DEBLOCK_INTRA));
    expect("kind 4", DEBLOCK_UNTRUE, deblock_picture_strengths_kind(&p, &g, 0, 0, 4));
    inter[0] = 0;
    expect("mixed", DEBLOCK_MIXED_INTER, deblock_picture_strengths(&p, &g, 0, 0));
    g.pictures0 = pictures0;
    g.pictures0_len = 1;
    expect("picture 65536", DEBLOCK_BAD_PICTURE_NUMBER, deblock_picture_strengths(&p, &g, 0, 0));
    ref0[0] = -2;
    expect("reference -2", DEBLOCK_BAD_REFERENCE, deblock_picture_strengths(&p, &g, 0, 0));
    inter[0] = 2;
    expect("inter 2", DEBLOCK_NOT_A_BOOL, deblock_picture_strengths(&p, &g, 0, 0));
    g.mv0_len--;
    expect("motion cut", DEBLOCK_BLOCK_GRID_LENGTH, deblock_picture_strengths(&p, &g, 0, 0));
}

/* The same of rows. A refusal in the last macroblock leaves the first as it was, and the first one's answer
 * goes before that of an earlier check of the next. */
static void deriving_rows(void)
{
    static uint8_t of_all[N + 1] = {DEBLOCK_SKIP, DEBLOCK_SKIP, DEBLOCK_INTRA, 4};
    struct deblock_picture p = lend_picture();
    struct deblock_grids g = lend_grids();
    decode();
    memset(strengths, 9, sizeof strengths);
    expect("row 0 is skipped", DEBLOCK_DONE, deblock_picture_strengths_row(&p, &g, 0, of_all, N));
    expect("row 1 is intra", DEBLOCK_UNTRUE, deblock_picture_strengths_row(&p, &g, 1, of_all, N));
    of_all[2] = DEBLOCK_INTER_UNIFORM;
    expect("row 1 has a kind 4", DEBLOCK_UNTRUE, deblock_picture_strengths_row(&p, &g, 1, of_all, N));
    expect("row 0", 1, strengths[32]);
    expect("row 1", 9, strengths[64]);
    of_all[0] = DEBLOCK_INTRA;
    inter[4] = 2;
    expect("intra before inter 2", DEBLOCK_UNTRUE, deblock_picture_strengths_row(&p, &g, 0, of_all, N));
    expect("nothing known, inter 2", DEBLOCK_NOT_A_BOOL, deblock_picture_strengths_row(&p, &g, 0, NULL, 0));
    g.mv0_len--;
    expect("motion cut", DEBLOCK_BLOCK_GRID_LENGTH, deblock_picture_strengths_row(&p, &g, 0, of_all, N));
    expect("a kind too few", DEBLOCK_MACROBLOCK_GRID_LENGTH,
           deblock_picture_strengths_row(&p, &g, 0, of_all, N - 1));
    expect("a kind too many", DEBLOCK_MACROBLOCK_GRID_LENGTH,
           deblock_picture_strengths_row(&p, &g, 0, of_all, N + 1));
    expect("row H", DEBLOCK_OUTSIDE, deblock_picture_strengths_row(&p, &g, H, of_all, N + 1));
    p.h = 0;
    expect("no rows", DEBLOCK_BAD_SIZE, deblock_picture_strengths_row(&p, &g, H, of_all, N + 1));
}

/* What may be said of a macroblock: first of a flat one, then with a coefficient, then with motion too. */
static void kinds(const struct deblock_picture *p, const struct deblock_grids *g)
{
    decode();
    expect("flat: skip", 0, deblock_picture_strengths_kind(p, g, 0, 0, DEBLOCK_SKIP));
    nnz[0] = 1;
    expect("coded: skip", 12, deblock_picture_strengths_kind(p, g, 0, 0, DEBLOCK_SKIP));
    expect("coded: uniform", 0, deblock_picture_strengths_kind(p, g, 0, 0, DEBLOCK_INTER_UNIFORM));
    mv0[0] = 1;
    expect("moved: uniform", 12, deblock_picture_strengths_kind(p, g, 0, 0, DEBLOCK_INTER_UNIFORM));
    memset(inter, 0, sizeof inter);
    expect("intra: intra", 0, deblock_picture_strengths_kind(p, g, 0, 0, DEBLOCK_INTRA));
}

/* The same of flags. */
static void flags(const struct deblock_picture *p, const struct deblock_grids *g)
{
    decode();
    expect("flat: flat", 0, deblock_picture_strengths_flags(p, g, 0, 0, DEBLOCK_FLAT));
    nnz[0] = 1;
    expect("coded: flat", 12, deblock_picture_strengths_flags(p, g, 0, 0, DEBLOCK_FLAT));
    expect("coded: uniform", 0, deblock_picture_strengths_flags(p, g, 0, 0, DEBLOCK_UNIFORM));
    mv0[0] = 1;
    expect("moved: uniform", 12, deblock_picture_strengths_flags(p, g, 0, 0, DEBLOCK_UNIFORM));
    expect("moved: nothing", 0, deblock_picture_strengths_flags(p, g, 0, 0, 0));
}

/* The frame's planes as those of a field, with half as many macroblocks and strength 1 everywhere, which
 * smooths 100 | 103 in column 15: in the lines of the field, and in no other. */
static void filter_part(uint8_t part, uint32_t line0, uint32_t line1)
{
    struct deblock_picture p = lend_picture();
    decode();
    memset(strengths, 1, sizeof strengths);
    p.part = part;
    if (part != DEBLOCK_FRAME) {
        p.h = H / 2;
        p.strengths_len = 16 * N;
        p.qps_len = p.marks_len = N / 2;
    }
    expect("a part", DEBLOCK_DONE, deblock_picture_whole(&p));
    expect("line 0", line0, luma[15]);
    expect("line 1", line1, luma[16 * W + 15]);
}

static void parts(void)
{
    filter_part(DEBLOCK_FRAME, 101, 101);
    filter_part(DEBLOCK_TOP_FIELD, 101, 100);
    filter_part(DEBLOCK_BOTTOM_FIELD, 100, 101);
}

/* Prints the texts, in the order of the numbers. All numbers that are none have the same, and no other. */
static void texts(void)
{
    const uint32_t none = DEBLOCK_BAD_PICTURE_NUMBER + 1;
    for (uint32_t answer = DEBLOCK_DONE; answer <= none; answer++)
        printf("%s\n", deblock_answer_text(answer));
    expect("a text", 1, strcmp(deblock_answer_text(none - 1), deblock_answer_text(none)) != 0);
    expect("a text", 0, strcmp(deblock_answer_text(255), deblock_answer_text(none)) != 0);
    expect("a text", 0, strcmp(deblock_answer_text(UINT32_MAX), deblock_answer_text(none)) != 0);
}

static void version(void)
{
    char text[32];
    snprintf(text, sizeof text, "%d.%d.%d", DEBLOCK_VERSION_MAJOR, DEBLOCK_VERSION_MINOR,
             DEBLOCK_VERSION_PATCH);
    expect("version", 0, strcmp(text, DEBLOCK_VERSION) != 0);
}

int main(void)
{
    const struct deblock_picture p = lend_picture();
    const struct deblock_grids g = lend_grids();
    filtering();
    filtering_with_slices();
    all_offsets();
    deriving();
    deriving_rows();
    kinds(&p, &g);
    flags(&p, &g);
    parts();
    version();
    texts();
    return faults != 0;
}
