/* The deblocking filter's C interface: C99 and later, C++17. docs/RULES.md states the rules that it keeps;
 * docs/GUIDE.md, "From C", says how it is used and linked.
 *
 * The archive has sixteen flat calls: six that filter, three of them with slices, two that tell which
 * macroblocks are final, four that derive strengths, and four for pictures kept as YUV4MPEG2 streams. Each
 * is proved to do what its contract in crates/deblock_c/src says, for every content of the memory lent; it
 * is the contract of the function of the same name in crates/deblock/src. At the end of this file are twelve
 * functions over structs, which hand the structs' members on to the first twelve of them: start there. They
 * are compiled with the caller and are not proved; examples/tests looks at every argument that they hand on.
 * The four of streams are short and have none.
 *
 * Every call but deblock_y4m_length, which tells a length, answers a number of enum deblock_answer. A number
 * other than 0 is a refusal, and a refusal changes no byte of what was lent.
 *
 * What a caller must keep, since C cannot say it and no call can test it:
 *   - each pointer is valid for the number of elements that follows it, to read, and to write where the
 *     pointer is not const;
 *   - no buffer that a call writes overlaps any other buffer of that call;
 *   - no pointer is null, even where the length is 0 (in the structs it may be), and uint16_t, int16_t and
 *     int32_t pointers are aligned;
 *   - nothing else writes the memory lent, or reads what the call writes, until the call returns.
 * A length is a number of elements, not of bytes; it stands right after its pointer.
 *
 * What integrators ask first:
 *   - Calls are re-entrant. None allocates, waits, or keeps a pointer after it has returned.
 *   - The archive has no variables and needs no library, libc included: `nm -u` names no symbol.
 *   - Threads: calls on different pictures may be made at the same time. Two calls that share a buffer which
 *     either of them writes may not: no two visits of one picture, no visit while it is asked what is final,
 *     no filtering of both fields of a frame, no two strength calls that are lent the same strengths, no
 *     filtering while its strengths are written. Buffers that are only read may be shared, a table of slices
 *     and their numbers among them.
 *   - Stack: a call needs less than 2000 bytes on x86-64, and less than 1800 on Arm, whatever it is lent;
 *     docs/GUIDE.md, "Stack", has each call's bytes and what a function over structs adds.
 *
 * Sizes. A picture is w by h macroblocks, 1 <= w <= 256, 1 <= h <= 256, w * h <= 36864. Macroblock (x, y) has
 * index y * w + x. With n = w * h the lengths are:
 *   luma               256 * n   lines of 16 * w samples; for a field 512 * n
 *   u, v                64 * n   chroma, lines of 8 * w samples; for a field 128 * n
 *   strengths           32 * n   0 to 4: for each macroblock 16 of vertical edges (edge 0 first, 4 an edge,
 *                                from top to bottom), then 16 of horizontal ones (from left to right)
 *   qps                      n   0 to 51
 *   t8s                 n or 0   1 where the transform is 8x8, else 0; length 0 means that none is
 *   kinds               n or 0   what is known, of enum deblock_kind; length 0 means that nothing is
 *   marks                    n   1 where visited, else 0; all 0 at the start of a picture
 *   inter, nnz, ref0    16 * n   per 4x4 block, 4 * w blocks a row: 1 if inter, else 0; count of luma
 *                                coefficients; reference, -1 where unused, as in intra blocks
 *   mv0                 32 * n   per 4x4 block its vector's x, then y
 *   ref1, mv1           16 * n and 32 * n, or both 0: list 1
 *   pictures0, pictures1   any   tables: per index of a list its picture's number, 0 to 65535; both 0 means
 *                                that references are compared as stored
 *   slices                 any   a table: the record of each slice
 *   numbers                  n   the macroblock's slice: its place in the table, from 0 on
 * The offsets are each -12 to 12. a and b are FilterOffsetA and FilterOffsetB, chroma_u is
 * chroma_qp_index_offset, and chroma_v is second_chroma_qp_index_offset, or chroma_u where a stream has none.
 *
 * Fields. A picture is a frame, or one of a frame's two fields: the top one on the even lines of the frame's
 * planes, counted from 0, the bottom one on the odd lines. Of a field w and h are its own, the planes are its
 * frame's, with the lines of both fields, and a call reads and writes its own field's. All else is lent per
 * field. Vectors are in quarter samples of the field, and a reference names a field: each has a number of its
 * own. docs/GUIDE.md, "Fields", has the calls for an interlaced frame.
 *
 * Slices. Where slices switch the filter off, or have an a and b of their own, a picture is filtered by the
 * three calls whose names end in _slices. They are lent a table of slices' records and the number of each
 * macroblock's slice, and take no a and b beside it; the other three filter the picture as one slice, of mode
 * 0. An empty table does not mean that. Numbers tell slices apart: two with equal records are two slices.
 * docs/GUIDE.md, "Slices", has what may stand in both before a slice has arrived.
 *
 * Streams. A YUV4MPEG2 stream is a header line, which says the size in pixels, and then for each picture a
 * line FRAME and its planes, Y, U and V end to end. The calls below read its first picture and write streams
 * of one. Planes are those of a frame, 256 * n, 64 * n and 64 * n, also where its fields are filtered.
 * docs/GUIDE.md, "Streams", has more.
 */
#ifndef DEBLOCK_H
#define DEBLOCK_H

#include <stddef.h>
#include <stdint.h>

#define DEBLOCK_VERSION_MAJOR 0
#define DEBLOCK_VERSION_MINOR 10
#define DEBLOCK_VERSION_PATCH 0
#define DEBLOCK_VERSION "0.10.0"

/* What a call answers. Checks are made in the order of this list, each call making those whose data it takes;
 * the first that applies is the answer. The numbers are not in that order: 19 is asked between 2 and 3, 20
 * and 21 after 9, and 22 between 10 and 11. The calls of streams and deblock_strengths_row have orders of
 * their own, which are said with them. */
enum deblock_answer {
    DEBLOCK_DONE = 0,
    DEBLOCK_BAD_SIZE = 1,               /* w, h or their product is outside its range */
    DEBLOCK_OUTSIDE = 2,                /* macroblock or row outside the picture, or not first <= last <= h */
    DEBLOCK_BAD_PARITY = 19,            /* the part is none of enum deblock_part */
    DEBLOCK_PLANE_LENGTH = 3,           /* a plane has the wrong length */
    DEBLOCK_MACROBLOCK_GRID_LENGTH = 4, /* strengths, qps, t8s, kinds, marks or numbers have a wrong length */
    DEBLOCK_BLOCK_GRID_LENGTH = 5,      /* a 4x4 grid has the wrong length, just one of list 1 is empty, or
                                           just one list's table, unless list 1's, and list 1 is not lent */
    DEBLOCK_BAD_OFFSET = 6,             /* an offset, or a or b of a record, used or not, is not -12..12 */
    DEBLOCK_NOT_A_BOOL = 7,             /* an inter byte, 8x8 flag or mark that is read is above 1 */
    DEBLOCK_BAD_QP = 8,                 /* a QP that is read is above 51 */
    DEBLOCK_BAD_STRENGTH = 9,           /* a strength that is read is above 4 */
    DEBLOCK_BAD_SLICE_NUMBER = 20,      /* a slice number that is read is outside the table */
    DEBLOCK_BAD_SLICE_MODE = 21,        /* a record of the table, used or not, has a mode above 2 */
    DEBLOCK_BAD_REFERENCE = 10,         /* a reference that is read is below -1 */
    DEBLOCK_BAD_PICTURE_NUMBER = 22,    /* an entry of a list's table, used or not, is outside 0 to 65535 */
    DEBLOCK_MIXED_INTER = 11,           /* the 16 blocks, the 4 to the left or the 4 above differ in inter */
    DEBLOCK_UNTRUE = 12,                /* the kind, or a flag that is set, is not true of the grids */
    DEBLOCK_MARKED_ALREADY = 13,        /* the macroblock is marked */
    DEBLOCK_NOT_READY = 14,             /* its left, upper or upper right neighbour exists and is unmarked */
    DEBLOCK_BAD_STREAM_LINE = 15,       /* a stream's header or FRAME line is malformed or has no newline */
    DEBLOCK_OTHER_PLANES = 16,          /* its C tag is not 420, 420jpeg, 420mpeg2 or 420paldv */
    DEBLOCK_BAD_SIDES = 17,             /* a side of it is no multiple of 16, or its size is out of range */
    DEBLOCK_STREAM_LENGTH = 18          /* it is cut short; to be written: not just as long as it must be */
};

/* A sentence for an answer. */
static inline const char *deblock_answer_text(uint32_t answer)
{
    static const char *const texts[] = {
        "done",
        "width, height or their product is out of range",
        "the macroblock is outside the picture, or the rows are not first <= last <= h",
        "luma, U or V has the wrong length",
        "strengths, QPs, 8x8 flags, kinds, marks or slice numbers have the wrong length",
        "a 4x4 grid has the wrong length, or just one list 1 grid or reference table is empty",
        "an offset is not within -12 to 12",
        "an inter byte, 8x8 flag or mark is not 0 or 1",
        "a QP is above 51",
        "a strength is above 4",
        "a reference number is below -1",
        "the 16 blocks, the 4 to the left or the 4 above disagree on inter",
        "the kind or a set flag is not true of the grids",
        "the macroblock was visited before",
        "its left, upper or upper right neighbour is not visited yet",
        "the stream's header line or FRAME line is malformed or has no newline",
        "the stream's C tag is not 420, 420jpeg, 420mpeg2 or 420paldv",
        "a side of the stream's picture is no multiple of 16, or its size is out of range",
        "the stream is cut short, or is not just as long as what is to be written",
        "the part is not a frame, a top field or a bottom field",
        "a slice number is outside the table of slices",
        "the mode of a slice is not 0, 1 or 2",
        "an entry of a reference table is outside 0 to 65535",
    };
    return answer < sizeof texts / sizeof *texts ? texts[answer] : "no answer of this version";
}

/* What part of a frame the picture is. */
enum deblock_part {
    DEBLOCK_FRAME = 0,       /* the whole frame */
    DEBLOCK_TOP_FIELD = 1,   /* its even lines: parity 0 */
    DEBLOCK_BOTTOM_FIELD = 2 /* its odd lines: parity 1 */
};

/* What the caller knows of a macroblock: a kind, or flags to be joined by |. */
enum deblock_kind {
    DEBLOCK_INTRA = 0,         /* all 16 blocks are intra */
    DEBLOCK_SKIP = 1,          /* flat, as below */
    DEBLOCK_INTER_UNIFORM = 2, /* uniform, as below */
    DEBLOCK_INTER = 3          /* all 16 blocks are inter */
};
enum deblock_flag {
    DEBLOCK_FLAT = 1,   /* uniform, and all 16 counts are 0 */
    DEBLOCK_UNIFORM = 2 /* all 16 blocks are inter with equal references and vectors */
};

#ifdef __cplusplus
extern "C" {
#endif

/* The filtering calls are told of a part, a number of enum deblock_part; any other is refused. */

/* Filters a whole picture. It neither reads nor sets marks, and called again it filters again.
 * Writes luma, u, v. Answers 0, 1, 19, 3, 4, 6, 7, 8, 9. */
uint32_t deblock_whole(size_t w, size_t h, uint8_t part,
                       int32_t a, int32_t b, int32_t chroma_u, int32_t chroma_v,
                       uint8_t *luma, size_t luma_len, uint8_t *u, size_t u_len, uint8_t *v, size_t v_len,
                       const uint8_t *strengths, size_t strengths_len,
                       const uint8_t *qps, size_t qps_len, const uint8_t *t8s, size_t t8s_len);

/* Filters rows first to last - 1. Each row is filtered once, from the top; that gives the planes of
 * deblock_whole, and another order may not. No mark is read or set. It reads strengths, flags and QPs of
 * those rows, and the QPs of row first - 1 where 0 < first < last. An empty range that passes the checks up
 * to 6 does nothing and answers 0.
 * Writes luma, u, v. Answers 0, 1, 2, 19, 3, 4, 6, 7, 8, 9. */
uint32_t deblock_rows(size_t w, size_t h, uint8_t part, size_t first, size_t last,
                      int32_t a, int32_t b, int32_t chroma_u, int32_t chroma_v,
                      uint8_t *luma, size_t luma_len, uint8_t *u, size_t u_len, uint8_t *v, size_t v_len,
                      const uint8_t *strengths, size_t strengths_len,
                      const uint8_t *qps, size_t qps_len, const uint8_t *t8s, size_t t8s_len);

/* Filters macroblock (x, y) and sets its mark, once its left, upper and upper right neighbours are marked. It
 * reads strengths and flag of the macroblock, QPs of it and of its left and upper neighbours, the marks of it
 * and of its left, upper and upper right neighbours, and samples of it and of its left and upper neighbours.
 * So what belongs to a macroblock may be written until its own visit, and not after it; before, let its QP be
 * a legal one. It may be shown once it is final, which deblock_made_final tells.
 * Writes luma, u, v, marks. Answers 0, 1, 2, 19, 3, 4, 6, 7, 8, 9, 13, 14. */
uint32_t deblock_visit(size_t w, size_t h, uint8_t part, size_t x, size_t y,
                       int32_t a, int32_t b, int32_t chroma_u, int32_t chroma_v,
                       uint8_t *luma, size_t luma_len, uint8_t *u, size_t u_len, uint8_t *v, size_t v_len,
                       const uint8_t *strengths, size_t strengths_len,
                       const uint8_t *qps, size_t qps_len, const uint8_t *t8s, size_t t8s_len,
                       uint8_t *marks, size_t marks_len);

/* A slice's settings: disable_deblocking_filter_idc, FilterOffsetA and FilterOffsetB. Three bytes, without
 * padding between records. */
struct deblock_slice {
    uint8_t mode; /* 0 to 2 */
    int8_t a, b;  /* -12 to 12 */
};

/* The three filtering calls with slices do what their namesakes above do, each macroblock by the record of
 * its own slice, slices[numbers[index]]. Its a and b serve all its edges, and its mode says which are
 * filtered:
 *   0   all
 *   1   none
 *   2   all but its left edge where the left macroblock has another number, and its top edge where the upper
 *       one has
 * An edge is that of the macroblock to its right or below it: whatever the mode of a macroblock, the left
 * edge of its right neighbour and the top edge of its lower one are filtered as the records of these say.
 *
 * A mode changes nothing else. Strengths and QPs are checked also where no edge is filtered by them. Numbers
 * are read where QPs are. Every call looks at every record, used or not: at its a and b in check 6, at its
 * mode in check 21. Of an empty table every number that is read is outside. With one record of mode 0 and all
 * numbers 0 the answers and the planes are those of the namesake with that a and b. */

/* Filters a whole picture, as deblock_whole does.
 * Writes luma, u, v. Answers 0, 1, 19, 3, 4, 6, 7, 8, 9, 20, 21. */
uint32_t deblock_whole_slices(size_t w, size_t h, uint8_t part, int32_t chroma_u, int32_t chroma_v,
                              const struct deblock_slice *slices, size_t slices_len,
                              const uint16_t *numbers, size_t numbers_len,
                              uint8_t *luma, size_t luma_len, uint8_t *u, size_t u_len,
                              uint8_t *v, size_t v_len, const uint8_t *strengths, size_t strengths_len,
                              const uint8_t *qps, size_t qps_len, const uint8_t *t8s, size_t t8s_len);

/* Filters rows first to last - 1, as deblock_rows does. It reads the numbers of those rows, and those of row
 * first - 1 where 0 < first < last. An empty range that passes the checks up to 6 and check 21 does nothing
 * and answers 0: it reads no number.
 * Writes luma, u, v. Answers 0, 1, 2, 19, 3, 4, 6, 7, 8, 9, 20, 21. */
uint32_t deblock_rows_slices(size_t w, size_t h, uint8_t part, size_t first, size_t last,
                             int32_t chroma_u, int32_t chroma_v,
                             const struct deblock_slice *slices, size_t slices_len,
                             const uint16_t *numbers, size_t numbers_len,
                             uint8_t *luma, size_t luma_len, uint8_t *u, size_t u_len,
                             uint8_t *v, size_t v_len, const uint8_t *strengths, size_t strengths_len,
                             const uint8_t *qps, size_t qps_len, const uint8_t *t8s, size_t t8s_len);

/* Filters macroblock (x, y) and sets its mark, as deblock_visit does. It waits for the same three neighbours
 * and sets the mark at every mode. It reads the numbers of the macroblock and of its left and upper
 * neighbours, and filters by one record, that of the macroblock's slice. So a macroblock's number may be
 * written until its own visit, and a record until the first visit of a macroblock of its slice, and not after
 * it; before, let every number be inside the table and every record a legal one.
 * Writes luma, u, v, marks. Answers 0, 1, 2, 19, 3, 4, 6, 7, 8, 9, 20, 21, 13, 14. */
uint32_t deblock_visit_slices(size_t w, size_t h, uint8_t part, size_t x, size_t y,
                              int32_t chroma_u, int32_t chroma_v,
                              const struct deblock_slice *slices, size_t slices_len,
                              const uint16_t *numbers, size_t numbers_len,
                              uint8_t *luma, size_t luma_len, uint8_t *u, size_t u_len,
                              uint8_t *v, size_t v_len, const uint8_t *strengths, size_t strengths_len,
                              const uint8_t *qps, size_t qps_len, const uint8_t *t8s, size_t t8s_len,
                              uint8_t *marks, size_t marks_len);

/* The two calls of finality are lent marks as visits leave them, of a frame or of one field, and take no
 * part. A macroblock is final once it, its right and its lower neighbour, as far as they exist, are marked:
 * no later visit changes a sample of it, and each is the whole filtered picture's. docs/GUIDE.md, "When a
 * macroblock may be shown", has more. */

/* Whether a macroblock is final. */
struct deblock_finality {
    uint32_t answer; /* of enum deblock_answer */
    uint8_t yes;     /* 1 where it is final, else 0; 0 unless answer is 0 */
};

/* Is macroblock (x, y) final? It reads the marks of it and of its right and lower neighbours.
 * Writes nothing. Answers 0, 1, 2, 4, 7. */
struct deblock_finality deblock_is_final(size_t w, size_t h, size_t x, size_t y,
                                         const uint8_t *marks, size_t marks_len);

/* Which macroblocks are final. */
struct deblock_finals {
    uint32_t answer;          /* of enum deblock_answer */
    uint8_t own, left, upper; /* 1 where there is one and it is final, else 0; all 0 unless answer is 0 */
};

/* What has a visit of (x, y) made final? Asked with the marks that a visit which answered 0 has left, it
 * lists all that has become final with it, of the macroblock and its left and upper neighbours; none of the
 * three was final before. It asks of them, in this order, what deblock_is_final asks, and answers the first
 * refusal. So it reads the marks of (x, y), (x + 1, y), (x, y + 1), (x - 1, y), (x - 1, y + 1), (x, y - 1)
 * and (x + 1, y - 1), as far as they exist.
 * Writes nothing. Answers 0, 1, 2, 4, 7. */
struct deblock_finals deblock_made_final(size_t w, size_t h, size_t x, size_t y,
                                         const uint8_t *marks, size_t marks_len);

/* The strength calls read of a macroblock (x, y) its 16 blocks, four to the left where x > 0 and four above
 * where y > 0, and write the 32 strengths of the macroblock and no others; the first three do so for one
 * macroblock, the fourth for each of a row. t8s is the grid that filtering is lent. Of it they read the
 * macroblock's flag and those of its left and upper neighbours; of a neighbour whose flag is set they read
 * the counts, and nothing else, of the eight nearest blocks in place of four: two columns to the left, two
 * rows above. All these have to be there, flags as well as blocks: a call cannot tell one that has not
 * arrived.
 *
 * Where a macroblock's flag is set, its edges 1 and 3 get 0, and a count other than 0 in any of the four
 * blocks of an 8x8 block counts for all four, on both sides of an edge. So a decoder may write the four
 * counts of CAVLC as they are, or the 8x8 block's own count to any or all of its four blocks.
 *
 * Where a list's table is not empty, a reference of that list is an index into it and names the picture whose
 * number stands there; -1 and an index past the table name none. Two blocks are then compared by what their
 * references name: for a strength whichever list names it, for flat and uniform list by list. A call reads
 * every entry of both tables, and one table a list serves the whole picture: where slices have lists of their
 * own, store pictures' numbers in ref0 and ref1 and lend no tables (docs/GUIDE.md, "Reference lists").
 *
 * Where it answers 0 a call with true flags or with true kinds writes what deblock_strengths writes. field
 * other than 0 means that the picture is a field: vectors are then far from a vertical difference of 2
 * quarter samples on, not of 4, and the upper edge of or under an intra macroblock gets 3, not 4. */

/* Strengths of a macroblock of which nothing is known but its transform.
 * Writes strengths. Answers 0, 1, 2, 4, 5, 7, 10, 22, 11. */
uint32_t deblock_strengths(size_t w, size_t h, uint8_t field, size_t x, size_t y,
                           const uint8_t *t8s, size_t t8s_len,
                           const uint8_t *inter, size_t inter_len, const uint8_t *nnz, size_t nnz_len,
                           const int8_t *ref0, size_t ref0_len, const int16_t *mv0, size_t mv0_len,
                           const int8_t *ref1, size_t ref1_len, const int16_t *mv1, size_t mv1_len,
                           const int32_t *pictures0, size_t pictures0_len,
                           const int32_t *pictures1, size_t pictures1_len,
                           uint8_t *strengths, size_t strengths_len);

/* The same with flags, each set by any number but 0. They may be left unset where they are true.
 * Writes strengths. Answers 0, 1, 2, 4, 5, 7, 10, 22, 11, 12. */
uint32_t deblock_strengths_flags(size_t w, size_t h, uint8_t field, size_t x, size_t y,
                                 uint8_t flat, uint8_t uniform, const uint8_t *t8s, size_t t8s_len,
                                 const uint8_t *inter, size_t inter_len, const uint8_t *nnz, size_t nnz_len,
                                 const int8_t *ref0, size_t ref0_len, const int16_t *mv0, size_t mv0_len,
                                 const int8_t *ref1, size_t ref1_len, const int16_t *mv1, size_t mv1_len,
                                 const int32_t *pictures0, size_t pictures0_len,
                                 const int32_t *pictures1, size_t pictures1_len,
                                 uint8_t *strengths, size_t strengths_len);

/* The same with a kind, a number of enum deblock_kind. Any other number is a kind that is true of no grids.
 * Writes strengths. Answers 0, 1, 2, 4, 5, 7, 10, 22, 11, 12. */
uint32_t deblock_strengths_kind(size_t w, size_t h, uint8_t field, size_t x, size_t y, uint8_t kind,
                                const uint8_t *t8s, size_t t8s_len,
                                const uint8_t *inter, size_t inter_len, const uint8_t *nnz, size_t nnz_len,
                                const int8_t *ref0, size_t ref0_len, const int16_t *mv0, size_t mv0_len,
                                const int8_t *ref1, size_t ref1_len, const int16_t *mv1, size_t mv1_len,
                                const int32_t *pictures0, size_t pictures0_len,
                                const int32_t *pictures1, size_t pictures1_len,
                                uint8_t *strengths, size_t strengths_len);

/* Strengths of all w macroblocks of row y: of each what deblock_strengths_kind writes with its own kind,
 * kinds[index], or, where kinds is empty, what deblock_strengths writes. Of kinds it reads the row's. It asks
 * for 1, for 2 (y is not below h), for 4 of kinds, and then what these calls ask, of one macroblock after the
 * other from the left: 12 of one comes before 7 of the next. A refusal writes none of the row's strengths.
 * Writes strengths. Answers 0, 1, 2, 4, 5, 7, 10, 22, 11, 12. */
uint32_t deblock_strengths_row(size_t w, size_t h, uint8_t field, size_t y,
                               const uint8_t *kinds, size_t kinds_len, const uint8_t *t8s, size_t t8s_len,
                               const uint8_t *inter, size_t inter_len, const uint8_t *nnz, size_t nnz_len,
                               const int8_t *ref0, size_t ref0_len, const int16_t *mv0, size_t mv0_len,
                               const int8_t *ref1, size_t ref1_len, const int16_t *mv1, size_t mv1_len,
                               const int32_t *pictures0, size_t pictures0_len,
                               const int32_t *pictures1, size_t pictures1_len,
                               uint8_t *strengths, size_t strengths_len);

/* The four calls of streams. The header line is YUV4MPEG2 and then tags, the other line FRAME and then tags
 * or none; a single space stands before each tag and a newline right after the last. A tag is one or more
 * bytes other than space and newline. Of the header line W and H are there once each, in decimal pixels with
 * leading zeros or without, and C once at most; all other tags, and those after FRAME, are passed over. What
 * follows the first picture is not looked at: to read the next of a stream, lend the header line, the
 * picture's own FRAME line and its planes end to end. */

/* What a call finds in a stream. */
struct deblock_y4m {
    uint32_t answer; /* of enum deblock_answer */
    uint32_t w, h;   /* of the picture in macroblocks; both 0 unless answer is 0 */
};

/* Looks at a stream and tells how large its first picture is, so that planes can be made for it.
 * Writes nothing. Answers 0, 15, 16, 17, 18: the order in which it asks. */
struct deblock_y4m deblock_y4m_look(const uint8_t *stream, size_t stream_len);

/* Places the planes of a stream's first picture.
 * Writes luma, u, v. Answers 0, 15, 16, 17, 18, 3: the order in which it asks. */
struct deblock_y4m deblock_y4m_read(const uint8_t *stream, size_t stream_len, uint8_t *luma, size_t luma_len,
                                    uint8_t *u, size_t u_len, uint8_t *v, size_t v_len);

/* How many bytes deblock_y4m_write writes for a picture of w by h macroblocks; 0 where it would answer 1. */
size_t deblock_y4m_length(size_t w, size_t h);

/* Writes a stream of one picture: the line YUV4MPEG2 Wn Hn C420mpeg2, n in pixels without leading zeros, the
 * line FRAME, and the planes. Read again it gives the same planes. stream_len is just deblock_y4m_length.
 * Writes stream. Answers 0, 1, 3, 18: the order in which it asks. */
uint32_t deblock_y4m_write(size_t w, size_t h, const uint8_t *luma, size_t luma_len,
                           const uint8_t *u, size_t u_len, const uint8_t *v, size_t v_len,
                           uint8_t *stream, size_t stream_len);

#ifdef __cplusplus
}
#endif

/* The first twelve calls over structs. Start a struct in static storage or as in `struct deblock_picture p =
 * DEBLOCK_NONE;`, and set its members by name. Members that a later version adds are then 0, which will mean
 * what this version does. How these structs are laid out is no part of the archive; how those that calls
 * answer are is.
 *
 * A null pointer of length 0 means not lent. A null pointer with another length counts as a wrong length,
 * also where length 0 or any length would do: a call that takes it answers 3, 4 or 5, unless an earlier check
 * applies. */
#ifdef __cplusplus
#define DEBLOCK_NONE {}
#else
#define DEBLOCK_NONE {0}
#endif

/* What stays the same throughout a picture, with its marks. U's chroma offset is offset_chroma, V's is
 * offset_chroma + offset_v_minus_u. A difference, so that V has U's where it is left 0: in programs written
 * for 0.5.0, and for streams without second_chroma_qp_index_offset. */
struct deblock_picture {
    size_t w, h;
    uint8_t part; /* of enum deblock_part; to a strength call all but DEBLOCK_FRAME are a field */
    int32_t offset_a, offset_b, offset_chroma, offset_v_minus_u;
    uint8_t *luma; size_t luma_len;
    uint8_t *u; size_t u_len;
    uint8_t *v; size_t v_len;
    uint8_t *strengths; size_t strengths_len; /* strength calls write them, filtering reads them */
    const uint8_t *qps; size_t qps_len;
    const uint8_t *t8s; size_t t8s_len; /* strength calls and filtering read them */
    uint8_t *marks; size_t marks_len; /* visits write them, and they tell what is final */
    /* For the functions with slices alone. They do not look at offset_a and offset_b. */
    const struct deblock_slice *slices; size_t slices_len;
    const uint16_t *slice_numbers; size_t slice_numbers_len;
};

/* The 4x4 grids and a table for each list, for strength calls alone. */
struct deblock_grids {
    const uint8_t *inter; size_t inter_len;
    const uint8_t *nnz; size_t nnz_len;
    const int8_t *ref0; size_t ref0_len;
    const int16_t *mv0; size_t mv0_len;
    const int8_t *ref1; size_t ref1_len;
    const int16_t *mv1; size_t mv1_len;
    const int32_t *pictures0; size_t pictures0_len;
    const int32_t *pictures1; size_t pictures1_len;
};

/* For the functions below: a picture as a flat call may be lent it. Where a pointer is null it gets a byte
 * that nobody reads or writes, of length 0. Flags without a pointer but with a length must be refused with 4,
 * so the strengths, which every call takes, go with them; with a table of slices their numbers go. */
static inline struct deblock_picture deblock_picture_lent(struct deblock_picture p)
{
    static uint8_t none[1];
    static const struct deblock_slice no_slices[1] = {{0, 0, 0}};
    static const uint16_t no_numbers[1] = {0};
    if (!p.t8s && p.t8s_len) { p.strengths = NULL; }
    if (!p.slices && p.slices_len) { p.slice_numbers = NULL; }
    if (!p.luma) { p.luma = none; p.luma_len = 0; }
    if (!p.u) { p.u = none; p.u_len = 0; }
    if (!p.v) { p.v = none; p.v_len = 0; }
    if (!p.strengths) { p.strengths = none; p.strengths_len = 0; }
    if (!p.qps) { p.qps = none; p.qps_len = 0; }
    if (!p.t8s) { p.t8s = none; p.t8s_len = 0; }
    if (!p.marks) { p.marks = none; p.marks_len = 0; }
    if (!p.slices) { p.slices = no_slices; p.slices_len = 0; }
    if (!p.slice_numbers) { p.slice_numbers = no_numbers; p.slice_numbers_len = 0; }
    return p;
}

/* The same for grids. One of list 1, or a table, without a pointer but with a length must be refused with 5,
 * so the inter bytes go with it. */
static inline struct deblock_grids deblock_grids_lent(struct deblock_grids g)
{
    static const uint8_t no_bytes[1] = {0};
    static const int8_t no_references[1] = {0};
    static const int16_t no_motion[1] = {0};
    static const int32_t no_pictures[1] = {0};
    if ((!g.ref1 && g.ref1_len) || (!g.mv1 && g.mv1_len)) { g.inter = NULL; }
    if ((!g.pictures0 && g.pictures0_len) || (!g.pictures1 && g.pictures1_len)) { g.inter = NULL; }
    if (!g.inter) { g.inter = no_bytes; g.inter_len = 0; }
    if (!g.nnz) { g.nnz = no_bytes; g.nnz_len = 0; }
    if (!g.ref0) { g.ref0 = no_references; g.ref0_len = 0; }
    if (!g.mv0) { g.mv0 = no_motion; g.mv0_len = 0; }
    if (!g.ref1) { g.ref1 = no_references; g.ref1_len = 0; }
    if (!g.mv1) { g.mv1 = no_motion; g.mv1_len = 0; }
    if (!g.pictures0) { g.pictures0 = no_pictures; g.pictures0_len = 0; }
    if (!g.pictures1) { g.pictures1 = no_pictures; g.pictures1_len = 0; }
    return g;
}

/* V's chroma offset. A sum above 13 is 13 here, one below -13 is -13: check 6 refuses these too, and the sum
 * itself may be none that an int32_t holds. */
static inline int32_t deblock_picture_chroma_v(const struct deblock_picture *p)
{
    const int64_t sum = (int64_t)p->offset_chroma + p->offset_v_minus_u;
    return sum > 13 ? 13 : sum < -13 ? -13 : (int32_t)sum;
}

/* Each of these does what the flat call of its name does. */
static inline uint32_t deblock_picture_whole(const struct deblock_picture *picture)
{
    const struct deblock_picture p = deblock_picture_lent(*picture);
    return deblock_whole(p.w, p.h, p.part,
                         p.offset_a, p.offset_b, p.offset_chroma, deblock_picture_chroma_v(&p),
                         p.luma, p.luma_len, p.u, p.u_len, p.v, p.v_len,
                         p.strengths, p.strengths_len, p.qps, p.qps_len, p.t8s, p.t8s_len);
}

static inline uint32_t deblock_picture_rows(const struct deblock_picture *picture, size_t first, size_t last)
{
    const struct deblock_picture p = deblock_picture_lent(*picture);
    return deblock_rows(p.w, p.h, p.part, first, last,
                        p.offset_a, p.offset_b, p.offset_chroma, deblock_picture_chroma_v(&p),
                        p.luma, p.luma_len, p.u, p.u_len, p.v, p.v_len,
                        p.strengths, p.strengths_len, p.qps, p.qps_len, p.t8s, p.t8s_len);
}

static inline uint32_t deblock_picture_visit(const struct deblock_picture *picture, size_t x, size_t y)
{
    const struct deblock_picture p = deblock_picture_lent(*picture);
    return deblock_visit(p.w, p.h, p.part, x, y,
                         p.offset_a, p.offset_b, p.offset_chroma, deblock_picture_chroma_v(&p),
                         p.luma, p.luma_len, p.u, p.u_len, p.v, p.v_len,
                         p.strengths, p.strengths_len, p.qps, p.qps_len, p.t8s, p.t8s_len,
                         p.marks, p.marks_len);
}

static inline uint32_t deblock_picture_whole_slices(const struct deblock_picture *picture)
{
    const struct deblock_picture p = deblock_picture_lent(*picture);
    return deblock_whole_slices(p.w, p.h, p.part,
                                p.offset_chroma, deblock_picture_chroma_v(&p),
                                p.slices, p.slices_len, p.slice_numbers, p.slice_numbers_len,
                                p.luma, p.luma_len, p.u, p.u_len, p.v, p.v_len,
                                p.strengths, p.strengths_len, p.qps, p.qps_len, p.t8s, p.t8s_len);
}

static inline uint32_t deblock_picture_rows_slices(const struct deblock_picture *picture,
                                                   size_t first, size_t last)
{
    const struct deblock_picture p = deblock_picture_lent(*picture);
    return deblock_rows_slices(p.w, p.h, p.part, first, last,
                               p.offset_chroma, deblock_picture_chroma_v(&p),
                               p.slices, p.slices_len, p.slice_numbers, p.slice_numbers_len,
                               p.luma, p.luma_len, p.u, p.u_len, p.v, p.v_len,
                               p.strengths, p.strengths_len, p.qps, p.qps_len, p.t8s, p.t8s_len);
}

static inline uint32_t deblock_picture_visit_slices(const struct deblock_picture *picture, size_t x, size_t y)
{
    const struct deblock_picture p = deblock_picture_lent(*picture);
    return deblock_visit_slices(p.w, p.h, p.part, x, y,
                                p.offset_chroma, deblock_picture_chroma_v(&p),
                                p.slices, p.slices_len, p.slice_numbers, p.slice_numbers_len,
                                p.luma, p.luma_len, p.u, p.u_len, p.v, p.v_len,
                                p.strengths, p.strengths_len, p.qps, p.qps_len, p.t8s, p.t8s_len,
                                p.marks, p.marks_len);
}

/* These two look at w, h and marks alone. */
static inline struct deblock_finality deblock_picture_is_final(const struct deblock_picture *picture,
                                                               size_t x, size_t y)
{
    const struct deblock_picture p = deblock_picture_lent(*picture);
    return deblock_is_final(p.w, p.h, x, y, p.marks, p.marks_len);
}

static inline struct deblock_finals deblock_picture_made_final(const struct deblock_picture *picture,
                                                               size_t x, size_t y)
{
    const struct deblock_picture p = deblock_picture_lent(*picture);
    return deblock_made_final(p.w, p.h, x, y, p.marks, p.marks_len);
}

static inline uint32_t deblock_picture_strengths(const struct deblock_picture *picture,
                                                 const struct deblock_grids *grids, size_t x, size_t y)
{
    const struct deblock_picture p = deblock_picture_lent(*picture);
    const struct deblock_grids g = deblock_grids_lent(*grids);
    return deblock_strengths(p.w, p.h, p.part != DEBLOCK_FRAME, x, y, p.t8s, p.t8s_len,
                             g.inter, g.inter_len, g.nnz, g.nnz_len, g.ref0, g.ref0_len, g.mv0, g.mv0_len,
                             g.ref1, g.ref1_len, g.mv1, g.mv1_len,
                             g.pictures0, g.pictures0_len, g.pictures1, g.pictures1_len,
                             p.strengths, p.strengths_len);
}

/* flags: any of enum deblock_flag joined by |, or 0; other bits are not read. */
static inline uint32_t deblock_picture_strengths_flags(const struct deblock_picture *picture,
                                                       const struct deblock_grids *grids,
                                                       size_t x, size_t y, unsigned flags)
{
    const struct deblock_picture p = deblock_picture_lent(*picture);
    const struct deblock_grids g = deblock_grids_lent(*grids);
    return deblock_strengths_flags(p.w, p.h, p.part != DEBLOCK_FRAME, x, y, (flags & DEBLOCK_FLAT) != 0,
                                   (flags & DEBLOCK_UNIFORM) != 0, p.t8s, p.t8s_len,
                                   g.inter, g.inter_len, g.nnz, g.nnz_len, g.ref0, g.ref0_len,
                                   g.mv0, g.mv0_len, g.ref1, g.ref1_len, g.mv1, g.mv1_len,
                                   g.pictures0, g.pictures0_len, g.pictures1, g.pictures1_len,
                                   p.strengths, p.strengths_len);
}

static inline uint32_t deblock_picture_strengths_kind(const struct deblock_picture *picture,
                                                      const struct deblock_grids *grids,
                                                      size_t x, size_t y, uint8_t kind)
{
    const struct deblock_picture p = deblock_picture_lent(*picture);
    const struct deblock_grids g = deblock_grids_lent(*grids);
    return deblock_strengths_kind(p.w, p.h, p.part != DEBLOCK_FRAME, x, y, kind, p.t8s, p.t8s_len,
                                  g.inter, g.inter_len, g.nnz, g.nnz_len, g.ref0, g.ref0_len,
                                  g.mv0, g.mv0_len, g.ref1, g.ref1_len, g.mv1, g.mv1_len,
                                  g.pictures0, g.pictures0_len, g.pictures1, g.pictures1_len,
                                  p.strengths, p.strengths_len);
}

/* kinds: those of the picture, or a null pointer of length 0 where nothing is known. With another length it
 * must be refused with 4, so here too the strengths go with it. */
static inline uint32_t deblock_picture_strengths_row(const struct deblock_picture *picture,
                                                     const struct deblock_grids *grids, size_t y,
                                                     const uint8_t *kinds, size_t kinds_len)
{
    static const uint8_t no_kinds[1] = {0};
    struct deblock_picture p = deblock_picture_lent(*picture);
    const struct deblock_grids g = deblock_grids_lent(*grids);
    if (!kinds && kinds_len) { p.strengths_len = 0; }
    if (!kinds) { kinds = no_kinds; kinds_len = 0; }
    return deblock_strengths_row(p.w, p.h, p.part != DEBLOCK_FRAME, y, kinds, kinds_len, p.t8s, p.t8s_len,
                                 g.inter, g.inter_len, g.nnz, g.nnz_len, g.ref0, g.ref0_len,
                                 g.mv0, g.mv0_len, g.ref1, g.ref1_len, g.mv1, g.mv1_len,
                                 g.pictures0, g.pictures0_len, g.pictures1, g.pictures1_len,
                                 p.strengths, p.strengths_len);
}

#endif
