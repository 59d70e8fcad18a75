/* The calls of streams: every answer by its name, in the order in which it is asked for; the members of
 * struct deblock_y4m; what a refusal leaves alone; and that what was written is read again. */
#include "test.h"

/* Lines, the planes of two macroblocks side by side, and one byte more. */
enum { PLANES = 384 * 2, ROOM = 128 + PLANES };
static uint8_t stream[ROOM];

/* Fills the stream and tells how long it is with its planes. */
static size_t fill(const char *lines)
{
    const size_t len = strlen(lines);
    memcpy(stream, lines, len);
    for (size_t i = 0; i < PLANES; i++)
        stream[len + i] = (uint8_t)(i % 251);
    return len + PLANES;
}

static void expect_found(const char *what, uint32_t answer, struct deblock_y4m got)
{
    expect(what, answer, got.answer);
    expect(what, answer == DEBLOCK_DONE ? 2 : 0, got.w);
    expect(what, answer == DEBLOCK_DONE ? 1 : 0, got.h);
}

/* Whether the planes are as decode() leaves them. */
static int untouched(void)
{
    uint8_t now[sizeof planes];
    memcpy(now, planes, sizeof planes);
    decode();
    return memcmp(now, planes, sizeof planes) == 0;
}

/* By both calls. The stream is cut by so many bytes, and luma is one too long. */
static void refused(const char *lines, size_t cut, uint32_t look, uint32_t read)
{
    const size_t len = fill(lines) - cut;
    decode();
    expect_found(lines, look, deblock_y4m_look(stream, len));
    expect_found(lines, read, deblock_y4m_read(stream, len, luma, 513, u, 128, v, 128));
    expect(lines, 1, (uint32_t)untouched());
}

/* Each line mends what the one before it was refused for. */
static void reading(void)
{
    const char *good = "YUV4MPEG2 W32 H16 C420\nFRAME\n";
    refused("YUV4MPEG2 W32 H15 C422\nFRAM\n", 1, DEBLOCK_BAD_STREAM_LINE, DEBLOCK_BAD_STREAM_LINE);
    refused("YUV4MPEG2 W32 H15 C422\nFRAME\n", 1, DEBLOCK_OTHER_PLANES, DEBLOCK_OTHER_PLANES);
    refused("YUV4MPEG2 W32 H15 C420\nFRAME\n", 1, DEBLOCK_BAD_SIDES, DEBLOCK_BAD_SIDES);
    refused(good, 1, DEBLOCK_STREAM_LENGTH, DEBLOCK_STREAM_LENGTH);
    refused(good, 0, DEBLOCK_DONE, DEBLOCK_PLANE_LENGTH);

    const size_t len = fill(good);
    expect_found("read", DEBLOCK_DONE, deblock_y4m_read(stream, len + 1, luma, 512, u, 128, v, 128));
    expect("Y", 0, memcmp(luma, stream + len - PLANES, 512) != 0);
    expect("U", 0, memcmp(u, stream + len - 256, 128) != 0);
    expect("V", 0, memcmp(v, stream + len - 128, 128) != 0);
}

static void writing(void)
{
    static const char lines[] = "YUV4MPEG2 W32 H16 C420mpeg2\nFRAME\n";
    const size_t all = sizeof lines - 1 + PLANES, more = all + 1;
    expect("length", (uint32_t)all, (uint32_t)deblock_y4m_length(2, 1));
    expect("no length", 0, (uint32_t)deblock_y4m_length(257, 1));
    memset(stream, 9, sizeof stream);
    decode();
    expect("257 wide", DEBLOCK_BAD_SIZE, deblock_y4m_write(257, 1, luma, 512, u, 128, v, 127, stream, 0));
    expect("V cut", DEBLOCK_PLANE_LENGTH, deblock_y4m_write(2, 1, luma, 512, u, 128, v, 127, stream, more));
    expect("more", DEBLOCK_STREAM_LENGTH, deblock_y4m_write(2, 1, luma, 512, u, 128, v, 128, stream, more));
    expect("nothing written", 9, stream[0]);
    expect("written", DEBLOCK_DONE, deblock_y4m_write(2, 1, luma, 512, u, 128, v, 128, stream, all));
    expect("lines", 0, memcmp(stream, lines, sizeof lines - 1) != 0);
    expect("nothing after it", 9, stream[all]);

    static uint8_t again[PLANES];
    expect_found("again", DEBLOCK_DONE,
                 deblock_y4m_read(stream, all, again, 512, again + 512, 128, again + 640, 128));
    expect("Y again", 0, memcmp(again, luma, 512) != 0);
    expect("U again", 0, memcmp(again + 512, u, 128) != 0);
    expect("V again", 0, memcmp(again + 640, v, 128) != 0);
}

int main(void)
{
    reading();
    writing();
    return faults != 0;
}
