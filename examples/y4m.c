/* y4m FILE [STRENGTH]: filters the first picture of a YUV4MPEG2 stream, NAME.y4m, and writes
 * NAME-filtered.y4m.
 *
 * A stream has samples and nothing of how they were coded, so what the filter wants beside them is made up
 * here: every edge has STRENGTH, 0 to 4 (1 if it is not given), every macroblock QP 36, and the offsets are
 * 0. A decoder has its own: examples/deblock.c. At STRENGTH 0 the planes stay as they are. */
#include <stdio.h>
#include <stdlib.h>
#include <string.h>

#include "deblock.h"

static void fail(const char *what)
{
    fprintf(stderr, "y4m: %s\n", what);
    exit(2);
}

static void must_be_done(uint32_t answer)
{
    if (answer == DEBLOCK_DONE)
        return;
    fprintf(stderr, "y4m: refused with %u: %s\n", (unsigned)answer, deblock_answer_text(answer));
    exit(2);
}

/* Memory of this length, every byte of it set to value. No pointer that is lent may be null. */
static uint8_t *bytes(size_t len, int value)
{
    uint8_t *made = (uint8_t *)malloc(len > 0 ? len : 1);
    if (!made)
        fail("no memory");
    memset(made, value, len);
    return made;
}

static uint8_t *read_file(const char *name, size_t *len)
{
    FILE *file = fopen(name, "rb");
    if (!file || fseek(file, 0, SEEK_END) != 0 || ftell(file) < 0)
        fail("the file cannot be read");
    *len = (size_t)ftell(file);
    rewind(file);
    uint8_t *all = bytes(*len, 0);
    if (fread(all, 1, *len, file) != *len)
        fail("the file cannot be read");
    fclose(file);
    return all;
}

/* Writes NAME-filtered.y4m beside NAME.y4m. */
static void write_file(const char *name, const uint8_t *all, size_t len)
{
    static const char ending[] = ".y4m", added[] = "-filtered.y4m";
    size_t kept = strlen(name);
    if (kept >= strlen(ending) && strcmp(name + kept - strlen(ending), ending) == 0)
        kept -= strlen(ending);
    char *other = (char *)bytes(kept + sizeof added, 0);
    memcpy(other, name, kept);
    memcpy(other + kept, added, sizeof added);
    FILE *file = fopen(other, "wb");
    if (!file)
        fail("the filtered stream cannot be made");
    fwrite(all, 1, len, file);
    int bad = ferror(file);
    bad |= fclose(file);
    if (bad)
        fail("the filtered stream cannot be written");
    free(other);
}

/* The picture of a stream, in planes made for it: look, make, read. */
static struct deblock_picture read_picture(const uint8_t *stream, size_t stream_len)
{
    struct deblock_picture p = DEBLOCK_NONE;
    const struct deblock_y4m found = deblock_y4m_look(stream, stream_len);
    must_be_done(found.answer);
    p.w = found.w;
    p.h = found.h;
    p.luma_len = 256 * p.w * p.h;
    p.u_len = p.v_len = 64 * p.w * p.h;
    p.luma = bytes(p.luma_len, 0);
    p.u = bytes(p.u_len, 0);
    p.v = bytes(p.v_len, 0);
    must_be_done(deblock_y4m_read(stream, stream_len, p.luma, p.luma_len, p.u, p.u_len, p.v, p.v_len).answer);
    return p;
}

static void filter(struct deblock_picture p, int strength)
{
    p.strengths_len = 32 * p.w * p.h;
    p.qps_len = p.w * p.h;
    uint8_t *strengths = bytes(p.strengths_len, strength), *qps = bytes(p.qps_len, 36);
    p.strengths = strengths;
    p.qps = qps;
    must_be_done(deblock_picture_whole(&p));
    free(strengths);
    free(qps);
}

int main(int argc, char **argv)
{
    if (argc != 2 && argc != 3)
        fail("the arguments are FILE and, if you like, STRENGTH");
    size_t len;
    uint8_t *stream = read_file(argv[1], &len);
    struct deblock_picture p = read_picture(stream, len);
    filter(p, argc == 3 ? atoi(argv[2]) : 1);

    len = deblock_y4m_length(p.w, p.h);
    uint8_t *filtered = bytes(len, 0);
    must_be_done(deblock_y4m_write(p.w, p.h, p.luma, p.luma_len, p.u, p.u_len, p.v, p.v_len, filtered, len));
    write_file(argv[1], filtered, len);
    printf("%u by %u macroblocks: filtered\n", (unsigned)p.w, (unsigned)p.h);
    free(filtered);
    free(stream);
    free(p.luma);
    free(p.u);
    free(p.v);
    return 0;
}
