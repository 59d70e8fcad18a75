/* The functions over structs, each kept by its address, for `stack` to read. Nothing here is ever run. */
#include "deblock.h"

typedef void (*function)(void);

const function kept[] = {
    (function)deblock_picture_whole,     (function)deblock_picture_rows,
    (function)deblock_picture_visit,     (function)deblock_picture_strengths,
    (function)deblock_picture_whole_slices, (function)deblock_picture_rows_slices,
    (function)deblock_picture_visit_slices,
    (function)deblock_picture_is_final,  (function)deblock_picture_made_final,
    (function)deblock_picture_strengths_flags, (function)deblock_picture_strengths_kind,
    (function)deblock_picture_strengths_row,
};

/* A compiler may call it to copy a struct. */
void *memcpy(void *to, const void *from, size_t n)
{
    (void)from;
    (void)n;
    return to;
}
