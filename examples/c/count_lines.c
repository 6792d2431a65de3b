/* How many lines there are, and how long the longest is. */
#include "function.h"

u64 run(struct context *c)
{
    u32 lines = 0, longest = 0, length = 0;
    const u8 *end = c->input + c->input_len;
    for (const u8 *at = c->input; at != end; at++) {
        if (*at != '\n') {
            length++;
            continue;
        }
        if (length > longest)
            longest = length;
        lines++;
        length = 0;
    }
    ((u32 *)c->output)[0] = lines;
    ((u32 *)c->output)[1] = longest;
    return 8;
}
