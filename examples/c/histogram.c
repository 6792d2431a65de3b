/* How often each upper half of a byte comes. */
#include "function.h"

u64 run(struct context *c)
{
    u32 *counts = (u32 *)c->output;
    for (u64 i = 0; i < c->input_len; i++)
        counts[c->input[i] >> 4]++;
    return 64;
}
