/* Adds numbers of 32 bits to those of the file, each at its place, up to the parameter's number; tells how many stopped there. */
#include "function.h"

u64 run(struct context *c)
{
    u32 most = *(const u32 *)c->param;
    const u32 *added = (const u32 *)c->input;
    u32 *counters = (u32 *)c->output;
    u64 full = 0;
    for (u64 i = 0; i < c->output_len / 4 && i < c->input_len / 4; i++) {
        u64 sum = (u64)counters[i] + added[i];
        if (sum > most) {
            sum = most;
            full++;
        }
        counters[i] = (u32)sum;
    }
    return full;
}
