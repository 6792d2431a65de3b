/* Over records of 16 bytes: the sum of their amounts, the least and the greatest one, and how many are negative. */
#include "record.h"

u64 run(struct context *c)
{
    const struct record *records = (const struct record *)c->input;
    s64 sum = 0;
    s32 least = 2147483647, greatest = -2147483647 - 1;
    u32 negative = 0;
    for (u64 i = 0; i < c->input_len / sizeof *records; i++) {
        s32 amount = records[i].amount;
        sum += amount;
        if (amount < least)
            least = amount;
        if (amount > greatest)
            greatest = amount;
        if (amount < 0)
            negative++;
    }
    ((s64 *)c->output)[0] = sum;
    ((s32 *)c->output)[2] = least;
    ((s32 *)c->output)[3] = greatest;
    ((u32 *)c->output)[4] = negative;
    return 20;
}
