/* The records of 16 bytes whose key is from the parameter's first number up to below its second one. */
#include "record.h"

u64 run(struct context *c)
{
    const struct record *records = (const struct record *)c->input;
    struct record *selected = (struct record *)c->output;
    u32 low = ((const u32 *)c->param)[0], high = ((const u32 *)c->param)[1];
    u64 n = 0;
    for (u64 i = 0; i < c->input_len / sizeof *records; i++)
        if (records[i].key >= low && records[i].key < high)
            selected[n++] = records[i];
    return n * sizeof *selected;
}
