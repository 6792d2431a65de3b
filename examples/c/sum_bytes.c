/* The sum of all bytes. */
#include "function.h"

u64 run(struct context *c)
{
    u64 sum = 0;
    for (u64 i = 0; i < c->input_len; i++)
        sum += c->input[i];
    *(u64 *)c->output = sum;
    return 8;
}
