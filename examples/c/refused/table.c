/* A table of constants lies in a section of its own, `.rodata`, and its address is a relocation: `badelf relocated`. A table that the
   function itself fills on its stack is none (crc32c.c). */
#include "../function.h"

static const u32 weights[64] = {3, 1, 4, 1, 5, 9, 2, 6, 5, 3, 5, 8, 9, 7, 9, 3};

u64 run(struct context *c)
{
    u64 sum = 0;
    for (u64 i = 0; i < c->input_len; i++)
        sum += weights[c->input[i] & 63];
    *(u64 *)c->output = sum;
    return 8;
}
