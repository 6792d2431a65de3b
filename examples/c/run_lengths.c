/* Pairs of a byte and how often it comes in a row, at most 255. */
#include "function.h"

u64 run(struct context *c)
{
    u64 n = 0;
    for (u64 i = 0; i < c->input_len;) {
        u8 byte = c->input[i];
        u32 count = 0;
        while (i < c->input_len && c->input[i] == byte && count < 255) {
            i++;
            count++;
        }
        if (n + 2 > c->output_len)
            break;
        c->output[n++] = byte;
        c->output[n++] = count;
    }
    return n;
}
