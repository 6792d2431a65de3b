/* Writes the file's letters as capitals, and tells how many it changed. */
#include "function.h"

u64 run(struct context *c)
{
    u64 changed = 0;
    for (u64 i = 0; i < c->output_len; i++)
        if (c->output[i] >= 'a' && c->output[i] <= 'z') {
            c->output[i] -= 'a' - 'A';
            changed++;
        }
    return changed;
}
