/* The checksum Adler-32. */
#include "function.h"

u64 run(struct context *c)
{
    u32 a = 1, b = 0;
    for (u64 i = 0; i < c->input_len; i++) {
        a = (a + c->input[i]) % 65521;
        b = (b + a) % 65521;
    }
    *(u32 *)c->output = b << 16 | a;
    return 4;
}
