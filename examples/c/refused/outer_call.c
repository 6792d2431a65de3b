/* A function that is not `static` is called by a relocation, so `elf` refuses the section: `badelf relocated`. */
#include "../function.h"

__attribute__((noinline)) u64 twice(u64 x);

u64 run(struct context *c)
{
    *(u64 *)c->output = twice(c->input_len);
    return 8;
}

u64 twice(u64 x)
{
    return x * 2;
}
