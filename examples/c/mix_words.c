/* A digest of 64-bit words. `mix` is a function of its own: the code has a local call. */
#include "function.h"

static __attribute__((noinline)) u64 mix(u64 x);

u64 run(struct context *c)
{
    const u64 *words = (const u64 *)c->input;
    u64 digest = 0;
    for (u64 i = 0; i < c->input_len / 8; i++)
        digest = mix(digest ^ words[i]);
    *(u64 *)c->output = digest;
    return 8;
}

static u64 mix(u64 x)
{
    x ^= x >> 33;
    x *= 0xff51afd7ed558ccdULL;
    x ^= x >> 33;
    x *= 0xc4ceb9fe1a85ec53ULL;
    return x ^ x >> 33;
}
