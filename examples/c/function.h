/* What a function is given: r1 points to this at its start. Its result is how many bytes of the output it gives (`readl`), or a number
   that is told (`writel`). */
typedef unsigned char u8;
typedef unsigned short u16;
typedef unsigned int u32;
typedef unsigned long long u64;
typedef int s32;
typedef long long s64;

struct context {
    const u8 *input;
    u64 input_len;
    u8 *output;
    u64 output_len;
    const u8 *param;
    u64 param_len;
};

/* The function itself. It is the first of its file, so that it is the first of its section. */
u64 run(struct context *c);
