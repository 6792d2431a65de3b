/* Runs a function as the processor of this machine does, and prints what `lambdaio` is to print. Arguments: `readl` CAP PARAM INPUT, or
   `writel` OLD PARAM INPUT, where OLD, PARAM and INPUT are hexadecimal digits, or `-` for none. */
#include "function.h"
#include <stdio.h>
#include <stdlib.h>
#include <string.h>

static u8 *bytes(const char *digits, u64 *len)
{
    *len = strcmp(digits, "-") ? strlen(digits) / 2 : 0;
    u8 *all = aligned_alloc(16, (*len + 16) / 16 * 16);
    for (u64 i = 0; i < *len; i++) {
        unsigned byte;
        sscanf(digits + 2 * i, "%2x", &byte);
        all[i] = byte;
    }
    return all;
}

static void print(const u8 *all, u64 len)
{
    if (len == 0)
        printf("-");
    for (u64 i = 0; i < len; i++)
        printf("%02x", all[i]);
    printf("\n");
}

int main(int count, char **words)
{
    if (count != 5)
        return 1;
    struct context c;
    int reads = !strcmp(words[1], "readl");
    if (reads) {
        c.output_len = atoi(words[2]);
        c.output = calloc(c.output_len / 16 + 1, 16);
    } else
        c.output = bytes(words[2], &c.output_len);
    c.param = bytes(words[3], &c.param_len);
    c.input = bytes(words[4], &c.input_len);
    u64 result = run(&c);
    if (reads) {
        printf("res ");
        print(c.output, result);
    } else {
        printf("val %llu\ndata ", result);
        print(c.output, c.output_len);
    }
    return 0;
}
