/* The sum of the decimal numbers of a text, with their signs. */
#include "function.h"

u64 run(struct context *c)
{
    s64 sum = 0, value = 0;
    u32 negative = 0, digits = 0;
    for (u64 i = 0; i <= c->input_len; i++) {
        u8 byte = i < c->input_len ? c->input[i] : ' ';
        if (byte >= '0' && byte <= '9') {
            value = value * 10 + (byte - '0');
            digits++;
            continue;
        }
        if (digits)
            sum += negative ? -value : value;
        negative = byte == '-';
        value = 0;
        digits = 0;
    }
    *(s64 *)c->output = sum;
    return 8;
}
