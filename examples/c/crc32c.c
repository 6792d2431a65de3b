/* The checksum CRC-32C, by a table of 16 entries on the stack. */
#include "function.h"

u64 run(struct context *c)
{
    u32 table[16];
    for (u32 i = 0; i < 16; i++) {
        u32 x = i;
        for (int bit = 0; bit < 4; bit++)
            x = x & 1 ? x >> 1 ^ 0x82f63b78u : x >> 1;
        table[i] = x;
    }
    u32 crc = ~0u;
    for (u64 i = 0; i < c->input_len; i++) {
        crc ^= c->input[i];
        crc = crc >> 4 ^ table[crc & 15];
        crc = crc >> 4 ^ table[crc & 15];
    }
    *(u32 *)c->output = ~crc;
    return 4;
}
