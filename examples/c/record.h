/* A record of 16 bytes, as the functions that go over records take them. */
#ifndef RECORD_H
#define RECORD_H

#include "function.h"

struct record {
    u32 key;
    s32 amount;
    u64 time;
};

#endif
