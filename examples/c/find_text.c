/* Where the parameter first stands in the input; -1 if nowhere. */
#include "function.h"

u64 run(struct context *c)
{
    s64 place = -1;
    for (u64 i = 0; i + c->param_len <= c->input_len; i++) {
        u64 k = 0;
        while (k < c->param_len && c->input[i + k] == c->param[k])
            k++;
        if (k == c->param_len) {
            place = i;
            break;
        }
    }
    *(s64 *)c->output = place;
    return 8;
}
