/* hook: place
 * Fills processors from the first: the first one of the task's mask that runs less than two tasks. Few processors are
 * busy and the others stay idle, so that the lanes of the last ones are empty. */
#include "bqsim.h"

u64 policy(const struct bq_place *ask)
{
#pragma clang loop unroll(full)
    for (u32 p = 0; p < 16; p++) {
        if (!((ask->mask >> p) & 1))
            continue;
        if (p < ask->processors && ask->load[p] < 2)
            return p;
    }
    return ask->own;
}
