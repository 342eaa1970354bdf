/* hook: place
 * format: 2
 * Counts the wakes of each processor, in the shared counters, and answers the least loaded one of four. */
#include "bqsim.h"

u64 policy(const struct bq_place2 *ask)
{
    u64 wakes = bq_counter_add(bq_processor() & 63, 1);
    u32 from = (u32)(wakes * 4 + bq_counter_read(63)) & 60;
    u32 best = from;

#pragma clang loop unroll(full)
    for (u32 k = 1; k < 4; k++)
        if (ask->load[from + k] < ask->load[best])
            best = from + k;
    if (best >= ask->processors)
        return ask->own;
    return best;
}
