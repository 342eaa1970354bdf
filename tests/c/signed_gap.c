/* hook: preempt */
/* The tenth part of the gap to the next task's virtual time, with its sign: signed division, remainder and comparison. */
#include "bqsim.h"

u64 policy(const struct bq_preempt *ask)
{
    s64 gap = (s64)(ask->v - ask->next_v);
    s64 part = gap / (s64)(ask->queued + 1);

    if (ask->next == BQ_NONE)
        return 0;
    if (part < -1000)
        return 0;
    if (gap % 7 == -3)
        return ask->own;
    return part > (s32)ask->next_weight;
}
