/* hook: pull
 * maps: 8:1
 * A processor takes a task at most once in ten milliseconds of its clock. The loads stay uneven for longer, and tasks move
 * less. The map, which each processor has for itself, has the time of its last pull. */
#include "bqsim.h"

u64 policy(const struct bq_pull *ask)
{
    u32 entry = 0;
    u64 *last = bq_lookup(BQ_MAP(0), &entry);

    if (!last || ask->own == BQ_NONE)
        return BQ_NONE;
    u64 now = bq_clock();
    if (*last != 0 && now - *last < 10000000)
        return BQ_NONE;
    *last = now;
    return ask->own;
}
