/* hook: place
 * maps: 8:1
 * Each wake from a processor goes to the processor after the one of the wake before from there, whatever the loads are.
 * Tasks wander; the loads even out over time and not at once. Each processor has a map, and so a turn, of its own. */
#include "bqsim.h"

u64 policy(const struct bq_place *ask)
{
    u32 entry = 0;
    u64 *turn = bq_lookup(BQ_MAP(0), &entry);

    if (!turn || ask->processors == 0)
        return ask->own;
    u64 next = *turn + 1;
    if (next >= ask->processors)
        next = 0;
    *turn = next;
    return next;
}
