/* hook: pull
 * maps: 8:4,8:8
 * The first map says which entry of the second is used; the answer is the task that this one names. */
#include "bqsim.h"

u64 policy(const struct bq_pull *ask)
{
    u32 one = ask->puller & 3;
    u64 *first = bq_lookup(BQ_MAP(0), &one);

    if (!first)
        return ask->own;
    u32 two = (*first)++ % 8;
    u64 *second = bq_lookup(BQ_MAP(1), &two);
    if (!second)
        return BQ_NONE;
    u32 k = (u32)*second & 7;
    *second += bq_clock() & 3;
    if (k >= ask->shown)
        return ask->own;
    return ask->tasks[k].task;
}
