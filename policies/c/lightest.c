/* hook: pull
 * An emptier processor takes the lightest task that is shown: heavy ones stay where they are. */
#include "bqsim.h"

u64 policy(const struct bq_pull *ask)
{
    if (ask->own == BQ_NONE)
        return BQ_NONE;
    u32 task = BQ_NONE;
    u32 least = BQ_NONE;
#pragma clang loop unroll(full)
    for (u32 k = 0; k < 8; k++) {
        if (k < ask->shown && ask->tasks[k].weight < least) {
            least = ask->tasks[k].weight;
            task = ask->tasks[k].task;
        }
    }
    return task;
}
