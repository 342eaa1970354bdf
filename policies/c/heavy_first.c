/* hook: preempt
 * A task of at least twice the weight of the running one runs at once, and one of less than half its weight waits until the
 * running one sleeps. Between these the rule decides. Light tasks starve while heavy ones run. */
#include "bqsim.h"

u64 policy(const struct bq_preempt *ask)
{
    if (ask->next == BQ_NONE)
        return 0;
    if (ask->next_weight >= 2 * ask->weight)
        return 1;
    if (2 * ask->next_weight < ask->weight)
        return 0;
    return ask->own;
}
