/* hook: preempt
 * maps: 32:1
 * Turns of four milliseconds by the clock, whatever the rule wants: fewer switches if the rule would switch sooner, more if it
 * would let the task stay. No ask says when a run began. It began at the ask that was answered 1, or before the first ask that
 * shows the task. If the task slept in between, its v has not risen by exactly the time between two asks. */
#include "bqsim.h"

#define TURN 4000000
#define ROUNDING 100 /* each charge rounds v down by less than 1; so many charges may lie between two asks */

struct seen {
    u64 task;  /* who runs, and since when at the latest */
    u64 since;
    u64 asked; /* the last ask, and the task's v then */
    u64 v;
};

u64 policy(const struct bq_preempt *ask)
{
    u32 entry = 0;
    struct seen *seen = bq_lookup(BQ_MAP(0), &entry);

    if (!seen)
        return ask->own;
    u64 now = bq_clock();
    u64 whole = (now - seen->asked) * 1024 / ask->weight; /* how far v goes if it ran all the time */
    u64 rose = ask->v - seen->v;

    if (seen->task != ask->task || rose > whole || rose + ROUNDING < whole)
        seen->since = now;
    seen->asked = now;
    if (ask->next == BQ_NONE || now - seen->since < TURN) {
        seen->task = ask->task;
        seen->v = ask->v;
        return 0;
    }
    seen->task = ask->next; /* it runs from now on */
    seen->since = now;
    seen->v = ask->next_v;
    return 1;
}
