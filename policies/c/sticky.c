/* hook: place
 * A task goes back to the processor where it last blocked, unless that has two tasks more than the waking one. What is in its
 * caches is still there; a busy processor keeps its queue longer. */
#include "bqsim.h"

u64 policy(const struct bq_place *ask)
{
    u32 back = ask->previous;
    u32 here = ask->waker;

    if (back > 15 || here > 15)
        return ask->own;
    if (!((ask->mask >> back) & 1))
        return ask->own;
    if (ask->load[back] > ask->load[here] + 1)
        return ask->own;
    return back;
}
