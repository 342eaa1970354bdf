/* hook: pull
 * maps: 16:16
 * How often a pull was asked for at each size of the other queue, by powers of two, kept by bq_update. */
#include "bqsim.h"

struct row {
    u64 asked;
    u32 last;
    u32 most;
};

u64 policy(const struct bq_pull *ask)
{
    u32 size = ask->other_size & 0xffff;
    u32 bucket = 0;

    if (size >> 8) { bucket += 8; size >>= 8; }
    if (size >> 4) { bucket += 4; size >>= 4; }
    if (size >> 2) { bucket += 2; size >>= 2; }
    if (size >> 1) bucket += 1;
    struct row *row = bq_lookup(BQ_MAP(0), &bucket);
    if (!row)
        return ask->own;
    struct row next = {
        .asked = row->asked + 1,
        .last = ask->own,
        .most = ask->movable > row->most ? ask->movable : row->most,
    };
    if (bq_update(BQ_MAP(0), &bucket, &next, 0))
        return BQ_NONE;
    return next.asked & 1 ? ask->own : ask->shown ? ask->tasks[0].task : BQ_NONE;
}
