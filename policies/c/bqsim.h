/* Policies of bqsim in C: what the hooks show, the helpers and the maps. See docs/POLICIES_IN_C.md.
 *
 * A policy is one function that is given a context and answers a number:
 *
 *     #include "bqsim.h"
 *     u64 policy(const struct bq_preempt *ask) { return ask->own; }
 */
#ifndef BQSIM_H
#define BQSIM_H

typedef unsigned char u8;
typedef unsigned short u16;
typedef unsigned int u32;
typedef unsigned long long u64;
typedef signed int s32;
typedef signed long long s64;

/* In place of a processor or a task: none. */
#define BQ_NONE 0xffffffffu

/* A task wakes, and goes to the processor that is answered. Format 1 has room for 16 processors. */
struct bq_place {
    u32 task;
    u32 weight;
    u64 mask;       /* the processors that it may use, by bits */
    u64 slice;
    u32 waker;      /* the processor that wakes it */
    u32 previous;   /* the processor where it last blocked, or none */
    u32 processors; /* how many there are */
    u32 own;        /* the rule's choice */
    u32 load[16];   /* of each processor, 0 where there is none */
};

/* The same in format 2, for 64 processors. */
struct bq_place2 {
    u32 task;
    u32 weight;
    u64 mask;
    u64 slice;
    u32 waker;
    u32 previous;
    u32 processors;
    u32 own;
    u32 load[64];
};

/* The running task gives way (answer 1) or stays (answer 0). */
struct bq_preempt {
    u32 processor;
    u32 queued;      /* how many tasks the queue has */
    u32 task;        /* the running one */
    u32 weight;
    u64 v;
    u64 deadline;    /* 0 under CFS */
    u32 next;        /* the task that the rule would choose of the queue, or none */
    u32 next_weight; /* or 0 */
    u64 next_v;      /* or 0 */
    u32 own;         /* the rule's choice, 0 or 1 */
    u32 zero;
};

/* A task that may be taken. */
struct bq_movable {
    u32 task;
    u32 weight;
    u64 v;
};

/* A processor takes a task from another one's queue: the task that is answered, or BQ_NONE. */
struct bq_pull {
    u32 puller;
    u32 other;
    u32 size;       /* of the puller: its running task and its queue */
    u32 other_size;
    u32 movable;    /* how many tasks of that queue may move */
    u32 shown;      /* how many of them stand below, at most 8 */
    u32 own;        /* the rule's choice, or none */
    u32 zero;
    struct bq_movable tasks[8];
};

_Static_assert(sizeof(struct bq_place) == 104, "place, format 1");
_Static_assert(sizeof(struct bq_place2) == 296, "place, format 2");
_Static_assert(sizeof(struct bq_preempt) == 56, "preempt");
_Static_assert(sizeof(struct bq_pull) == 160, "pull");

/* Map k of those that --maps names. It is a number that `bqsim import` knows. */
#define BQ_MAP(k) ((void *)(0x400000000000ull + (k)))

/* The helpers. Compiled for the machine itself, as to test a policy alone, they are functions that the test brings. */
#ifdef __bpf__
#define BQ_HELPER(type, name, number, ...) static type (*const name)(__VA_ARGS__) = (void *)number
#else
#define BQ_HELPER(type, name, number, ...) extern type name(__VA_ARGS__)
#endif

/* The entry of a map with that number, or 0 where there is none: test it before you use it. The number is a u32. */
BQ_HELPER(void *, bq_lookup, 1, const void *map, const void *number);

/* Writes an entry; the flags are 0. Answers 0, or -1 where there is no such entry. */
BQ_HELPER(u64, bq_update, 2, const void *map, const void *number, const void *value, u64 flags);

/* The last reading of the processor's clock, in nanoseconds. */
BQ_HELPER(u64, bq_clock, 5, void);

/* The number of the processor that asks. */
BQ_HELPER(u64, bq_processor, 8, void);

/* Adds to one of the machine's 64 counters, and answers what it was. At most 16 calls of counters on a path. */
BQ_HELPER(u64, bq_counter_add, 100, u64 counter, u64 amount);
BQ_HELPER(u64, bq_counter_read, 101, u64 counter);

/* Keeps the compiler from forgetting that a value was tested: write it before the test. */
#define bq_keep(value) __asm__ volatile("" : "+r"(value))

#define BQ_INLINE static inline __attribute__((always_inline))

#endif
