/* What the programs around consensus.c have in common: objects of the table in table.h, as shape.h says, and how threads meet. */
#define _POSIX_C_SOURCE 200809L
#include "consensus.c"
#include "shape.h"
#include "table.h"
#include <pthread.h>
#include <sched.h>
#include <stdio.h>
#include <stdlib.h>
#include <string.h>
#include <time.h>

enum { N = CONSENSUS_PROCESSES };

/* The states of objects, in the order in which they are made. */
struct cells {
    _Atomic unsigned char *at;
    uint64_t made;
};

static inline unsigned apply(void *self, unsigned operation)
{
    _Atomic unsigned char *cell = self;
    unsigned char state = atomic_load(cell);
    while (!atomic_compare_exchange_weak(cell, &state, rows[operation][state][1]))
        continue;
    return rows[operation][state][0];
}

#if READS
static inline unsigned read_state(void *self)
{
    return atomic_load((_Atomic unsigned char *)self);
}
#endif

static inline struct consensus_object make(void *of, unsigned state)
{
    struct cells *cells = of;
    _Atomic unsigned char *cell = &cells->at[cells->made++];
    atomic_init(cell, (unsigned char)state);
    struct consensus_object object = OBJECT(cell);
    return object;
}

static _Atomic uint64_t come, end = UINT64_MAX;
static time_t late;

static inline time_t seconds(void)
{
    struct timespec now;
    clock_gettime(CLOCK_MONOTONIC, &now);
    return now.tv_sec;
}

/* Waits until all processes have come to this round, and meanwhile calls `rest`, if there is one. Process 0 says before whether the round
 * is the last one: that is so when it is late, and the least number of rounds is done. */
static inline void meet(unsigned process, uint64_t round, uint64_t least, void (*rest)(unsigned process))
{
    if (process == 0 && round >= least && round % 16 == 0 && seconds() > late)
        atomic_store(&end, round + 1);
    atomic_fetch_add(&come, 1);
    for (unsigned looks = 0; atomic_load(&come) < (round + 1) * N; looks++) {
        if (rest)
            rest(process);
        if (looks > 1000)
            nanosleep(&(struct timespec){0, 20000}, NULL);
        else if (looks > 100)
            sched_yield();
    }
}

/* Runs a thread for each process. */
static inline void run_all(void *(*run)(void *process))
{
    pthread_t threads[N];
    static unsigned numbers[N];
    for (unsigned p = 0; p < N; p++) {
        numbers[p] = p;
        pthread_create(&threads[p], NULL, run, &numbers[p]);
    }
    for (unsigned p = 0; p < N; p++)
        pthread_join(threads[p], NULL);
}
