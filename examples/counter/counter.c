/* The counter of counter.h. consensus.c is what cnum writes for a compare-and-swap of nine values
 * and the table of the counter. */
#include "counter.h"
#include "consensus.c"
#include <stdlib.h>

/* A word of the type cas_9: its operation k puts k + 1 in if 0 is there, and responds with what was
 * there. */
typedef _Atomic unsigned word;

static unsigned apply(void *self, unsigned operation)
{
    unsigned before = 0;
    atomic_compare_exchange_strong((word *)self, &before, operation + 1);
    return before;
}

static void renew(void *self, unsigned state)
{
    atomic_store((word *)self, state);
}

struct counter {
    struct consensus_universal universal;
    struct consensus_caller callers[CONSENSUS_PROCESSES];
    word words[CONSENSUS_OBJECTS];
};

/* A word in a state, at the place that `of` points to. It then points to the next place. */
static struct consensus_object make(void *of, unsigned state)
{
    word **next = of;
    struct consensus_object object = {(*next)++, apply};
    atomic_init((word *)object.self, state);
    return object;
}

struct counter *counter_new(void)
{
    struct counter *counter = malloc(sizeof *counter);
    if (counter) {
        word *next = counter->words;
        consensus_callers(&counter->universal, make, &next, renew, counter->callers);
    }
    return counter;
}

void counter_free(struct counter *counter)
{
    free(counter);
}

bool counter_increment(struct counter *counter, unsigned thread, unsigned *count)
{
    return consensus_call(&counter->callers[thread], 0, count) == CONSENSUS_OK;
}

bool counter_catch_up(struct counter *counter, unsigned thread)
{
    return consensus_catch_up(&counter->callers[thread]) == CONSENSUS_OK;
}

void counter_leave(struct counter *counter, unsigned thread)
{
    consensus_leave(&counter->callers[thread]);
}
