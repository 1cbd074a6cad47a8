/* The tests of counter.c, with threads of POSIX: the word keeps to its table, and four threads
 * count. */
#include "counter.c"
#include <pthread.h>
#include <sched.h>
#include <stdio.h>

enum { CALLS = 30000, THREADS = CONSENSUS_PROCESSES };

static struct counter *counter;
static unsigned long counts[THREADS][3];

/* The same word each time. */
static struct consensus_object make_one(void *of, unsigned state)
{
    word *place = of;
    return make(&place, state);
}

static void *count_all(void *counts_of)
{
    unsigned long *found = counts_of;
    unsigned thread = (unsigned)((unsigned long (*)[3])counts_of - counts), count = 0;
    for (unsigned k = 0; k < CALLS; k++) {
        while (!counter_increment(counter, thread, &count))
            sched_yield();
        found[count]++;
    }
    counter_leave(counter, thread);
    return NULL;
}

int main(void)
{
    word one;
    pthread_t threads[THREADS];
    struct consensus_difference it = consensus_check_object(make_one, &one);
    if (it.what) {
        fprintf(stderr, "%s of %s in %s: %s, and not %s\n", it.what, it.operation, it.state, it.found, it.expected);
        return 1;
    }
    counter = counter_new();
    for (unsigned p = 0; p < THREADS; p++)
        pthread_create(&threads[p], NULL, count_all, counts[p]);
    for (unsigned p = 0; p < THREADS; p++)
        pthread_join(threads[p], NULL);
    for (unsigned k = 0; k < 3; k++)
        printf("%lu ", counts[0][k] + counts[1][k] + counts[2][k] + counts[3][k]);
    printf("counts of 0, 1 and 2\n");
    counter_free(counter);
    return 0;
}
