/* One process makes calls and the others make none: when it finds no block, and what brings it on. */
#include "threads.h"

enum { BLOCKS = CONSENSUS_BLOCKS, SLOTS = CONSENSUS_SLOTS };

static struct consensus_universal universal;
static struct consensus_caller callers[N];

static void renew(void *self, unsigned state)
{
    atomic_store((_Atomic unsigned char *)self, (unsigned char)state);
}

/* How many calls process p makes before it finds no block, of this many at most. */
static unsigned calls_of(unsigned p, unsigned most)
{
    unsigned response, count = 0;
    while (count < most && consensus_call(&callers[p], 0, &response) == CONSENSUS_OK)
        count++;
    return count;
}

/* Whether all but process 0 catch up, in this order. */
static int all_catch_up(void)
{
    int all = 1;
    for (unsigned p = N - 1; p > 0; p--)
        all = all && consensus_catch_up(&callers[p]) == CONSENSUS_OK;
    return all;
}

int main(void)
{
    static struct cells cells;
    unsigned most = 10 * BLOCKS * SLOTS, response;
    cells.at = malloc(CONSENSUS_OBJECTS);
    consensus_callers(&universal, make, &cells, renew, callers);
    /* Its call that comes into its last block is the last one: all others stand at the start of the log. */
    printf("%d\n", calls_of(0, most) == (BLOCKS - 1) * SLOTS + 1);
    printf("%d\n", consensus_call(&callers[0], 0, &response) == CONSENSUS_FULL && callers[0].calls == (BLOCKS - 1) * SLOTS + 1);
    /* All but one catch up: still none. Then the last one does. */
    for (unsigned p = 2; p < N; p++)
        consensus_catch_up(&callers[p]);
    printf("%d\n", calls_of(0, most) == 0);
    printf("%d\n", all_catch_up() && calls_of(0, most) > (BLOCKS - 2) * SLOTS);
    /* A process that leaves holds nobody up. */
    for (unsigned p = 1; p < N; p++)
        consensus_leave(&callers[p]);
    printf("%d\n", calls_of(0, most) == most);
    return 0;
}
