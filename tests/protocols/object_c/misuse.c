/* Wrong uses of consensus.c: misuse CASE. Without assertions (NDEBUG) each answers a status; with them the program stops. */
#include "threads.h"

/* An object whose responses and states are not in the table. */
static unsigned apply_wrong(void *self, unsigned operation)
{
    (void)self;
    return operation + 1000;
}

#if READS
static unsigned read_wrong(void *self)
{
    (void)self;
    return 1000;
}
#define WRONG {NULL, apply_wrong, read_wrong}
#else
#define WRONG {NULL, apply_wrong}
#endif

static struct consensus_object make_wrong(void *of, unsigned state)
{
    struct consensus_object object = WRONG;
    (void)of;
    (void)state;
    return object;
}

static void renew(void *self, unsigned state)
{
    (void)self;
    (void)state;
}

static struct consensus consensus;
static struct consensus_process processes[N];
static struct consensus_universal universal;
static struct consensus_caller callers[N];

/* What comes of a case: a status, and whether nothing was stored. */
static int wrong(int number)
{
    uint64_t first = 7, decided = 7;
    unsigned response = 7;
    void *elected = &response;
    switch (number) {
    case 0: /* a second proposal */
        if (consensus_decide(&processes[0], 10, &first) != CONSENSUS_OK || first != 10)
            return -1;
        return consensus_decide(&processes[0], 99, &decided) == CONSENSUS_MISUSE && decided == 7;
    case 1: /* an election after a decision, and what the others decide */
        if (consensus_decide(&processes[0], 10, &first) != CONSENSUS_OK)
            return -1;
        return consensus_elect(&processes[0], &first, &elected) == CONSENSUS_MISUSE && elected == &response
            && consensus_decide(&processes[1], 20, &decided) == CONSENSUS_OK && decided == 10;
    case 2: /* no such operation: the next call is as usual */
        return consensus_call(&callers[0], 1000, &response) == CONSENSUS_MISUSE && response == 7 && callers[0].calls == 0
            && consensus_call(&callers[0], 0, &response) == CONSENSUS_OK;
    case 3: /* a call of a process that has left */
        consensus_leave(&callers[0]);
        return consensus_call(&callers[0], 0, &response) == CONSENSUS_MISUSE && response == 7;
    default: /* the same, to catch up */
        consensus_leave(&callers[0]);
        return consensus_catch_up(&callers[0]) == CONSENSUS_MISUSE;
    }
}

/* What comes of objects that break their table: a status, at each call. */
static int broken(void)
{
    uint64_t decided = 7;
    unsigned response = 7;
    consensus_processes(&consensus, make_wrong, NULL, processes);
    consensus_callers(&universal, make_wrong, NULL, renew, callers);
    return consensus_decide(&processes[0], 10, &decided) == CONSENSUS_BROKEN_OBJECT && decided == 7
        && consensus_call(&callers[0], 0, &response) == CONSENSUS_BROKEN_OBJECT && response == 7
        && consensus_call(&callers[0], 0, &response) == CONSENSUS_BROKEN_OBJECT
        && consensus_catch_up(&callers[0]) == CONSENSUS_BROKEN_OBJECT && consensus_check_object(make_wrong, NULL).what != NULL;
}

int main(int words, char **word)
{
    static struct cells cells;
    int number = words == 2 ? atoi(word[1]) : 0;
    cells.at = malloc(CONSENSUS_NODES + CONSENSUS_OBJECTS);
    consensus_processes(&consensus, make, &cells, processes);
    consensus_callers(&universal, make, &cells, renew, callers);
    printf("%d\n", number == 5 ? broken() : wrong(number));
    return 0;
}
