/* Threads that call the wait-free object of consensus.c: calls ROUNDS
 * In each round a process makes four calls behind a barrier, or rests; while it waits it catches up, so that the others find blocks. Each
 * response has to be that of the object's own run, in the order of the log. After a second it goes on to LEAST rounds only, for a machine
 * with other work. Prints the calls, and whether several shared a slot. */
#include "threads.h"

enum { LEAST = 500, EACH = 4, OPERATIONS = CONSENSUS_LENGTH(consensus_object_operations) };

/* A call: the slot where it stands, its operation and its response. */
struct told {
    uint64_t slot;
    unsigned operation;
    unsigned response;
};

static struct consensus_universal universal;
static struct consensus_caller callers[N];
static struct told *told[N];
static uint64_t count[N];
static uint64_t rounds;

static void renew(void *self, unsigned state)
{
    atomic_store_explicit((_Atomic unsigned char *)self, (unsigned char)state, memory_order_relaxed);
}

static void call(unsigned p, unsigned operation)
{
    struct consensus_caller *mine = &callers[p];
    unsigned response = 0;
    enum consensus_status status = consensus_call(mine, operation, &response);
    for (; status == CONSENSUS_FULL; status = consensus_call(mine, operation, &response))
        sched_yield();
    if (status != CONSENSUS_OK)
        exit(2);
    told[p][count[p]++] = (struct told){(mine->block - 1) * CONSENSUS_SLOTS + mine->slot - 1, operation, response};
}

static void catch_up(unsigned p)
{
    enum consensus_status status = consensus_catch_up(&callers[p]);
    if (status != CONSENSUS_OK && status != CONSENSUS_FULL)
        exit(3);
}

static void *call_all(void *process)
{
    unsigned p = *(unsigned *)process, random = 12345 + p;
    for (uint64_t round = 0; round < rounds && round < atomic_load(&end); round++) {
        meet(p, round, LEAST, catch_up);
        int rests = p + 1 == N && round % 64 > 8;
        for (unsigned k = 0; k < EACH && !rests; k++) {
            random = random * 1103515245 + 12345;
            call(p, (random >> 16) % OPERATIONS);
        }
    }
    consensus_leave(&callers[p]);
    return NULL;
}

/* The next call in the order of the log: that of the process which stands in the first slot, or N behind the last one. */
static unsigned first_of(const uint64_t at[N])
{
    unsigned first = N;
    for (unsigned p = 0; p < N; p++)
        if (at[p] < count[p] && (first == N || told[p][at[p]].slot < told[first][at[first]].slot))
            first = p;
    return first;
}

int main(int words, char **word)
{
    static struct cells cells;
    uint64_t at[N] = {0}, all = 0, shared = 0, slot = UINT64_MAX;
    unsigned state = CONSENSUS_OBJECT_START;
    rounds = words == 2 ? strtoull(word[1], NULL, 10) : 0;
    late = seconds() + 1;
    cells.at = malloc(CONSENSUS_OBJECTS);
    consensus_callers(&universal, make, &cells, renew, callers);
    if (cells.made != CONSENSUS_OBJECTS)
        return 2;
    for (unsigned p = 0; p < N; p++)
        told[p] = malloc(rounds * EACH * sizeof *told[p]);
    run_all(call_all);
    for (unsigned p = first_of(at); p < N; p = first_of(at)) {
        const struct told *it = &told[p][at[p]++];
        const struct consensus_transition *step = &consensus_object_transitions[it->operation][state];
        if (it->response != step->response || (at[p] > 1 && it->slot <= it[-1].slot))
            return 1;
        state = step->next;
        shared += it->slot == slot;
        slot = it->slot;
        all++;
    }
    printf("%llu calls: right, %s\n", (unsigned long long)all, shared ? "several in a slot" : "one in each slot");
    return 0;
}
