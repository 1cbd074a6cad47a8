/* Rounds of threads that decide by the file consensus.c, over objects of the table in table.h, as shape.h says: rounds ROUNDS
   After a second it goes on to LEAST rounds only, for a machine with other work. */
#define _POSIX_C_SOURCE 200809L
#include "consensus.c"
#include "shape.h"
#include "table.h"
#include <pthread.h>
#include <sched.h>
#include <stdio.h>
#include <stdlib.h>
#include <time.h>

enum { LEAST = 100 };

static uint64_t rounds;
static _Atomic uint64_t end;
static time_t late;
static struct consensus *all;
static struct consensus_process (*processes)[CONSENSUS_PROCESSES];
static uint64_t *decided[CONSENSUS_PROCESSES];
static _Atomic uint64_t come;

static unsigned apply(void *self, unsigned operation)
{
    _Atomic unsigned char *cell = self;
    unsigned char state = atomic_load(cell);
    while (!atomic_compare_exchange_weak(cell, &state, rows[operation][state][1]))
        continue;
    return rows[operation][state][0];
}

#if READS
static unsigned read_state(void *self)
{
    return atomic_load((_Atomic unsigned char *)self);
}
#endif

static time_t seconds(void)
{
    struct timespec now;
    clock_gettime(CLOCK_MONOTONIC, &now);
    return now.tv_sec;
}

/* Waits until all processes have come to this round. Process 0 says before whether it is the last one. */
static void meet(unsigned process, uint64_t round)
{
    if (process == 0 && round >= LEAST && round % 16 == 0 && seconds() > late)
        atomic_store(&end, round + 1);
    atomic_fetch_add(&come, 1);
    for (unsigned looks = 0; atomic_load(&come) < (round + 1) * CONSENSUS_PROCESSES; looks++)
        if (looks > 1000)
            nanosleep(&(struct timespec){0, 20000}, NULL);
        else if (looks > 100)
            sched_yield();
}

/* In round r of n processes, process p proposes rn + p. */
static void *decide_all(void *of)
{
    uint64_t **mine = of;
    unsigned process = (unsigned)(mine - decided);
    for (uint64_t round = 0; round < atomic_load(&end); round++) {
        meet(process, round);
        if (consensus_decide(&processes[round][process], round * CONSENSUS_PROCESSES + process, &(*mine)[round]) != CONSENSUS_OK)
            exit(2);
    }
    return NULL;
}

/* The next of the cells, in a state. */
static struct consensus_object make(void *of, unsigned state)
{
    _Atomic unsigned char **cells = of, *cell = (*cells)++;
    atomic_init(cell, (unsigned char)state);
    struct consensus_object object = OBJECT(cell);
    return object;
}

static void start(void)
{
    _Atomic unsigned char *cells = malloc(rounds * CONSENSUS_NODES);
    all = malloc(rounds * sizeof *all);
    processes = malloc(rounds * sizeof *processes);
    for (uint64_t round = 0; round < rounds; round++)
        consensus_processes(&all[round], make, &cells, processes[round]);
}

int main(int count, char **words)
{
    pthread_t threads[CONSENSUS_PROCESSES];
    unsigned winners = 0, won[CONSENSUS_PROCESSES] = {0};
    rounds = count == 2 ? strtoull(words[1], NULL, 10) : 0;
    end = rounds;
    late = seconds() + 1;
    start();
    for (unsigned p = 0; p < CONSENSUS_PROCESSES; p++)
        decided[p] = malloc(rounds * sizeof *decided[p]);
    for (unsigned p = 0; p < CONSENSUS_PROCESSES; p++)
        pthread_create(&threads[p], NULL, decide_all, &decided[p]);
    for (unsigned p = 0; p < CONSENSUS_PROCESSES; p++)
        pthread_join(threads[p], NULL);
    for (uint64_t round = 0; round < end; round++) {
        uint64_t value = decided[0][round];
        for (unsigned p = 0; p < CONSENSUS_PROCESSES; p++)
            if (decided[p][round] != value || value / CONSENSUS_PROCESSES != round)
                return 1;
        winners += !won[value % CONSENSUS_PROCESSES]++;
    }
    printf("%llu rounds: %s\n", (unsigned long long)end, winners > 1 ? "agreed, with several winners" : "one winner");
    return 0;
}
