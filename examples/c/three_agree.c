/* Three threads agree by the instructions fetch-and-or and fetch-and-and on three bits of a word: three_agree ROUNDS
 * runs so many rounds and checks each of them. The protocol stands in consensus.c, which cnum writes:
 *
 *     ./cnum show --as c catalogue/fetch_or_and_3bit.json catalogue/fetch_or_and_3bit.toml
 *
 * It is plain C11, with threads of POSIX: nothing here is proved. */
#define _POSIX_C_SOURCE 200809L
#include "consensus.c"
#include <pthread.h>
#include <stdio.h>
#include <stdlib.h>
#include <string.h>

/* Three bits. The number of a state, and that of a response, is the number that the bits write. */
typedef _Atomic unsigned char bits;

static unsigned apply(void *self, unsigned operation)
{
    if (strcmp(consensus_operation_name(operation), "or110") == 0)
        return atomic_fetch_or((bits *)self, 6);
    return atomic_fetch_and((bits *)self, 4);
}

static unsigned read_bits(void *self)
{
    return atomic_load((bits *)self);
}

/* Three bits in a state, at the place that `of` points to. It then points to the next place. */
static struct consensus_object make(void *of, unsigned state)
{
    bits **next = of;
    struct consensus_object object = {(*next)++, apply, read_bits};
    atomic_init((bits *)object.self, (unsigned char)state);
    return object;
}

/* The same place each time, for check_object. */
static struct consensus_object make_one(void *of, unsigned state)
{
    bits *place = of;
    return make(&place, state);
}

enum { N = CONSENSUS_PROCESSES };

static unsigned long rounds;
static pthread_barrier_t barrier;
static struct consensus_process (*processes)[N];
static uint64_t *decided[N];

/* In round r process p proposes 3r + p. */
static void *decide_all(void *of)
{
    unsigned process = (unsigned)((uint64_t **)of - decided);
    for (unsigned long round = 0; round < rounds; round++) {
        pthread_barrier_wait(&barrier);
        if (consensus_decide(&processes[round][process], 3 * round + process, &decided[process][round]) != CONSENSUS_OK)
            abort();
    }
    return NULL;
}

int main(int count, char **words)
{
    bits one, *next;
    struct consensus *all;
    pthread_t threads[N];
    if (count != 2) {
        fprintf(stderr, "usage: three_agree ROUNDS\n");
        return 1;
    }
    struct consensus_difference it = consensus_check_object(make_one, &one);
    if (it.what) {
        fprintf(stderr, "%s of %s in %s: %s, and not %s\n", it.what, it.operation, it.state, it.found, it.expected);
        return 1;
    }
    rounds = strtoul(words[1], NULL, 10);
    next = calloc(rounds, CONSENSUS_NODES * sizeof *next);
    all = calloc(rounds, sizeof *all);
    processes = calloc(rounds, sizeof *processes);
    for (unsigned long round = 0; round < rounds; round++)
        consensus_processes(&all[round], make, &next, processes[round]);
    pthread_barrier_init(&barrier, NULL, N);
    for (unsigned p = 0; p < N; p++) {
        decided[p] = calloc(rounds, sizeof *decided[p]);
        pthread_create(&threads[p], NULL, decide_all, &decided[p]);
    }
    for (unsigned p = 0; p < N; p++)
        pthread_join(threads[p], NULL);
    for (unsigned long round = 0; round < rounds; round++) {
        uint64_t x = decided[0][round], y = decided[1][round], z = decided[2][round];
        if (x != y || y != z || x / 3 != round) {
            fprintf(stderr, "round %lu: %lu, %lu, %lu\n", round, (unsigned long)x, (unsigned long)y, (unsigned long)z);
            return 1;
        }
    }
    printf("%lu rounds: all three threads agreed in each\n", rounds);
    return 0;
}
