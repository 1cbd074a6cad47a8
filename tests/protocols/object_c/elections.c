/* Rounds of threads that elect values by consensus.c: elections ROUNDS
 * A value is a text that its proposer writes before. All have to elect one, and read what was written. After a second it goes on to LEAST
 * rounds only, for a machine with other work. */
#include "threads.h"

enum { LEAST = 500 };

struct value {
    char text[40];
};

static struct consensus *all;
static struct consensus_process (*processes)[N];
static struct value (*values)[N];
static const struct value **elected[N];
static uint64_t rounds;

static void *elect_all(void *process)
{
    unsigned p = *(unsigned *)process;
    for (uint64_t round = 0; round < rounds && round < atomic_load(&end); round++) {
        void *it = NULL;
        char told[40];
        meet(p, round, LEAST, NULL);
        snprintf(values[round][p].text, sizeof values[round][p].text, "%u of %llu", p, (unsigned long long)round);
        if (consensus_elect(&processes[round][p], &values[round][p], &it) != CONSENSUS_OK)
            exit(2);
        elected[p][round] = it;
        unsigned winner = (unsigned)((struct value *)it - values[round]);
        snprintf(told, sizeof told, "%u of %llu", winner, (unsigned long long)round);
        if (winner >= N || strcmp(told, elected[p][round]->text) != 0)
            exit(3);
    }
    return NULL;
}

int main(int words, char **word)
{
    static struct cells cells;
    unsigned winners = 0, won[N] = {0};
    rounds = words == 2 ? strtoull(word[1], NULL, 10) : 0;
    late = seconds() + 1;
    cells.at = malloc(rounds * CONSENSUS_NODES);
    all = malloc(rounds * sizeof *all);
    processes = malloc(rounds * sizeof *processes);
    values = malloc(rounds * sizeof *values);
    for (unsigned p = 0; p < N; p++)
        elected[p] = malloc(rounds * sizeof *elected[p]);
    for (uint64_t round = 0; round < rounds; round++)
        consensus_processes(&all[round], make, &cells, processes[round]);
    run_all(elect_all);
    for (uint64_t round = 0; round < rounds && round < end; round++) {
        for (unsigned p = 1; p < N; p++)
            if (elected[p][round] != elected[0][round])
                return 1;
        winners += !won[elected[0][round] - values[round]]++;
    }
    printf("%llu rounds: %s\n", (unsigned long long)(rounds < end ? rounds : end), winners > 1 ? "agreed, with several winners" : "one winner");
    return 0;
}
