/* The next step of a process by the file consensus.c, after what it has observed, as shape.h says: steps PROCESS VALUE OBSERVATION..
 * Without words it tells the numbers of processes, of nodes and of registers of a node, and the state in which each object starts. */
#include <stdint.h>
#include <stdio.h>
#include <stdlib.h>

/* What stands there for the atomics of <stdatomic.h>. */
#define _Atomic
static void atomic_store(uint64_t *place, uint64_t value);
static uint64_t atomic_load(uint64_t *place);

#include "consensus.c"
#include "shape.h"

static struct consensus one;
static struct consensus_process processes[CONSENSUS_PROCESSES];
static char **observations;
static unsigned of_nodes[CONSENSUS_NODES];

/* What the process observes by its next step, which is told. The program ends with the first step whose observation is not known. */
static uint64_t observed(const char *told)
{
    if (*observations)
        return strtoull(*observations++, NULL, 10);
    puts(told);
    exit(0);
}

static uint64_t at_register(const char *step, const uint64_t *place)
{
    char told[100];
    for (unsigned node = 0; node < CONSENSUS_NODES; node++)
        for (unsigned team = 0; team < TEAMS; team++)
            if (place == &one.nodes[node].registers[team])
                snprintf(told, sizeof told, "%s %u of node %u", step, team, node);
    return observed(told);
}

/* The registers are empty before the first step. */
static void atomic_store(uint64_t *place, uint64_t value)
{
    if (!observations) {
        *place = value;
        return;
    }
    char step[50];
    snprintf(step, sizeof step, "writes %llu to", (unsigned long long)value);
    at_register(step, place);
}

static uint64_t atomic_load(uint64_t *place)
{
    return at_register("takes from", place);
}

/* The objects: each is known by its node. */
static unsigned apply(void *self, unsigned operation)
{
    char told[100];
    snprintf(told, sizeof told, "applies %u at node %u", operation, *(unsigned *)self);
    return (unsigned)observed(told);
}

#if READS
static unsigned read_state(void *self)
{
    char told[100];
    snprintf(told, sizeof told, "reads at node %u", *(unsigned *)self);
    return (unsigned)observed(told);
}
#endif

/* The objects in the order of their nodes. */
static struct consensus_object make(void *of, unsigned state)
{
    unsigned **nodes = of, *node = (*nodes)++;
    struct consensus_object object = OBJECT(node);
    (void)state;
    *node = (unsigned)(node - of_nodes);
    return object;
}

int main(int count, char **words)
{
    unsigned *next = of_nodes;
    uint64_t decided;
    if (count < 3) {
        printf("%d %d %d", CONSENSUS_PROCESSES, CONSENSUS_NODES, TEAMS);
        for (unsigned node = 0; node < CONSENSUS_NODES; node++)
            printf(" %u", START(node));
        return 0;
    }
    consensus_processes(&one, make, &next, processes);
    observations = words + 3;
    if (consensus_decide(&processes[atoi(words[1])], strtoull(words[2], NULL, 10), &decided) != CONSENSUS_OK)
        return 1;
    printf("decides %llu\n", (unsigned long long)decided);
    return 0;
}
