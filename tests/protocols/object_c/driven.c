/* The wait-free object of consensus.c, step by step by random lists of events, as `replay` takes them: driven SEED LISTS CALLS
 * For each list a line for each call that is answered and for each call in the log, as `replay` prints them, and a line with the events, as
 * `serve` does. A list has up to CALLS calls. A process is a coroutine: it stops before each step, that is each access to an announcement of
 * another process or to a slot. What the log of `replay` does not have, the ends of blocks, takes no step here. */
#include <stdatomic.h>
#include <stdint.h>
#include <stdio.h>
#include <stdlib.h>
#include <ucontext.h>

/* What stands there for the atomics of <stdatomic.h>. */
static void stop_and_store(_Atomic uint64_t *place, uint64_t value);
static uint64_t stop_and_load(_Atomic uint64_t *place);
static uint64_t plain_load(_Atomic uint64_t *place)
{
    return atomic_load(place);
}
static void plain_store(_Atomic uint64_t *place, uint64_t value)
{
    atomic_store(place, value);
}
#undef atomic_load
#undef atomic_store
#define atomic_load(place) stop_and_load(place)
#define atomic_store(place, value) stop_and_store(place, value)

#include "consensus.c"
#include "shape.h"
#include "table.h"

enum { N = CONSENSUS_PROCESSES, OPERATIONS = CONSENSUS_LENGTH(consensus_object_operations), STACK = 1 << 16, MOST = 1024 };

/* The slots from the first one: which calls of each process stand there, by their number, and whether it is fixed. */
struct slot {
    uint64_t calls[N];
    int is_fixed;
};

/* A process: its coroutine, what it calls, whether it is in the call, the slots that it has passed. */
struct process {
    ucontext_t context;
    char stack[STACK];
    unsigned operation;
    unsigned response;
    enum consensus_status status;
    int is_in_call;
    unsigned passed;
    uint64_t done[N];
    unsigned operations[MOST];
};

static struct consensus_universal universal;
static struct consensus_caller callers[N];
static struct process processes[N];
static struct slot slots[MOST];
static ucontext_t driver;
static struct process *now;
static int is_told;
/* The objects, in the order in which they are made: by block, decision and node. */
static struct cell { unsigned char state; } cells[CONSENSUS_OBJECTS];
static unsigned made;

static unsigned long long seed;

static unsigned drawn(unsigned below)
{
    seed ^= seed << 13;
    seed ^= seed >> 7;
    seed ^= seed << 17;
    return (unsigned)((seed >> 20) % below);
}

/* The process stops, until it is its turn again. */
static void stop(void)
{
    if (now)
        swapcontext(&now->context, &driver);
}

/* Whether the place belongs to a slot or an announcement. */
static int is_step(const _Atomic uint64_t *place)
{
    const char *at = (const char *)place, *blocks = (const char *)universal.blocks;
    if (at < blocks || at >= blocks + sizeof universal.blocks)
        return place < universal.reached || place >= universal.reached + N;
    size_t within = (size_t)(at - blocks) % sizeof(struct consensus_block);
    return within < sizeof universal.blocks[0][0].slots;
}

static void stop_and_store(_Atomic uint64_t *place, uint64_t value)
{
    int is_call = place >= universal.announcements && place < universal.announcements + N;
    /* A register of a slot is emptied before its use. */
    if (is_step(place) && !is_call && value != 0)
        stop();
    plain_store(place, value);
}

static uint64_t stop_and_load(_Atomic uint64_t *place)
{
    if (is_step(place))
        stop();
    return plain_load(place);
}

/* Stops at an object of a slot. Where it is the one of the root, an operation fixes the slot. */
static void stop_at(const struct cell *cell, int is_applied)
{
    unsigned decision = (unsigned)(cell - cells) / CONSENSUS_NODES, node = (unsigned)(cell - cells) % CONSENSUS_NODES;
    if (decision % (CONSENSUS_SLOTS + 1) == CONSENSUS_SLOTS)
        return;
    stop();
    if (now && is_applied && node == 0)
        slots[now->passed].is_fixed = 1;
}

static unsigned apply(void *self, unsigned operation)
{
    struct cell *cell = self;
    stop_at(cell, 1);
    const unsigned char *row = rows[operation][cell->state];
    cell->state = row[1];
    return row[0];
}

#if READS
static unsigned read_state(void *self)
{
    stop_at(self, 0);
    return ((struct cell *)self)->state;
}
#endif

static void renew(void *self, unsigned state)
{
    ((struct cell *)self)->state = (unsigned char)state;
}

static struct consensus_object make(void *of, unsigned state)
{
    struct cell *cell = (struct cell *)of + made++;
    renew(cell, state);
    struct consensus_object object = OBJECT(cell);
    return object;
}

/* What a coroutine does: one call after the other. */
static void run(int number)
{
    struct process *mine = &processes[number];
    for (;;) {
        mine->status = consensus_call(&callers[number], mine->operation, &mine->response);
        if (mine->status != CONSENSUS_OK && mine->status != CONSENSUS_FULL)
            abort();
        mine->is_in_call = 0;
        swapcontext(&mine->context, &driver);
    }
}

static void start_all(void)
{
    made = 0;
    now = NULL;
    consensus_callers(&universal, make, cells, renew, callers);
    for (unsigned k = 0; k < MOST; k++)
        slots[k] = (struct slot){0};
    for (int p = 0; p < N; p++) {
        struct process *it = &processes[p];
        getcontext(&it->context);
        it->context.uc_stack.ss_sp = it->stack;
        it->context.uc_stack.ss_size = STACK;
        it->context.uc_link = &driver;
        it->is_in_call = 0;
        it->passed = 0;
        for (int q = 0; q < N; q++)
            it->done[q] = 0;
        makecontext(&it->context, (void (*)(void))run, 1, p);
    }
}

/* Notes the calls in the slot that a process has passed, which have to be those that the others found there. */
static void note_slot(struct process *mine, const struct consensus_caller *caller)
{
    struct slot *slot = &slots[mine->passed++];
    uint64_t found[N] = {0}, is_noted = 0;
    for (int q = 0; q < N; q++) {
        found[q] = caller->done[q] > mine->done[q] ? caller->done[q] : 0;
        is_noted |= slot->calls[q];
        mine->done[q] = caller->done[q];
    }
    for (int q = 0; q < N; q++) {
        if (is_noted && slot->calls[q] != found[q])
            abort();
        slot->calls[q] = found[q];
    }
}

/* Process p goes on, to its next step. */
static void go_on(int p)
{
    const struct consensus_caller *caller = &callers[p];
    uint64_t done = 0, noted = 0;
    now = &processes[p];
    swapcontext(&driver, &now->context);
    for (int q = 0; q < N; q++) {
        done += caller->done[q];
        noted += now->done[q];
    }
    if (done != noted)
        note_slot(now, caller);
    if (is_told && !now->is_in_call && now->status == CONSENSUS_OK)
        printf("answer %d %u %s\n", p, now->passed - 1, consensus_object_response_name(now->response));
    now = NULL;
}

static char events[1 << 18];
static int length;
static unsigned full;

/* Process p calls an operation. A call that finds no block takes no step, and is not in the list. */
static void call(int p)
{
    struct process *mine = &processes[p];
    int before = length;
    mine->operation = drawn(OPERATIONS);
    mine->operations[callers[p].calls] = mine->operation;
    mine->is_in_call = 1;
    length += sprintf(events + length, "%si%d:%u", length ? "," : "", p, mine->operation);
    go_on(p);
    if (!mine->is_in_call)
        length = before;
    full += !mine->is_in_call;
}

static void step(int p)
{
    length += sprintf(events + length, ",s%d", p);
    go_on(p);
}

/* The lines of the calls in the log. The slots that were fixed at the end of the events come first, all in a row. */
static void tell_log(unsigned fixed)
{
    unsigned state = CONSENSUS_OBJECT_START;
    for (unsigned k = 0; k < fixed; k++)
        for (int q = 0; q < N; q++)
            if (slots[k].calls[q]) {
                unsigned operation = processes[q].operations[slots[k].calls[q] - 1];
                const struct consensus_transition *it = &consensus_object_transitions[operation][state];
                state = it->next;
                printf("entry %u %d %s %s %s\n", k, q, consensus_object_operation_name(operation),
                    consensus_object_response_name(it->response), consensus_object_state_name(state));
            }
}

/* One list: bursts of steps of a process, some of which stop for long. */
static void drive(unsigned calls)
{
    int p = 0, left = 0;
    unsigned fixed = 0, some = 1 + drawn(calls), most = 1 + drawn(3 * N), slow = drawn(2 * N);
    length = 0;
    is_told = 1;
    start_all();
    for (unsigned made_calls = 0, steps = 0; made_calls < some && steps < 4000 && length < (1 << 18) - 100; steps++) {
        if (left-- <= 0) {
            p = (int)drawn(N);
            p = p == (int)slow && drawn(8) ? (int)drawn(N) : p;
            left = (int)drawn(most);
        }
        if (processes[p].is_in_call)
            step(p);
        else {
            call(p);
            made_calls += (unsigned)processes[p].is_in_call;
        }
    }
    while (slots[fixed].is_fixed)
        fixed++;
    is_told = 0;
    for (p = 0; p < N; p++)
        while (processes[p].is_in_call)
            go_on(p);
    tell_log(fixed);
    printf("events %.*s\n", length, events);
}

int main(int count, char **words)
{
    if (count != 4)
        return 1;
    seed = strtoull(words[1], NULL, 10) * 2654435769u + 88172645463325252u;
    unsigned lists = (unsigned)atoi(words[2]), calls = (unsigned)atoi(words[3]);
    for (unsigned k = 0; k < lists; k++)
        drive(calls);
    fprintf(stderr, "%u calls found no block\n", full);
    return 0;
}
