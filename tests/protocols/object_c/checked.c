/* Objects with each change of one entry of the table, tried by check_object: prints the first difference of each, or -.
 * A line for the table as it is, then for each operation, state and other response, then for each operation, state and other next state. */
#include "threads.h"

enum { OPERATIONS = CONSENSUS_LENGTH(consensus_operations), STATES = CONSENSUS_LENGTH(consensus_states),
       RESPONSES = CONSENSUS_LENGTH(consensus_responses) };

static struct consensus_transition changed[OPERATIONS][STATES];
static unsigned at;

static unsigned apply_changed(void *self, unsigned operation)
{
    unsigned *state = self, response = changed[operation][*state].response;
    *state = changed[operation][*state].next;
    return response;
}

#if READS
static unsigned read_changed(void *self)
{
    return *(unsigned *)self;
}
#define CHANGED {&at, apply_changed, read_changed}
#else
#define CHANGED {&at, apply_changed}
#endif

static struct consensus_object make_changed(void *of, unsigned state)
{
    struct consensus_object object = CHANGED;
    (void)of;
    at = state;
    return object;
}

static void tell(void)
{
    struct consensus_difference it = consensus_check_object(make_changed, NULL);
    if (it.what)
        printf("%s of %s in %s: %s, and not %s\n", it.what, it.operation, it.state, it.found, it.expected);
    else
        puts("-");
}

int main(void)
{
    memcpy(changed, consensus_transitions, sizeof changed);
    tell();
    for (unsigned k = 0; k < OPERATIONS * STATES * RESPONSES; k++) {
        struct consensus_transition *it = &changed[k / RESPONSES / STATES][k / RESPONSES % STATES], kept = *it;
        it->response = k % RESPONSES;
        if (it->response != kept.response)
            tell();
        *it = kept;
    }
    for (unsigned k = 0; k < OPERATIONS * STATES * STATES; k++) {
        struct consensus_transition *it = &changed[k / STATES / STATES][k / STATES % STATES], kept = *it;
        it->next = k % STATES;
        if (it->next != kept.next)
            tell();
        *it = kept;
    }
    return 0;
}
