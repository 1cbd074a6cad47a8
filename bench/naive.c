/* The number of a type, found as the definition says it, with nothing done to be fast: for each start
 * state, each operation for each process and each division into teams it runs every order of some of
 * the processes, and then compares the outcome sets of both teams, process by process.
 *
 * Reads numbers: states, operations, limit; then for each operation the response and the next state
 * in each state. Writes the number, 1 where two processes cannot agree. */
#include <stdbool.h>
#include <stdio.h>
#include <string.h>

enum { STATES = 16, OPERATIONS = 8, RESPONSES = 16, PROCESSES = 8 };

static int states, operations;
static int response[OPERATIONS][STATES], next[OPERATIONS][STATES];

/* A choice: the operation and the team of each process. */
static int processes, operation[PROCESSES], team[PROCESSES];

/* What comes of each process: whether it can have this response with this last state, by the team that was first. */
static bool outcomes[2][PROCESSES][RESPONSES][STATES];

/* Runs every order that goes on from here; the processes in it so far had these responses. */
static void run_orders(int first, int state, bool in_order[], int had[])
{
    for (int p = 0; p < processes; p++) {
        if (in_order[p])
            continue;
        int leads = first < 0 ? team[p] : first;
        int left = next[operation[p]][state];
        in_order[p] = true;
        had[p] = response[operation[p]][state];
        for (int j = 0; j < processes; j++)
            if (in_order[j])
                outcomes[leads][j][had[j]][left] = true;
        run_orders(leads, left, in_order, had);
        in_order[p] = false;
    }
}

static bool is_witness(int start)
{
    bool in_order[PROCESSES] = {false};
    int had[PROCESSES];
    memset(outcomes, 0, sizeof outcomes);
    run_orders(-1, start, in_order, had);
    for (int j = 0; j < processes; j++)
        for (int r = 0; r < RESPONSES; r++)
            for (int q = 0; q < states; q++)
                if (outcomes[0][j][r][q] && outcomes[1][j][r][q])
                    return false;
    return true;
}

/* Whether some choice with these operations is a witness. */
static bool has_teams(void)
{
    for (int members = 1; members < (1 << processes) - 1; members++) {
        for (int p = 0; p < processes; p++)
            team[p] = members >> p & 1;
        for (int start = 0; start < states; start++)
            if (is_witness(start))
                return true;
    }
    return false;
}

static bool is_discerning(int process)
{
    if (process == processes)
        return has_teams();
    for (operation[process] = 0; operation[process] < operations; operation[process]++)
        if (is_discerning(process + 1))
            return true;
    return false;
}

int main(void)
{
    int limit, number = 1;
    if (scanf("%d %d %d", &states, &operations, &limit) != 3)
        return 1;
    for (int i = 0; i < operations; i++)
        for (int q = 0; q < states; q++)
            if (scanf("%d %d", &response[i][q], &next[i][q]) != 2)
                return 1;
    for (processes = 2; processes <= limit; processes++)
        if (is_discerning(0))
            number = processes;
    printf("%d\n", number);
    return 0;
}
