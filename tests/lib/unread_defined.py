"""Consensus numbers of objects whose state cannot be read, by the definitions as they stand.

All is gone through: each raw choice, each order of its processes, each position of the game by the numbers of the processes, each choice of
further operations. Nothing is left out, and nothing counts as equal. tests/lib/unread.py and tests/lib/two_runs.py have what is fast.
"""
import itertools

TEAMS = A, B = 0, 1
RUNS = FIRST, SECOND = 0, 1
# The statuses of a process in the game: (POISED, operation), (AHEAD, run, operation, response) or (LOST,).
POISED, AHEAD, LOST = "poised", "ahead", "lost"


def states_of(table):
    """The numbers of the states."""
    return range(len(table.rows[0]))


def operations_of(table):
    """The numbers of the operations."""
    return range(len(table.rows))


# Choices and orders


def raw_choices(table, n):
    """A start state, and for each of n processes an operation and a team. Both teams have someone."""
    for start, operations in itertools.product(states_of(table), itertools.product(operations_of(table), repeat=n)):
        for teams in itertools.product(TEAMS, repeat=n):
            if {*teams} == {*TEAMS}:
                yield start, operations, teams


def orders(n):
    """Some of n processes, at least one and none twice."""
    return [order for length in range(1, n + 1) for order in itertools.permutations(range(n), length)]


def run(table, start, operations, order):
    """The response to each process of the order, and the last state."""
    state, responses = start, {}
    for process in order:
        responses[process], state = table.act(operations[process], state)
    return responses, state


# Merging


def are_alike(table, one, other):
    """Whether every list of operations gets the same responses from both states. The pairs to which lists lead are gone through."""
    seen, left = set(), [(one, other)]
    while left:
        pair = left.pop()
        if pair not in seen:
            seen.add(pair)
            for row in table.rows:
                (response, after), (told, following) = row[pair[0]], row[pair[1]]
                if response != told:
                    return False
                left.append((after, following))
    return True


# Views


def silent_operations(table):
    """The operations that change no state."""
    return [operation for operation, row in enumerate(table.rows) if all(after == state for state, (_, after) in enumerate(row))]


def collect(table, state):
    """The responses of all silent operations."""
    return tuple(table.act(operation, state)[0] for operation in silent_operations(table))


def outcomes(table, choice):
    """For each team the outcomes of orders that begin in it: (process, response, last state)."""
    start, operations, teams = choice
    found = set(), set()
    for order in orders(len(teams)):
        responses, last = run(table, start, operations, order)
        found[teams[order[0]]].update((process, response, last) for process, response in responses.items())
    return found


def is_visible(table, choice, view):
    """Whether no process has the same response and the same view of the last state in orders that begin in different teams."""
    one, other = ({(process, response, view(last)) for process, response, last in it} for it in outcomes(table, choice))
    return one.isdisjoint(other)


def is_seen_at_one_look(table, choice):
    """Whether one silent operation, chosen by the process's operation and its response, tells the teams apart; or none is needed."""
    start, operations, teams = choice
    found = outcomes(table, choice)
    looks = [lambda state: None, *(lambda state, it=it: table.act(it, state)[0] for it in silent_operations(table))]
    for operation, response in {(operations[process], response) for it in found for process, response, _ in it}:
        if not any(look_tells(found, operations, operation, response, look) for look in looks):
            return False
    return True


def look_tells(found, operations, operation, response, look):
    """Whether no process with this operation and response gets the same answer to its look where different teams were first."""
    one, other = (
        {(process, look(last)) for process, got, last in it if (operations[process], got) == (operation, response)} for it in found
    )
    return one.isdisjoint(other)


def number_by(table, most, is_right):
    """The greatest number of processes, up to `most`, for which some raw choice is right; else 1."""
    return max([n for n in range(2, most + 1) if any(is_right(choice) for choice in raw_choices(table, n))], default=1)


# Any number of processes


def has_lasting_responses(table):
    """Whether with some start state, single operation and other operation, done any number of times, each response tells whether the single
    one was first. As many other operations are tried as bring up every state twice."""
    return any(
        responses_last(table, start, *pair) for start in states_of(table) for pair in itertools.permutations(operations_of(table), 2)
    )


def responses_last(table, start, single, many):
    """The same for these."""
    counts = range(2 * len(states_of(table)))
    last = lambda *operations: run(table, start, operations, range(len(operations)))[0][len(operations) - 1]
    first = {last(single, *[many] * count, many) for count in counts}
    later = {last(*[many] * count, many) for count in counts}
    later |= {last(*[many] * (before + 1), single, *[many] * count, many) for before in counts for count in counts}
    return first.isdisjoint(later) and last(single) not in {last(*[many] * (count + 1), single) for count in counts}


def has_signs(table, is_sign=lambda response, others: response not in others):
    """Whether some start state, single operation, other operation, looks and team have signs."""
    operations = operations_of(table)
    some = [looks for size in range(1, len(operations) + 1) for looks in itertools.combinations(operations, size)]
    return any(
        are_signs(table, start, single, many, looks, side, is_sign)
        for start in states_of(table) for single, many in itertools.permutations(operations, 2) for looks in some for side in TEAMS
    )


def are_signs(table, start, single, many, looks, side, is_sign):
    """Whether the states of both teams differ, no changes without a sign come round, and in each state of the team a look shows a sign or
    changes it."""
    sets = states_reached(table, start, single, many, looks)
    told = {look: {table.act(look, state)[0] for state in sets[1 - side]} for look in looks}
    steps = {state: [(is_sign(table.act(it, state)[0], told[it]), table.act(it, state)[1]) for it in looks] for state in sets[side]}
    unsigned = {state: {after for shows, after in them if not shows and after != state} for state, them in steps.items()}
    is_shown = all(any(shows or after != state for shows, after in them) for state, them in steps.items())
    return sets[A].isdisjoint(sets[B]) and is_shown and not any(comes_back(unsigned, state) for state in unsigned)


def states_reached(table, start, single, many, looks):
    """For each team the least set of states that has those that come of its first step. In the first team this is the single operation; if
    the second team was first, the single operation comes once, at some time, or not at all."""
    act, operations = lambda operation, state: table.act(operation, state)[1], {many, *looks}
    before = least_set(table, {act(many, start)}, operations)
    after = least_set(table, {act(single, state) for state in before}, operations)
    return least_set(table, {act(single, start)}, operations), before | after


def least_set(table, states, operations):
    """The least set that has these states, and what the operations lead to from its states."""
    larger = states | {table.act(operation, state)[1] for operation in operations for state in states}
    return states if larger == states else least_set(table, larger, operations)


def comes_back(following, state):
    """Whether steps lead from a state back to it. More steps than there are states bring up nothing new."""
    reached = {state}
    for _ in following:
        reached = {after for it in reached for after in following.get(it, ())}
        if state in reached:
            return True
    return False


# Further operations


def schedules(n, most):
    """Lists of processes, none more than `most` times, at least one."""
    left = [((), (0,) * n)]
    while left:
        order, counts = left.pop()
        if order:
            yield order
        for process in range(n):
            if counts[process] < most:
                left.append(((*order, process), (*counts[:process], counts[process] + 1, *counts[process + 1:])))


def finished(table, choice, further, order):
    """What each process has got that is done in a schedule. A process whose response has a further operation is done after that."""
    start, operations, _ = choice
    state, got = start, {}
    for process in order:
        before = got.get(process, ())
        operation = further.get((process, *before)) if before else operations[process]
        if operation is None or len(before) == 2:
            continue  # it is done, and takes no step
        response, state = table.act(operation, state)
        got[process] = (*before, response)
    return {(process, it) for process, it in got.items() if len(it) == 2 or further.get((process, *it)) is None}


def tells_with_further(table, choice, further, ways):
    """Whether no process is done with the same responses in schedules that begin in different teams."""
    found = set(), set()
    for order in ways:
        team = choice[2][order[0]]
        found[team].update(finished(table, choice, further, order))
        if not found[A].isdisjoint(found[B]):
            return False
    return True


def has_further(table, n):
    """Whether some raw choice for n tells the teams apart with at most one further operation, chosen by the process and its response."""
    ways = list(schedules(n, 2))
    for choice in raw_choices(table, n):
        places = [(process, response) for process in range(n) for response in sorted({it for it, _ in table.rows[choice[1][process]]})]
        for operations in itertools.product([None, *operations_of(table)], repeat=len(places)):
            if tells_with_further(table, choice, dict(zip(places, operations)), ways):
                return True
    return False


# The game on two runs


def put(statuses, process, status):
    """The statuses, with another one for a process."""
    return (*statuses[:process], status, *statuses[process + 1:])


def stepped(table, position, run_number, operation):
    """The response to an operation in one run, and the states of both runs after it."""
    states = list(position[:2])
    response, states[run_number] = table.act(operation, states[run_number])
    return response, tuple(states)


def answers(table, position, process):
    """For each move of a process the positions of which the protocol chooses one."""
    statuses = position[2]
    kind, *what = statuses[process]
    if kind == POISED:
        for number in RUNS:
            response, states = stepped(table, position, number, *what)
            yield [(*states, put(statuses, process, (AHEAD, number, *what, response)))]
    if kind == AHEAD:
        ahead, operation, got = what
        response, states = stepped(table, position, 1 - ahead, operation)
        following = [(POISED, it) for it in operations_of(table)] if response == got else [(LOST,)]
        yield [(*states, put(statuses, process, it)) for it in following]


def moves(table, position):
    """For each move of the adversary the positions of which the protocol chooses one."""
    return [it for process in range(len(position[2])) for it in answers(table, position, process)]


def starts(table, choice):
    """The start positions of a choice: for each process of one team, first in the first run, and each of the other, first in the second."""
    start, operations, teams = choice
    for a, b in itertools.product(range(len(teams)), repeat=2):
        if (teams[a], teams[b]) == (A, B):
            begun = [(a, FIRST, *table.act(operations[a], start)), (b, SECOND, *table.act(operations[b], start))]
            statuses = tuple((POISED, it) for it in operations)
            for process, number, response, _ in begun:
                statuses = put(statuses, process, (AHEAD, number, operations[process], response))
            yield begun[0][3], begun[1][3], statuses


def all_positions(table, positions, follow=moves):
    """The moves of each position that comes of these."""
    found, left = {}, list(positions)
    while left:
        position = left.pop()
        if position not in found:
            found[position] = follow(table, position)
            left += [it for move in found[position] for it in move]
    return found


def holding(graph):
    """The positions that hold: the least set that has a position if each of its moves has an answer in the set."""
    uses, left, held = {}, {position: len(them) for position, them in graph.items()}, set()
    for position, them in graph.items():
        for number, move in enumerate(them):
            for it in move:
                uses.setdefault(it, set()).add((position, number))
    waiting, met = [position for position, count in left.items() if not count], set()
    while waiting:
        held.add(position := waiting.pop())
        for use in uses.get(position, set()) - met:
            met.add(use)
            left[use[0]] -= 1
            if not left[use[0]]:
                waiting.append(use[0])
    return held


def is_defended(table, n, follow=moves):
    """Whether some raw choice for n has only start positions that hold."""
    begun = [list(starts(table, choice)) for choice in raw_choices(table, n)]
    held = holding(all_positions(table, itertools.chain(*begun), follow))
    return any(map(held.issuperset, begun))
