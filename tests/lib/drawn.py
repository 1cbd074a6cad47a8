"""Random types of several kinds, so that many of them have a number between 2 and infinite.

A kind draws for each operation the next state of each state; what the operation answers is drawn apart from it.
"""
from table import Table



def changed(made, row, most):
    """A row in which some states lead elsewhere, at most so many."""
    row = list(row)
    for _ in range(made.randint(0, most)):
        row[made.randrange(len(row))] = made.randrange(len(row))
    return row


def one_of(made, choices):
    """What one of these functions makes."""
    return made.choice(choices)()


def any_row(made, states):
    return [made.randrange(states) for _ in range(states)]


def permuted(made, states):
    return made.sample(range(states), states)


def stepped(made, states):
    """A step of a counter: up or down, round or up to a bound; or a write of a bound."""
    last = states - 1
    steps = [
        lambda s: min(s + 1, last), lambda s: max(s - 1, 0), lambda s: (s + 1) % states, lambda s: (s - 1) % states,
        lambda s: (s + 2) % states, lambda s: last, lambda s: 0, lambda s: max(s, states // 2), lambda s: min(s ^ 1, last),
    ]
    return list(map(made.choice(steps), range(states)))


def uniform(made, states, operations):
    """Any next states."""
    return [any_row(made, states) for _ in range(operations)]


def sparse(made, states, operations):
    """Operations that leave most states as they are."""
    return [changed(made, range(states), max(3, states // 2)) for _ in range(operations)]


def with_top(made, states, operations):
    """Operations that often lead to the last state, which they leave as it is."""
    rows = one_of(made, [lambda: uniform(made, states, operations), lambda: counters(made, states, operations)])
    return [[states - 1 if made.random() < 0.15 else after for after in row[:-1]] + [states - 1] for row in rows]


def permutations(made, states, operations):
    """Permutations of the states, with at most two changes."""
    return [changed(made, permuted(made, states), 2) for _ in range(operations)]


def counters(made, states, operations):
    """Steps of a counter, with at most two changes each."""
    return [changed(made, stepped(made, states), 2) for _ in range(operations)]


def copies(made, states, operations):
    """Copies of one operation, with at most two changes each; and mostly another operation."""
    drawn = [lambda: any_row(made, states), lambda: permuted(made, states), lambda: stepped(made, states)]
    base = one_of(made, drawn)
    rows = [changed(made, base, 2) for _ in range(operations)]
    if made.random() < 0.7:
        rows[-1] = changed(made, one_of(made, drawn), 1)
    return rows


def lanes(made, states, operations):
    """Operations that lead from the first state into a lane and on in it, and at its end to the last state. Each has at most one change."""
    last = states - 1
    count = made.randint(1, max(1, min(operations, last - 1)))
    lane = [(state - 1) * count // max(1, last - 1) for state in range(states)]
    entries = [next((state for state in range(1, last) if lane[state] == it), last) for it in range(count)]
    onward = [state + 1 if lane[state + 1] == lane[state] else last for state in range(1, last)]
    return [changed(made, [entries[it % count], *onward, last], 1) for it in range(operations)]


def answers(made, states, operations, responses):
    """For each operation and state a response: any, the state before, always one, or a part of the state before."""
    width = made.randint(1, states)
    row = one_of(made, [
        lambda: lambda: [made.randrange(responses) for _ in range(states)],
        lambda: lambda: list(range(states)),
        lambda: lambda: [0] * states,
        lambda: lambda: [state // width for state in range(states)],
    ])
    return [row() for _ in range(operations)]


def drawn(made, name, kind, operations, states):
    """A type of a kind, with this name."""
    following = kind(made, states, operations)
    said = answers(made, states, operations, made.randint(1, 16))
    return Table.of(name, [list(zip(*rows)) for rows in zip(said, following)])
