"""Operations that last, by their definition."""
import itertools


def onward(table, many, states):
    """The states to which an operation leads from these states, done any number of times."""
    reached = set()
    for state in states:
        while state not in reached:
            reached.add(state)
            state = table.act(many, state)[1]
    return reached


def left_states(table, start, many, single):
    """The states that orders leave, where one process does the single operation and any number of processes do the other: those that begin
    with the single one, and all others."""
    begun = onward(table, many, [table.act(many, start)[1]])
    others = {start} | begun | onward(table, many, [table.act(single, state)[1] for state in begun])
    return onward(table, many, [table.act(single, start)[1]]), others


def first_lasting(table):
    """The first start state, operation of many processes and single operation that last: no state is left both by an order that begins with
    the single one and by another. None if there are none."""
    states, operations = range(len(table.states)), range(len(table.operations))
    reached = [[onward(table, many, [state]) for state in states] for many in operations]
    for start, (many, single) in itertools.product(states, itertools.permutations(operations, 2)):
        # most meet by the orders that lack the single operation, and by those that have it first; these are at hand
        if reached[many][start].isdisjoint(reached[many][table.act(single, start)[1]]):
            if not set.intersection(*left_states(table, start, many, single)):
                return start, many, single
    return None
