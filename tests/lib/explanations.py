"""Why the number of a type is what it is, as the JSON value of `why` and `explain`, made from the table and a certificate."""
import itertools
import json

from lasting import first_lasting, left_states

MOST_TOLD = 12


def after(table, state, *operations):
    """The state after these operations, one after the other."""
    for operation in operations:
        state = table.act(operation, state)[1]
    return state


def answers(table, one, other, state):
    """The response of an operation, alone and behind another."""
    return table.act(one, state)[0], table.act(one, table.act(other, state)[1])[0]


def wipes_out(table, one, other, state):
    return after(table, state, other, one) == after(table, state, one)


def commute(table, one, other, state):
    return after(table, state, one, other) == after(table, state, other, one)


def interfere(table, one, other, state):
    return commute(table, one, other, state) or wipes_out(table, one, other, state) or wipes_out(table, other, one, state)


def tells_nothing(table, one, other, state):
    alone, behind = answers(table, one, other, state)
    return alone == behind and (commute(table, one, other, state) or wipes_out(table, one, other, state))


def rule(table):
    """The word of the first rule by which the operations alone bound the number."""
    states, pairs = range(len(table.states)), list(itertools.product(range(len(table.operations)), repeat=2))
    each = [(one, other, state) for one, other in pairs for state in states]
    all_interfere = all(interfere(table, *it) for it in each)
    silent = all(len({response for response, _ in row}) == 1 for row in table.rows)
    hidden = all(tells_nothing(table, one, other, state) or tells_nothing(table, other, one, state) for one, other, state in each)
    rules = {
        "interference_without_answers": all_interfere and silent,
        "hidden_operations": hidden,
        "two_states": len(table.states) == 2,
        "interference": all_interfere,
    }
    return next((word for word, holds in rules.items() if holds), None)


def apart(table):
    """The pairs of operations that do not interfere in some state."""
    return [
        [table.operations[one], table.operations[other]]
        for one, other in itertools.combinations(range(len(table.operations)), 2)
        if not all(interfere(table, one, other, state) for state in range(len(table.states)))
    ]


def lasting(table):
    """Operations that last, with the states that each leaves."""
    found = first_lasting(table)
    if not found:
        return None
    start, many, single = found
    first, others = ([table.states[state] for state in sorted(states)] for states in left_states(table, start, many, single))
    many, single = table.operations[many], table.operations[single]
    return {"many": many, "many_states": others, "single": single, "single_states": first, "start": table.states[start]}


def pair(table, it):
    return {"response": table.responses[it[0]], "state": table.states[it[1]]}


def steps(table, state, operations, order):
    """The steps of a run."""
    told = []
    for process in order:
        response, state = table.act(operations[process], state)
        told.append(
            {"operation": table.operations[operations[process]], "process": process, "response": table.responses[response], "state": table.states[state]}
        )
    return told


def run(table, state, operations, order, process):
    """A run of a collision, and what the process sees of it."""
    told = steps(table, state, operations, order)
    got = next(step["response"] for step in told if step["process"] == process)
    return {"pair": {"response": got, "state": told[-1]["state"]}, "steps": told}


def processes(table, a, b):
    teams = ("A", a), ("B", b)
    return [{"operation": table.operations[operation], "team": team} for team, operations in teams for operation in operations]


def collision(table, entry):
    state, a, b, process, alpha, beta = entry
    return {
        "a_first": run(table, state, a + b, alpha, process),
        "b_first": run(table, state, a + b, beta, process),
        "process": process,
        "processes": processes(table, a, b),
        "start": table.states[state],
    }


def witness(table, choice, sides):
    """The witness, with the pairs that each process can get, by the team that is first."""
    if choice is None:
        return None
    state, a, b = choice
    each = []
    for process, (left, right) in zip(processes(table, a, b), sides):
        first = {"a_first": [pair(table, it) for it in sorted(left)], "b_first": [pair(table, it) for it in sorted(right)]}
        each.append({**process, **first})
    return {"processes": each, "start": table.states[state]}


def up_to(certificate):
    """The number of a certificate, up to its limit."""
    number, limit = certificate["number"], certificate["limit"]
    return 1 if number is None else number if number < limit else {"at_least": limit}


def with_no_limit(words):
    """The number that these words tell."""
    return "infinite" if words == "infinite" else int(words)


def explanation(table, certificate, words, told_all, sides, shortest):
    """The text of the value for a number in words, with no limit, or for that of the certificate if there are no words. `sides` has for each process
    of the witness the pairs that it can get if team A is first, and if team B is. `shortest` is what the shortest plan costs, if that is told."""
    entries = certificate["collisions"]
    told = entries if told_all else entries[:MOST_TOLD]
    value = {
        "apart": apart(table),
        "collisions": [collision(table, entry) for entry in told],
        "lasting": lasting(table) if words else None,
        "limit": certificate["limit"],
        "more": len(entries) - len(told),
        "name": table.name,
        "number": with_no_limit(words) if words else up_to(certificate),
        "rule": rule(table),
        "shortest": shortest,
        "version": certificate["version"],
        "witness": witness(table, certificate["witness"], sides),
    }
    return json.dumps(value, sort_keys=True, separators=(",", ":")) + "\n"
