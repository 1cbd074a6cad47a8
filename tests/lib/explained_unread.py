"""What is wrong with a value that `why --without-read --as json` writes, by the table alone. States, operations and responses are numbers here."""
import collections

from recorded import live_choices
from table import Table
from unread import classes, further_faults, further_sights, reached_states, silent_operations

TEAMS = A, B = 0, 1


def merged(table):
    """The table with a state for each class, which has the name of its first one; and the states for which others stand."""
    kinds = classes(table)
    firsts = [kinds.index(kind) for kind in range(len({*kinds}))]
    made = Table.of(table.name, [[(row[state][0], kinds[row[state][1]]) for state in firsts] for row in table.rows])
    made.states, made.responses, made.operations = [table.states[it] for it in firsts], table.responses, table.operations
    others = [(state, firsts[kind]) for state, kind in enumerate(kinds) if state != firsts[kind]]
    return made, [{"class": table.states[one], "state": table.states[state]} for state, one in others]


def faults(table, value, without_read, readable, is_all):
    """What is wrong with the value for a type, of which `classify` writes this number without reads, and for its table with the states merged the
    number with reads; with all choices, or the first alone."""
    one, others = merged(table)
    if value["merged"] != others:
        yield f"merged: {value['merged']}, and not {others}"
    if value["without_read"] != without_read:
        yield f"without_read: {value['without_read']}, and not {without_read}"
    if value["witness"]:
        yield from witness_faults(one, value["witness"])
    if value["signs"]:
        yield from sign_faults(one, value["signs"])
    if value["refuted"]:
        yield from refuted_faults(one, value["refuted"], most_of(value["without_read"]), is_all)
    yield from reason_faults(value, readable)


def most_of(number):
    """The most that a number without reads can be, if that is known."""
    return number.get("at_most") if isinstance(number, dict) else None if number == "infinite" else number


def reason_faults(value, readable):
    """What is wrong with the reason of the upper bound."""
    most = most_of(value["without_read"])
    if value["with_reads"] and (most is None or most != (readable["to"] if isinstance(readable, dict) else readable)):
        yield f"the number with reads is {readable}"
    if value["rule"] and not value["with_reads"]:
        yield "a rule of the number with reads"
    if bool(most) != bool(value["with_reads"] or value["refuted"]) and (most is None or most < 8):
        yield f"with_reads, refuted: no reason for at most {most}"


# A choice that is told


def choice_of(table, told):
    """A choice by numbers: the start state, and the operation and the team of each process."""
    return table.states.index(told["start"]), [(table.operations.index(it["operation"]), "AB".index(it["team"])) for it in told["processes"]]


def witness_faults(table, witness):
    start, processes = choice_of(table, witness)
    teams = [team for _, team in processes]
    if teams != sorted(teams) or {*teams} != {A, B}:
        yield f"witness: the teams are {teams}"
    if witness["follow_ups"]:
        yield from (f"witness: {it}" for it in followed_faults(table, (start, tuple(o for o, _ in processes), tuple(teams)), witness))
        return
    looks = silent_operations(table)
    if [table.operations.index(it) for it in witness["looks"]] != [*looks]:
        yield f"witness: looks {witness['looks']}"
    for process, told in enumerate(witness["processes"]):
        yield from (f"witness: process {process}: {it}" for it in view_faults(table, told, gets(table, start, processes, process, looks)))


def followed_faults(table, choice, witness):
    """What is wrong with a witness whose processes do further operations, and with what each is told to get."""
    further = further_of(table, witness)
    yield from further_faults(table, choice, further)
    found = further_sights(table, choice, further)
    for process, told in enumerate(witness["processes"]):
        yield from (f"process {process}: {it}" for it in view_faults(table, told, [{(got[0], got[1:]) for place, got in it if place == process} for it in found]))
        for sight in told["a_first"] + told["b_first"]:
            key = table.operations.index(told["operation"]), "AB".index(told["team"]), table.responses.index(sight["response"])
            if [table.operations.index(it["operation"]) for it in sight["answers"]] != [it for it in [further.get(key)] if it is not None]:
                yield f"process {process}: {sight} has another further operation"


def further_of(table, witness):
    """The further operation for an operation, a team and a response: the first that is told."""
    found = {}
    for it in witness["follow_ups"]:
        for team in TEAMS:
            key = table.operations.index(it["operation"]), team, table.responses.index(it["response"])
            found.setdefault(key, table.operations.index(it["further"]))
    return found


def gets(table, start, processes, process, looks):
    """For each team what the process can get, in all orders of all or some processes that begin in the team: its response, and those of the looks.
    Processes with one operation and one team are alike."""
    others = collections.Counter(it for place, it in enumerate(processes) if place != process)
    found, seen, left = (set(), set()), set(), [(None, tuple(sorted(others.items())), start, None)]
    while left:
        scene = left.pop()
        if scene in seen:
            continue
        seen.add(scene)
        first, waiting, state, got = scene
        if got is None:
            operation, team = processes[process]
            response, after = table.act(operation, state)
            left.append((team if first is None else first, waiting, after, response))
        else:
            found[first].add((got, tuple(table.act(look, state)[0] for look in looks)))
        for (operation, team), count in waiting:
            fewer = tuple((kind, many - (kind == (operation, team))) for kind, many in waiting)
            if count:
                left.append((team if first is None else first, fewer, table.act(operation, state)[1], got))
    return found


def view_faults(table, told, found):
    """What is wrong with what a process is told to get."""
    sides = []
    for key, wanted in zip(("a_first", "b_first"), found):
        views = [(table.responses.index(it["response"]), tuple(table.responses.index(one["response"]) for one in it["answers"])) for it in told[key]]
        if sorted(views) != sorted(wanted):
            yield f"{key} is {views}, and not {sorted(wanted)}"
        sides.append({*views})
    if sides[A] & sides[B]:
        yield f"it gets {sides[A] & sides[B]} on both sides"


def sign_faults(table, signs):
    """A sign never comes where the other team was first."""
    start, side = table.states.index(signs["start"]), "AB".index(signs["side"])
    single, many = table.operations.index(signs["single"]), table.operations.index(signs["many"])
    further = [table.operations.index(it) for it in signs["further"]]
    others = reached_states(table, start, single, many, further)[1 - side]
    for it in signs["signs"]:
        look, response = table.operations.index(it["operation"]), table.responses.index(it["response"])
        if look not in further or any(table.act(look, state)[0] == response for state in others):
            yield f"signs: {it} is none"


# Plays


def refuted_faults(table, refuted, most, is_all):
    n = refuted["processes"]
    choices = [(start, a, b) for start, a, b in live_choices(table, n)]
    if most is None or n != most + 1:
        yield f"refuted: {n} processes, where the number is at most {most}"
    if refuted["count"] != len(choices):
        yield f"refuted: count {refuted['count']}, and not {len(choices)}"
    wanted = choices if is_all else choices[:1]
    if len(refuted["choices"]) != len(wanted):
        yield f"refuted: {len(refuted['choices'])} choices are told"
    for number, (told, (start, a, b)) in enumerate(zip(refuted["choices"], wanted), 1):
        same = choice_of(table, told) == (start, [(it, A) for it in a] + [(it, B) for it in b])
        faults = play_faults(table, told, start, [*a, *b], len(a)) if same else ["it is not the next one"]
        yield from (f"refuted: choice {number}: {it}" for it in faults)


def play_faults(table, told, start, operations, size):
    """What is wrong with the two runs of a choice, of which as many processes are team A."""
    if told["process"] is None:
        if told["a_first"] or told["b_first"]:
            yield "runs without an end"
        return
    runs = [[step_of(table, it) for it in told[key]] for key in ("a_first", "b_first")]
    for name, run in zip("AB", runs):
        if not run or (run[0][0] >= size) != (name == "B"):
            yield f"team {name} does not begin its run"
        yield from (f"the run of team {name}: {it}" for it in run_faults(table, start, len(operations), run))
    if {run[-1][3] if run else start for run in runs} != {runs[0][-1][3] if runs[0] else start}:
        yield "the runs leave two states"
    for process, operation in enumerate(operations):
        ones, others = ([(it[1], it[2]) for it in run if it[0] == process] for run in runs)
        if any(steps and steps[0][0] != operation for steps in (ones, others)) or not go_along(ones, others):
            yield f"no protocol moves process {process} so: {ones} and {others}"
        if process == told["process"] and ones != others:
            yield f"process {process} gets {ones} and {others}"


def step_of(table, told):
    """A step by numbers: the process, its operation, the response and the state after it."""
    return told["process"], table.operations.index(told["operation"]), table.responses.index(told["response"]), table.states.index(told["state"])


def run_faults(table, start, processes, run):
    state = start
    for place, (process, operation, response, after) in enumerate(run):
        if process >= processes or table.act(operation, state) != (response, after):
            yield f"step {place} is none in state {table.states[state]}"
        state = after


def go_along(ones, others):
    """Whether a process does the same in two runs as long as it has got the same, and moves no more when it has not, or has moved in one alone."""
    same = 0
    while same < min(len(ones), len(others)) and ones[same] == others[same]:
        same += 1
    left, right = ones[same:], others[same:]
    if left and right:
        return left[0][0] == right[0][0] and len(left) == len(right) == 1
    return len(left) + len(right) <= 1
