"""Processes that crash and come back: the plan of a choice, what each step and each crash does, and the walk through all that can
happen.

Nothing here is the program's: sets of states are found by all orders of processes, and a step makes a new world.
"""
import itertools

EMPTY = None  # what an unwritten register holds
TEAMS = A, B = 0, 1
WRITE, LOOK, PEEK, ACT, AGAIN, TAKE_A, TAKE_B = range(7)


def left_states(table, start, operations, first):
    """The states that orders leave which begin with one of these processes."""
    left = set()
    for length in range(1, len(operations) + 1):
        for order in itertools.permutations(range(len(operations)), length):
            if order[0] in first:
                state = start
                for process in order:
                    state = table.act(operations[process], state)[1]
                left.add(state)
    return left


def is_recording(table, start, a, b):
    """Whether no state is left by orders that begin in different teams, and an order of one team leaves the start state only if the
    other team is one process alone."""
    left_a, left_b = teams_leave(table, start, a, b)
    return not left_a & left_b and (len(b) == 1 or start not in left_a) and (len(a) == 1 or start not in left_b)


def teams_leave(table, start, a, b):
    """The states that orders of team A leave, and those that orders of team B leave."""
    members = range(len(a)), range(len(a), len(a) + len(b))
    return [left_states(table, start, a + b, team) for team in members]


def recording_witnesses(table, n):
    """The choices for n processes in canonical form that are recording witnesses, in order."""
    operations = range(len(table.operations))
    for start, size in itertools.product(range(len(table.states)), range(1, n // 2 + 1)):
        for a in itertools.combinations_with_replacement(operations, size):
            for b in itertools.combinations_with_replacement(operations, n - size):
                if (size < n - size or a <= b) and is_recording(table, start, a, b):
                    yield start, a, b


def path(a, b, process):
    """The places of a process from its lowest node to the root, for teams of these sizes: node, team and role."""
    places, k, node = [], a + b, 0
    while k > 1:
        first = max(1, k - b)
        if process < first:
            places.insert(0, (node, A, process))
            k, node = first, node + 1
        else:
            places.insert(0, (node, B, a + process - first))
            k, node, process = k - first, node + first, process - first
    return places


class Lives:
    """The lives of a choice. A world is (objects, registers, locals): the state of the object of each node; what the registers of
    both teams hold, node by node; and for each process (place, value, stage), or (value,) once it has decided.

    `looks` says whether a process looks at the object before it acts, and `peeks` which teams peek if they are one process."""

    def __init__(self, table, start, a, b, looks=True, peeks=(A,)):
        left = teams_leave(table, start, a, b)
        if start in left[A]:
            a, b, left = b, a, left[::-1]
        self.table, self.start, self.n, self.operations = table, start, len(a) + len(b), a + b
        self.roles_of_a = len(a)
        self.left_by_a, self.looks = left[A], looks
        self.peeking = {team for team in peeks if len((a, b)[team]) == 1}
        self.paths = [path(len(a), len(b), p) for p in range(self.n)]

    def first_world(self, inputs):
        nodes = self.n - 1
        return (self.start,) * nodes, (EMPTY,) * 2 * nodes, tuple((0, value, WRITE) for value in inputs)

    def crash(self, world, p, inputs):
        """Process p is at its first place again with its input; objects and registers stay."""
        objects, registers, known = world
        return objects, registers, changed(known, p, (0, inputs[p], WRITE))

    def step(self, world, p):
        """One action of process p, or none if it has decided."""
        objects, registers, known = world
        if len(known[p]) == 1:
            return world
        place, value, stage = known[p]
        node, team, role = self.paths[p][place]
        state = objects[node]
        if stage == WRITE:
            registers, mine = changed(registers, 2 * node + team, value), (place, value, LOOK if self.looks else ACT)
        elif stage == LOOK and state == self.start:
            mine = (place, value, PEEK if team in self.peeking else ACT)
        elif stage in (LOOK, AGAIN):
            mine = (place, value, TAKE_A if state in self.left_by_a else TAKE_B)
        elif stage == PEEK:
            mine = self.onward(p, place, registers[2 * node + 1 - team], (place, value, ACT))
        elif stage == ACT:
            objects, mine = changed(objects, node, self.table.act(self.operations[role], state)[1]), (place, value, AGAIN)
        else:
            mine = self.onward(p, place, registers[2 * node + stage - TAKE_A], known[p])
        return objects, registers, changed(known, p, mine)

    def onward(self, p, place, found, otherwise):
        """Process p goes on from its place with the value found, or is in the other local state if none was found."""
        if found is EMPTY:
            return otherwise
        return (found,) if place + 1 == len(self.paths[p]) else (place + 1, found, WRITE)

    def left(self, p, local):
        """How many steps process p needs at most from a local state to its decision."""
        return 0 if len(local) == 1 else 6 * (len(self.paths[p]) - local[0]) - min(local[2], 5)


def told_plan(lives):
    """What `show --recoverable` tells of the plan: its lines, and the same as a value."""
    kind, start, steps = lives.table, lives.table.states[lives.start], [lives.left(p, (0, 0, WRITE)) for p in range(lives.n)]
    judges = [{"state": name, "team": "AB"[state not in lives.left_by_a]} for state, name in enumerate(kind.states)]
    roles = [{"operation": kind.operations[it], "team": "AB"[role >= lives.roles_of_a]} for role, it in enumerate(lives.operations)]
    paths = [[{"node": node, "role": role, "team": "AB"[team]} for node, team, role in places] for places in lives.paths]
    lines = [f"type {kind.name} processes {lives.n} nodes {lives.n - 1} start {start} steps {max(steps)}"]
    lines += [f"team {team} first:" + "".join(" " + it["state"] for it in judges if it["team"] == team) for team in "AB"]
    lines += [f"role {role} {it['team']} {it['operation']}" for role, it in enumerate(roles)]
    for p, places in enumerate(paths):
        lines.append(f"process {p} steps {steps[p]}: " + ", ".join(f"node {it['node']} {it['team']} role {it['role']}" for it in places))
    value = {"judges": judges, "lone": lives.roles_of_a == 1, "nodes": lives.n - 1, "processes": lives.n, "roles": roles, "start": start}
    value["paths"] = [{"places": places, "process": p, "steps": steps[p]} for p, places in enumerate(paths)]
    return lines, {**value, "steps": max(steps), "type": kind.name}


def told_event(lives, world, p, is_crash):
    """What `agree --recoverable` tells of an event in a world: in words, and as JSON without the process."""
    objects, registers, known = world
    if is_crash:
        forgets = {"decision": known[p][0]} if len(known[p]) == 1 else {"node": lives.paths[p][known[p][0]][0], "value": known[p][1]}
        return "crashes", {"action": "crash", "forgets": forgets}
    if len(known[p]) == 1:
        return "has decided", {"action": "none"}
    place, value, stage = known[p]
    node, team, role = lives.paths[p][place]
    kind, state, name = lives.table, objects[node], "AB"[team]
    if stage == WRITE:
        return f"writes {value} to {name} of node {node}", {"action": "write", "node": node, "team": name, "value": value}
    if stage == LOOK and state == lives.start:
        return f"reads {kind.states[state]} at node {node}: start state", {"action": "read", "judged": None, "node": node, "state": kind.states[state]}
    if stage in (LOOK, AGAIN):
        judged = "AB"[state not in lives.left_by_a]
        return f"reads {kind.states[state]} at node {node}: team {judged}", {"action": "read", "judged": judged, "node": node, "state": kind.states[state]}
    if stage == ACT:
        given, after = kind.act(lives.operations[role], state)
        operation, response = kind.operations[lives.operations[role]], kind.responses[given]
        told = {"action": "apply", "after": kind.states[after], "before": kind.states[state], "node": node, "operation": operation, "response": response}
        return f"applies {operation} at node {node}: {response}", told
    source = 1 - team if stage == PEEK else stage - TAKE_A
    found = registers[2 * node + source]
    if found is EMPTY:
        return f"finds nothing in {'AB'[source]} of node {node}", {"action": "take", "node": node, "team": "AB"[source], "value": None}
    if place + 1 == len(lives.paths[p]):
        return f"decides {found}", {"action": "decide", "value": found}
    return f"takes {found} from {'AB'[source]} of node {node}", {"action": "take", "node": node, "team": "AB"[source], "value": found}


def changed(items, place, item):
    return items[:place] + (item,) + items[place + 1 :]


def walk(lives):
    """What goes wrong in some execution of these lives, where each process has an input of its own; or None if nothing does.

    Any process steps or crashes at any time, any number of times. A decision must be the input of a process that has taken a step
    and equal to each one before it, and a step must bring its process nearer to its decision."""
    inputs = tuple(range(lives.n))
    first = lives.first_world(inputs), EMPTY, frozenset()
    seen, waiting = {first}, [first]
    while waiting:
        world, decided, started = waiting.pop()
        for p in range(lives.n):
            was = world[2][p]
            reached = [(lives.crash(world, p, inputs), decided, started)]
            if len(was) > 1:
                after = lives.step(world, p)
                mine, having = after[2][p], started | {p}
                if lives.left(p, mine) >= lives.left(p, was):
                    return "a step for nothing"
                if len(mine) == 1:
                    if mine[0] not in having:
                        return "the input of no participant"
                    if decided not in (EMPTY, mine[0]):
                        return "two decisions"
                reached.append((after, mine[0] if len(mine) == 1 else decided, having))
            for it in reached:
                if it not in seen:
                    seen.add(it)
                    waiting.append(it)
    return None
