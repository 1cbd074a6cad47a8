"""Plan trees: read from the JSON of `show --shortest`, judged by all orders of the processes at each node, run by schedules; and the costs of
all plan trees of a type. After docs/DEFINITIONS.md, "Plan trees".

Nothing here is the program's: a tree is read from what is written, a type from its table, and what processes are shown comes from the orders in
which they move, one after the other.
"""
import collections
import functools
import itertools
import json

# The stages of a process at a place, in their order.
WRITE, APPLY, LOOK, TAKE = range(4)
# What a process that does not look sees of a state.
NOTHING = 0
# How the processes of a node look at its object behind their operations: they do not, or they read the state; else they apply the silent operation
# with this number.
BLIND, READING = "blind", "reading"


class Node:
    """A node: the start state of its object, how its processes look at it behind their operations, the sizes of its teams, and the operation of each
    of its processes. A tree gives it the number of its first process."""

    def __init__(self, start, sight, sizes, operations):
        self.start, self.sight, self.sizes, self.operations, self.first = start, sight, sizes, operations, None
        self.teams = [team for team, size in enumerate(sizes) for _ in range(size)]

    def processes(self):
        return range(self.first, self.first + len(self.teams))

    def team(self, process):
        return self.teams[process - self.first]

    def operation(self, process):
        return self.operations[process - self.first]

    def price(self):
        """The steps of a process at this node."""
        return price(self.sight)

    def look(self):
        """The silent operation by which the processes look, or None."""
        return None if self.sight in (BLIND, READING) else self.sight

    def seen(self, table, saw):
        """The name of what a process saw, or None if it does not look."""
        return None if self.sight == BLIND else (table.states if self.sight == READING else table.responses)[saw]


def price(sight):
    """The steps of a process at a node at which processes look in this way."""
    return 3 if sight == BLIND else 4


def seen(table, sight, state):
    """What a process sees of a state."""
    return NOTHING if sight == BLIND else state if sight == READING else table.act(sight, state)[0]


def silent_operations(table):
    """The operations that change no state."""
    return [number for number, row in enumerate(table.rows) if all(after == state for state, (_, after) in enumerate(row))]


class PlanTree:
    """A type, and the nodes of a tree in the order of their numbers: the root first, then for each team of several processes its node with those
    below it."""

    def __init__(self, table, nodes):
        self.table, self.nodes = table, nodes
        self.n = len(nodes[0].teams)
        self.paths = [[] for _ in range(self.n)]
        if self.placed(0, 0) != len(nodes):
            raise ValueError("some node belongs to no team")
        self.own_steps = [sum(nodes[node].price() for node, _ in path) for path in self.paths]

    def placed(self, number, first):
        """Gives a node and those below it their first processes, and the paths their places. Answers the number behind these nodes."""
        node, below = self.nodes[number], number + 1
        if len(node.sizes) < 2 or min(node.sizes) < 1:
            raise ValueError(f"node {number} has teams of {node.sizes}")
        if len(node.operations) != len(node.teams):
            raise ValueError(f"node {number} has {len(node.operations)} operations")
        node.first = first
        for size in node.sizes:
            if size > 1:
                if below == len(self.nodes) or len(self.nodes[below].teams) != size:
                    raise ValueError(f"node {number} has a team of {size}, and there is no node of as many")
                below = self.placed(below, first)
            first += size
        for process in node.processes():
            self.paths[process].append((number, node.team(process)))
        return below

    def cost(self):
        """The greatest number of own steps; the objects; the own steps of all processes together."""
        return max(self.own_steps), len(self.nodes), sum(self.own_steps)

    @functools.cached_property
    def shown(self):
        """For each node and each of its processes the teams in which the orders begin that show it a response and what it sees."""
        return [shown(self.table, node.start, node.sight, node.operations, node.teams) for node in self.nodes]

    def clashes(self):
        """Each node at which a process is shown the same by orders that begin in different teams."""
        for number, (node, of_node) in enumerate(zip(self.nodes, self.shown)):
            for process, told in zip(node.processes(), of_node):
                for (response, saw), teams in told.items():
                    if len(teams) > 1:
                        saw = "" if node.sight == BLIND else f" and {node.seen(self.table, saw)}"
                        yield f"node {number}: process {process} is shown {self.table.responses[response]}{saw} by teams {sorted(teams)}"

    @functools.cached_property
    def judges(self):
        """For each node and process the team that it judges to have come first, by its response and what it saw."""
        assert not [*self.clashes()]
        return {
            (number, process): {pair: team for pair, (team,) in told.items()}
            for number, (node, of_node) in enumerate(zip(self.nodes, self.shown)) for process, told in zip(node.processes(), of_node)
        }

    def written(self):
        """What `show --shortest --as json` has to write of this tree, as a value."""
        steps, objects, together = self.cost()
        return {
            "nodes": [self.written_node(number) for number in range(objects)],
            "objects": objects,
            "paths": [
                {"places": [{"node": node, "team": team} for node, team in path], "process": process, "steps": self.own_steps[process]}
                for process, path in enumerate(self.paths)
            ],
            "processes": self.n, "steps": steps, "sum": together, "type": self.table.name,
        }

    def lines(self):
        """What `show --shortest` has to write of this tree, for people."""
        steps, objects, _ = self.cost()
        yield f"type {self.table.name} processes {self.n} objects {objects} steps {steps}"
        for node in self.written()["nodes"]:
            ends = [*itertools.accumulate(node["teams"], initial=node["first"])]
            teams = " ".join(f"{begin}" if end == begin + 1 else f"{begin}-{end - 1}" for begin, end in itertools.pairwise(ends))
            look = f" and look {node['look']}" if "look" in node else ""
            yield f"node {node['node']} start {node['start']} by response{' and state' * node['reads']}{look} teams {teams}"
            for it in node["processes"]:
                saw = lambda judged: "".join(f"/{judged[kind]}" for kind in ("look", "state") if kind in judged)
                judges = [f"{judged['response']}{saw(judged)}:{judged['team']}" for judged in it["judges"]]
                yield f"node {node['node']} process {it['process']} {it['operation']} judges {' '.join(judges)}"
        for process, path in enumerate(self.paths):
            places = ", ".join(f"node {node} team {team}" for node, team in path)
            yield f"process {process} steps {self.own_steps[process]}: {places}"

    def picture(self):
        """What `show --shortest --as dot` has to draw: the attributes, the nodes with theirs, and the arrows with theirs."""
        look = lambda node: "" if node.look() is None else f" and look {self.table.operations[node.look()]}"
        sight = lambda node: "response and state" if node.sight == READING else f"response{look(node)}"
        nodes = {f"node_{v}": {"label": f"node {v} from {self.table.states[it.start]} by {sight(it)}"} for v, it in enumerate(self.nodes)}
        nodes |= {f"process_{p}": {"shape": "box", "label": f"process {p}"} for p in range(self.n)}
        arrows = []
        for process, path in enumerate(self.paths):
            origins = [f"process_{process}", *(f"node_{node}" for node, _ in path)]
            for origin, (number, team) in zip(origins, path):
                operation = self.table.operations[self.nodes[number].operation(process)]
                arrows.append((origin, f"node_{number}", {"label": f"process {process}: team {team} {operation}"}))
        return {"rankdir": "BT", "label": self.table.name}, nodes, arrows

    def written_node(self, number):
        node = self.nodes[number]
        processes = [self.written_process(number, node, process) for process in node.processes()]
        start, look = self.table.states[node.start], {} if node.look() is None else {"look": self.table.operations[node.look()]}
        reads = node.sight == READING
        return {"first": node.first, **look, "node": number, "processes": processes, "reads": reads, "start": start, "teams": node.sizes}

    def written_process(self, number, node, process):
        judges = []
        for (response, saw), team in sorted(self.judges[number, process].items()):
            looked = {} if node.look() is None else {"look": node.seen(self.table, saw)}
            state = {"state": node.seen(self.table, saw)} if node.sight == READING else {}
            judges.append({**looked, "response": self.table.responses[response], **state, "team": team})
        return {"judges": judges, "operation": self.table.operations[node.operation(process)], "process": process, "team": node.team(process)}


def shown(table, start, sight, operations, teams):
    """For each process of a node what it can be shown: the teams in which the orders begin that show it a response and, if it looks, what it sees
    of a last state. Orders of the same processes with one first team, one last state and one response of the process count once."""
    last = {0: set()}  # of the orders of these processes: the team of the first one, and the last state
    told = [{0: set()} for _ in operations]  # the same with the response of this process
    for moved in range(1, 1 << len(operations)):
        last[moved] = set()
        for it in told:
            it[moved] = set()
        for process, operation in enumerate(operations):
            before = moved & ~(1 << process)
            if before == moved:
                continue
            for first, state in last[before] or ({(teams[process], start)} if not before else ()):
                response, after = table.act(operation, state)
                last[moved].add((first, after))
                told[process][moved].add((first, response, after))
            for other in told:
                other[moved].update((first, response, table.act(operation, state)[1]) for first, response, state in other[before])
    found = []
    for it in told:
        pairs = {}
        for first, response, state in itertools.chain.from_iterable(it.values()):
            pairs.setdefault((response, seen(table, sight, state)), set()).add(first)
        found.append(pairs)
    return found


def read_tree(told, table):
    """The tree in a value that `show --shortest --as json` wrote: the start state, the way to look, the teams and the operations of each node. A
    ValueError says why there is none."""
    try:
        return PlanTree(table, [read_node(node, table) for node in told["nodes"]])
    except (AttributeError, IndexError, KeyError, TypeError) as why:
        raise ValueError(f"is no plan tree: {why!r}")


def read_node(node, table):
    if type(node["reads"]) is not bool or {type(size) for size in node["teams"]} != {int}:
        raise ValueError("the way to look, or a size, is of another kind")
    operations = [table.operations.index(it["operation"]) for it in node["processes"]]
    return Node(table.states.index(node["start"]), read_sight(node, table), node["teams"], operations)


def read_sight(node, table):
    if "look" not in node:
        return READING if node["reads"] else BLIND
    look = table.operations.index(node["look"])
    if node["reads"] or look not in silent_operations(table):
        raise ValueError("the look is by an operation that changes a state, or beside a read")
    return look


def faults(text, table, n):
    """What is wrong in the text of a plan tree for n processes. It is one compact line. Its nodes are a tree of witnesses, and all else in it
    follows from them: what each process judges is all that it can be shown, and the paths, the steps and the cost are those of the tree."""
    try:
        told = json.loads(text)
        tree = read_tree(told, table)
    except ValueError as why:
        return [str(why)]
    wrong = [] if text == json.dumps(told, separators=(",", ":")) + "\n" else ["is no compact line"]
    wrong += [] if tree.n == n else [f"is for {tree.n} processes"]
    clashes = [*tree.clashes()]
    return wrong + (clashes or [*differences(told, tree.written())])


def differences(told, wanted, where="it"):
    """Where two values of JSON differ."""
    if type(told) is not type(wanted) or not isinstance(told, (dict, list)):
        if json.dumps(told) != json.dumps(wanted):
            yield f"{where} is {json.dumps(told)[:80]} and not {json.dumps(wanted)[:80]}"
    elif isinstance(told, list):
        if len(told) != len(wanted):
            yield f"{where} has {len(told)} items and not {len(wanted)}"
        for place, (one, other) in enumerate(zip(told, wanted)):
            yield from differences(one, other, f"{where}[{place}]")
    else:
        if [*told] != [*wanted]:
            yield f"{where} has the members {[*told]} and not {[*wanted]}"
        for name in told.keys() & wanted.keys():
            yield from differences(told[name], wanted[name], f"{where}.{name}")


class World:
    """What is in the objects and the registers of a tree, and where each process is: (place, value, stage, response, what it saw), or (value,) once
    it has decided."""

    def __init__(self, tree, inputs):
        self.tree = tree
        self.states = [node.start for node in tree.nodes]
        self.registers = {}
        self.locals = [(0, value, WRITE, None, NOTHING) for value in inputs]

    def copy(self):
        made = World.__new__(World)
        made.tree, made.states, made.registers, made.locals = self.tree, self.states[:], dict(self.registers), self.locals[:]
        return made

    def key(self):
        """What tells this world from others of the tree."""
        return tuple(self.states), frozenset(self.registers.items()), tuple(self.locals)

    def step(self, process):
        """Takes one step of a process. Answers what it did: (stage, node, ..), or None if it has decided."""
        if len(self.locals[process]) == 1:
            return None
        place, value, stage, response, saw = self.locals[process]
        path = self.tree.paths[process]
        number, team = path[place]
        node = self.tree.nodes[number]
        if stage == WRITE:
            self.registers[number, team] = value
            self.locals[process] = place, value, APPLY, None, NOTHING
            return WRITE, number, team, value
        if stage == APPLY:
            operation = node.operation(process)
            before = self.states[number]
            response, self.states[number] = self.tree.table.act(operation, before)
            self.locals[process] = place, value, TAKE if node.sight == BLIND else LOOK, response, NOTHING
            judged = self.tree.judges[number, process][response, NOTHING] if node.sight == BLIND else None
            return APPLY, number, operation, response, before, self.states[number], judged
        if stage == LOOK:
            saw = seen(self.tree.table, node.sight, self.states[number])
            self.locals[process] = place, value, TAKE, response, saw
            return LOOK, number, saw, self.tree.judges[number, process][response, saw]
        first = self.tree.judges[number, process][response, saw]
        taken = self.registers[number, first]
        self.locals[process] = (taken,) if place + 1 == len(path) else (place + 1, taken, WRITE, None, NOTHING)
        return TAKE, number, first, taken

    def decisions(self):
        """The decision of each process, or None."""
        return [it[0] if len(it) == 1 else None for it in self.locals]


def run(tree, inputs, schedule):
    """What each step of a schedule does, as World.step answers it, and the decisions."""
    world = World(tree, inputs)
    return [world.step(process) for process in schedule], world.decisions()


class Runner:
    """The steps of a tree, one list for each process, for many schedules."""

    def __init__(self, tree):
        self.tree = tree
        self.moves = [[*self.moves_of(process)] for process in range(tree.n)]

    def moves_of(self, process):
        """The steps of a process: (stage, node, the register, the operation or the judgements)."""
        for number, team in self.tree.paths[process]:
            node = self.tree.nodes[number]
            yield WRITE, number, (number, team)
            yield APPLY, number, self.tree.table.rows[node.operation(process)]
            if node.sight != BLIND:
                yield LOOK, number, node.sight
            yield TAKE, number, {pair: (number, first) for pair, first in self.tree.judges[number, process].items()}

    def decisions(self, inputs, schedule):
        """The decision of each process after a schedule, or None."""
        values, places = list(inputs), [0] * self.tree.n
        told, states, registers = [None] * self.tree.n, [node.start for node in self.tree.nodes], {}
        for process in schedule:
            moves = self.moves[process]
            if places[process] == len(moves):
                continue
            stage, node, it = moves[places[process]]
            places[process] += 1
            if stage == WRITE:
                registers[it] = values[process]
            elif stage == APPLY:
                response, states[node] = it[states[node]]
                told[process] = response, NOTHING
            elif stage == LOOK:
                told[process] = told[process][0], seen(self.tree.table, it, states[node])
            else:
                values[process] = registers[it[told[process]]]
        return [value if place == len(moves) else None for value, place, moves in zip(values, places, self.moves)]


def wrong_decisions(tree, inputs, decisions, counts):
    """What is wrong about decisions after so many steps of each process: they are one value, the input of a process with a step, and a process
    has one exactly if it has taken the steps of its path."""
    made = {it for it in decisions if it is not None}
    if len(made) > 1:
        return "two decisions"
    if not made <= {value for value, count in zip(inputs, counts) if count}:
        return "the input of no participant"
    if any((it is not None) != (count >= tree.own_steps[process]) for process, (it, count) in enumerate(zip(decisions, counts))):
        return "a decision before or behind its time"
    return None


def worlds(tree, inputs):
    """All worlds that schedules of a tree come to, each with the steps taken by each process."""
    first, counts = World(tree, inputs), (0,) * tree.n
    seen, waiting = {(first.key(), counts)}, [(first, counts)]
    for world, counts in waiting:
        yield world, counts
        for process in (p for p, decision in enumerate(world.decisions()) if decision is None):
            after = world.copy()
            after.step(process)
            there = counts[:process] + (counts[process] + 1,) + counts[process + 1 :]
            if (after.key(), there) not in seen:
                seen.add((after.key(), there))
                waiting.append((after, there))


def walk(tree):
    """What goes wrong in some schedule of a tree whose processes have different inputs, or None."""
    inputs = list(range(tree.n))
    return next(filter(None, (wrong_decisions(tree, inputs, world.decisions(), counts) for world, counts in worlds(tree, inputs))), None)


def told_step(tree, process, action):
    """What `agree --shortest --steps --as json` tells of an action of a process."""
    table = tree.table
    if action is None:
        return {"action": "none", "process": process}
    stage, node, *rest = action
    if stage == WRITE:
        return {"action": "write", "node": node, "process": process, "team": rest[0], "value": rest[1]}
    if stage == APPLY:
        operation, response, before, after, judged = rest
        moved = {"after": table.states[after], "before": table.states[before], **({} if judged is None else {"judged": judged})}
        return {"action": "apply", **moved, "node": node, "operation": table.operations[operation], "process": process, "response": table.responses[response]}
    if stage == LOOK:
        saw, judged = tree.nodes[node].seen(table, rest[0]), rest[1]
        look = tree.nodes[node].look()
        if look is None:
            return {"action": "read", "judged": judged, "node": node, "process": process, "state": saw}
        return {"action": "look", "judged": judged, "node": node, "operation": table.operations[look], "process": process, "response": saw}
    if node == 0:
        return {"action": "decide", "process": process, "value": rest[1]}
    return {"action": "take", "node": node, "process": process, "team": rest[0], "value": rest[1]}


def told_course(tree, inputs, schedule):
    """What `agree --shortest --steps --as json` writes of a schedule."""
    actions, decisions = run(tree, inputs, schedule)
    steps = [told_step(tree, process, action) for process, action in zip(schedule, actions)]
    return json.dumps({"decisions": decisions, "steps": steps}, separators=(",", ":")) + "\n"


# ---- all plan trees


def firsts(table, start, operations):
    """For each way to look the sets of processes that come first in the orders that show some process the same: each order of distinct processes is
    gone through. A set is a number with a bit for each process."""
    blind, seeing, answered = collections.defaultdict(int), collections.defaultdict(int), []
    moves = [(1 << process, table.rows[operation]) for process, operation in enumerate(operations)]

    def go_on(first, state, moved):
        for it in answered:
            blind[it] |= first
            seeing[it, state] |= first
        for process, row in moves:
            if not moved & process:
                response, after = row[state]
                answered.append((process, response))
                go_on(first or process, after, moved | process)
                answered.pop()

    go_on(0, start, 0)
    return {BLIND: {*blind.values()}, READING: {*seeing.values()}} | {look: looking(table, seeing, look) for look in silent_operations(table)}


def looking(table, seeing, look):
    """The sets of processes that come first, by a silent operation, from those by the state."""
    by_response = collections.defaultdict(int)
    for (it, state), first in seeing.items():
        by_response[it, seen(table, look, state)] |= first
    return {*by_response.values()}


def compositions(n):
    """All lists of sizes of two or more teams of n processes, none of them empty."""
    return [(m, *rest) for m in range(1, n) for rest in [(n - m,), *compositions(n - m)]]


def blocks(sizes):
    """The processes of teams of these sizes, which follow one another; each team is a number with a bit for each process."""
    ends = [0, *itertools.accumulate(sizes)]
    return [(1 << end) - (1 << begin) for begin, end in itertools.pairwise(ends)]


def all_roots(table, most):
    """For each number of processes, from 2 to the most, the sizes of two or more teams, none of them empty, and the way to look of all witnesses
    for as many: (sizes, sight). They are looked for over all start states, all operations of the processes and all sizes."""
    roots = {}
    for n in range(2, most + 1):
        divisions = [(sizes, blocks(sizes)) for sizes in compositions(n)]
        roots[n] = set()
        for start, operations in itertools.product(range(len(table.states)), itertools.product(range(len(table.operations)), repeat=n)):
            for sight, sets in firsts(table, start, operations).items():
                roots[n] |= {(sizes, sight) for sizes, teams in divisions if all(any(it & team == it for team in teams) for it in sets)}
    return roots


def all_costs(roots, is_allowed):
    """For each number of processes the costs of all plan trees for as many at each node of which all look in one way, one that is allowed:
    (greatest steps, objects, sum). A process alone has no node. A tree has one of these roots, and for each team of several processes any tree for
    as many."""
    costs = {1: {(0, 0, 0)}}
    for n in roots:
        allowed = {(sizes, price(sight)) for sizes, sight in roots[n] if is_allowed(sight)}
        costs[n] = {cost for sizes, steps in allowed for cost in costs_of_root(costs, sizes, steps)}
    return costs


def costs_of_root(costs, sizes, own):
    """The costs of all trees with a root at which a process takes so many steps, and whose teams have these sizes."""
    below = {(0, 0, 0)}
    for size in sizes:
        below = {(max(s, t), u + v, x + y) for (s, u, x), (t, v, y) in itertools.product(below, costs[size])}
    return {(steps + own, objects + 1, together + sum(sizes) * own) for steps, objects, together in below}
