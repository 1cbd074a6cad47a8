"""Rounds and logs by the text of `show`: what each step does, after docs/DEFINITIONS.md.

Nothing here is the program's: a plan is read from its text, a type from its table, and a step makes a new
world. The tests say what a world has to meet.
"""

EMPTY = None  # what an unwritten register holds
TEAMS = "AB"


class Plan:
    """What the text of `show` says. Names are numbers in the table of its type."""

    def __init__(self, text, kind):
        lines = text.splitlines()
        words = lines[0].split(" ")
        assert words[0::2] == ["type", "processes", "nodes", "start"] and words[1] == kind.name
        self.kind, self.n, self.nodes, self.start = kind, int(words[3]), int(words[5]), kind.states.index(words[7])
        self.roles = [self.role(j, line.split(" ")) for j, line in enumerate(lines[1 : 1 + self.n])]
        self.paths = [self.path(p, line) for p, line in enumerate(lines[1 + self.n :])]
        assert len(self.roles) == self.n and len(self.paths) == self.n

    def role(self, j, words):
        """The team, the operation, and the pairs that the role judges to be team A's."""
        assert words[0] == "role" and int(words[1]) == j and words[4] == "judges"
        pairs = [pair.split("/") for pair in words[5:]]
        judged = frozenset((self.kind.responses.index(r), self.kind.states.index(s)) for r, s in pairs)
        return TEAMS.index(words[2]), self.kind.operations.index(words[3]), judged

    def path(self, p, line):
        """The places of a process from its lowest node to the root: node, team and role."""
        head, _, places = line.partition(": ")
        assert head == f"process {p}"
        words = [place.split(" ") for place in places.split(", ")]
        assert all(it[0] == "node" and it[3] == "role" for it in words)
        return [(int(it[1]), TEAMS.index(it[2]), int(it[4])) for it in words]


class Round:
    """The rounds of a plan. A world is (nodes, locals, first): at each node the state of the object and the two
    registers; for each process what it knows; and the team that came first at the root.

    A process that has not begun knows None, and one that has decided knows (value,). Any other knows (place,
    value, stage) and what it has kept: its response from stage 2 on, and the state read in stage 3."""

    def __init__(self, plan):
        self.plan = plan
        self.first_world = (((plan.start, EMPTY, EMPTY),) * plan.nodes, (None,) * plan.n, None)

    def begun(self, world, p, value):
        nodes, known, first = world
        return nodes, changed(known, p, (0, value, 0)), first

    def step(self, world, p):
        """One action of a process that has begun, or none if it has decided."""
        nodes, known, first = world
        mine = known[p]
        if len(mine) == 1:
            return world
        place, value, stage = mine[:3]
        at, team, role = self.plan.paths[p][place]
        _, operation, judged = self.plan.roles[role]
        state = nodes[at][0]
        if stage == 0:
            nodes, mine = changed(nodes, at, changed(nodes[at], 1 + team, value)), (place, value, 1)
        elif stage == 1:
            response, after = self.plan.kind.act(operation, state)
            nodes, mine = changed(nodes, at, changed(nodes[at], 0, after)), (place, value, 2, response)
            first = team if at == 0 and first is None else first
        elif stage == 2:
            mine = (place, value, 3, mine[3], state)
        else:
            taken = nodes[at][1 + self.judges(team, mine[3:], judged)]
            mine = (taken,) if place + 1 == len(self.plan.paths[p]) else (place + 1, taken, 0)
        return nodes, changed(known, p, mine), first

    def action(self, world, p):
        """What the next step of a process that has begun does, in words."""
        nodes, known, _ = world
        mine = known[p]
        if len(mine) == 1:
            return "has decided"
        place, value, stage = mine[:3]
        at, team, role = self.plan.paths[p][place]
        _, operation, judged = self.plan.roles[role]
        kind, state = self.plan.kind, nodes[at][0]
        if stage == 0:
            return f"writes {value} to {TEAMS[team]} of node {at}"
        if stage == 1:
            return f"applies {kind.operations[operation]} at node {at}: {kind.responses[kind.act(operation, state)[0]]}"
        if stage == 2:
            return f"reads {kind.states[state]} at node {at}: team {TEAMS[self.judges(team, (mine[3], state), judged)]}"
        first = self.judges(team, mine[3:], judged)
        taken = nodes[at][1 + first]
        return f"decides {taken}" if place + 1 == len(self.plan.paths[p]) else f"takes {taken} from {TEAMS[first]} of node {at}"

    def judges(self, team, pair, judged):
        """The team that the process judges to have come first."""
        return 0 if pair in judged else 1

    def decision(self, world, p):
        """The decision of a process in a list, or an empty list."""
        mine = world[1][p]
        return list(mine) if mine and len(mine) == 1 else []

    def fixed(self, world):
        """The value that the round has fixed in a list, or an empty list."""
        nodes, _, first = world
        return [] if first is None else [nodes[0][1 + first]]


class Consensus:
    """The walk through all worlds of a round in which each process began with a value, and what they have to meet.

    Each world comes with the number of steps of each process. A process that stops takes no more steps, so in
    every world some may have stopped."""

    def __init__(self, plan, inputs):
        self.plan, self.inputs, self.steps = plan, inputs, Round(plan)
        self.needed = [4 * len(path) for path in plan.paths]
        self.ways = {}  # each world met, with the one before it and the process that stepped

    def first(self):
        world = self.steps.first_world
        for p, value in enumerate(self.inputs):
            world = self.steps.begun(world, p, value)
        return world, (0,) * self.plan.n

    def worlds(self):
        """Each world, with the decisions in it."""
        queue = [self.first()]
        self.ways = {queue[0]: None}
        for here in queue:
            world, taken = here
            decisions = [self.steps.decision(world, p) for p in range(self.plan.n)]
            yield here, decisions
            for p in range(self.plan.n):
                if not decisions[p]:
                    there = (self.steps.step(world, p), changed(taken, p, taken[p] + 1))
                    if there not in self.ways:
                        self.ways[there] = (here, p)
                        queue.append(there)

    def holds(self, taken, decisions):
        """Agreement, validity and the bound, if each process has taken, or tried, this many steps."""
        values = {it for decision in decisions for it in decision}
        valid = values <= {value for value, steps in zip(self.inputs, taken) if steps}
        in_time = all(bool(it) == (steps >= most) for it, steps, most in zip(decisions, taken, self.needed))
        return len(values) <= 1 and valid and in_time and max(self.needed) <= 4 * (self.plan.n - 1)

    def violation(self):
        """The first world that does not hold, or None."""
        return next((here for here, decisions in self.worlds() if not self.holds(here[1], decisions)), None)


def way(ways, here):
    """The steps or events that lead to a world."""
    back = []
    while ways[here]:
        here, step = ways[here]
        back.append(step)
    return back[::-1]


class Log:
    """The logs of a plan that serve an object. A world is (announced, rounds, callers, made): the register
    of each process; the round of each slot; for each process its phase and the batches replayed; and how
    many calls it has made. A phase is None, ("look", next, batch) or "run". An entry is (process,
    operation, call). A batch has an entry or None for each process."""

    def __init__(self, plan, kind, start, capacity):
        self.plan, self.kind, self.start, self.capacity, self.round = plan, kind, start, capacity, Round(plan)
        n = plan.n
        self.first_look = ("look", 0, (None,) * n)
        self.first_world = ((None,) * n, (self.round.first_world,) * capacity, ((None, ()),) * n, (0,) * n)

    def is_idle(self, world, p):
        return world[2][p][0] is None

    def at_end(self, world, p):
        return len(world[2][p][1]) == self.capacity

    def invoke(self, world, p, operation):
        announced, rounds, callers, made = world
        entry = (p, operation, made[p])
        calling = changed(callers, p, (self.first_look, callers[p][1]))
        return changed(announced, p, entry), rounds, calling, changed(made, p, made[p] + 1)

    def step(self, world, p):
        """The world after a step, and the answer of the step: None, (slot, response) or "full"."""
        announced, rounds, callers, made = world
        phase, seen = callers[p]
        slot = len(seen)
        if phase != "run":
            return self.look(world, p, *phase[1:]), None
        here = self.round.step(rounds[slot], p)
        rounds = changed(rounds, slot, here)
        answer = None
        for batch in self.round.decision(here, p):
            seen += (batch,)
            if announced[p] in batch:
                phase, answer = None, (slot, self.replies(seen)[announced[p]][1])
            elif slot + 1 == self.capacity:
                phase, answer = None, "full"
            else:
                phase = self.first_look
        return (announced, rounds, changed(callers, p, (phase, seen)), made), answer

    def look(self, world, p, q, batch):
        """The world after a look at the announcement of process q."""
        announced, rounds, callers, made = world
        seen = callers[p][1]
        if announced[q] and self.gathers(announced[q], p, seen):
            batch = changed(batch, q, announced[q])
        if q + 1 < self.plan.n:
            return announced, rounds, changed(callers, p, (("look", q + 1, batch), seen)), made
        slot = len(seen)
        rounds = changed(rounds, slot, self.round.begun(rounds[slot], p, batch))
        return announced, rounds, changed(callers, p, ("run", seen)), made

    def gathers(self, entry, p, seen):
        """Whether a process that has replayed these batches takes an entry into the next one."""
        return not any(entry in it for it in seen)

    def batches(self, world):
        """The batches of the fixed slots, up to the first that is not fixed."""
        found = ()
        for it in world[1]:
            fixed = self.round.fixed(it)
            if not fixed:
                break
            found += tuple(fixed)
        return found

    def replies(self, batches):
        """For each entry its slot, its response and the state after it, in one sequential run."""
        state, replies = self.start, {}
        for slot, batch in enumerate(batches):
            for entry in filter(None, batch):
                response, state = self.kind.act(entry[1], state)
                replies[entry] = (slot, response, state)
        return replies

    def fault(self, world, event):
        """The refusal of an event that cannot come, or None."""
        p, operation = event
        if p >= self.plan.n:
            return "1 NoSuchProcess"
        if operation is None:
            return "4 Idle" if self.is_idle(world, p) else None
        if operation >= len(self.kind.operations):
            return "2 NoSuchOperation"
        if not self.is_idle(world, p):
            return "3 NotIdle"
        return "5 AtEnd" if self.at_end(world, p) else None

    def replayed(self, events):
        """The world after a list of events, and their answers, (process, answer) each."""
        world, answers = self.first_world, []
        for p, operation in events:
            if self.fault(world, (p, operation)):
                raise ValueError(self.fault(world, (p, operation)))
            if operation is None:
                world, answer = self.step(world, p)
                answers += [(p, answer)] if answer else []
            else:
                world = self.invoke(world, p, operation)
        return world, answers

    def entry_lines(self, world):
        names = self.kind
        return "".join(
            f"entry {slot} {entry[0]} {names.operations[entry[1]]} {names.responses[response]} {names.states[state]}\n"
            for entry, (slot, response, state) in self.replies(self.batches(world)).items()
        )

    def answer_line(self, p, answer):
        return f"full {p}\n" if answer == "full" else f"answer {p} {answer[0]} {self.kind.responses[answer[1]]}\n"

    def lines(self, events):
        """What `replay` prints for a list of events, and its status."""
        world, answers = self.replayed(events)
        text = "".join(self.answer_line(p, answer) for p, answer in answers) + self.entry_lines(world)
        return text.encode(), b"", int("full" in (answer for _, answer in answers))

    def is_served(self, calls, ended):
        """Whether `serve` may have printed this for these calls. The events of its last line say what came."""
        printed, told, status = ended
        head, last, line = printed.decode().rpartition("events ")
        if told or not last:
            return False
        try:
            events = read_events(line.strip())
            world, answers = self.replayed(events)
        except ValueError:
            return False
        mine = ""
        for p, wanted in enumerate(calls):
            made = [operation for q, operation in events if q == p and operation is not None]
            replies = [answer for q, answer in answers if q == p]
            if len(made) < len(wanted) and self.at_end(world, p) and "full" not in replies:
                replies.append("full")  # answered at once, with no event
            whole = len(replies) == len(wanted) or "full" in replies[-1:]
            if made != wanted[: len(made)] or not whole:
                return False
            mine += "".join(self.answer_line(p, answer) for answer in replies)
        return head == mine + self.entry_lines(world) and status == int("full " in head)


def changed(values, place, value):
    """A tuple with another value at one place."""
    return values[:place] + (value,) + values[place + 1 :]


def read_events(text):
    """A list of events, (process, operation) each, with None for a step."""
    if text == "none":
        return []
    words = [it[1:].split(":") if it[0] == "i" else (it[1:], None) for it in text.split(",")]
    return [(int(p), None if operation is None else int(operation)) for p, operation in words]


def events_text(events):
    """A list of events as the program reads it."""
    return ",".join(f"s{p}" if operation is None else f"i{p}:{operation}" for p, operation in events) or "none"
