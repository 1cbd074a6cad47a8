"""`show` in each form, and `agree` with its steps and without them, for teams of every size from 1 to 7 and for roles of more than
100 pairs."""
import json
import random
import tempfile

import judge
from calls import TYPES, answer, called, fault
from protocol import TEAMS, Plan, Round
from table import Table
from tables import sums


def accepted(kind, witness):
    """The text of a certificate of a witness, for its number of processes as the limit."""
    n = len(witness[1] + witness[2])
    value = {"collisions": [], "limit": n, "number": n, "type": kind.name, "version": 2, "witness": witness}
    return json.dumps(value, separators=(",", ":"), sort_keys=True)


def witnesses():
    """Types with witnesses: a sticky bit for teams of each size; and `sums`, for seven and one, whose roles judge over 100 pairs."""
    for n in range(2, 9):
        for a in range(1, n):
            yield TYPES["sticky_bit"], [0, [0] * a, [1] * (n - a)]
    for a, b in (([0, 1, 2, 3, 4, 5, 6], [7]), ([3, 6], [7, 7, 7, 7]), ([5], [7] * 6)):
        yield sums(), [0, a, b]


class Tournament:
    """Who meets whom: for each process its places from the lowest node to the root, (node, team, role) each."""

    def __init__(self, a, b):
        self.first_role, self.most, self.nodes = a, b, 0
        self.paths = [[] for _ in range(a + b)]
        self.meet(range(a + b))

    def meet(self, processes):
        """Numbers the node of these processes, and the nodes below it, team A's first."""
        if len(processes) < 2:
            return
        node, first = self.nodes, max(1, len(processes) - self.most)
        self.nodes += 1
        for team, members in enumerate((processes[:first], processes[first:])):
            self.meet(members)
            for k, p in enumerate(members):
                self.paths[p].append((node, team, team * self.first_role + k))


def plan_text(kind, witness):
    """The text of the plan of a witness."""
    state, a, b = witness
    tournament, n = Tournament(len(a), len(b)), len(a + b)
    lines = [f"type {kind.name} processes {n} nodes {tournament.nodes} start {kind.states[state]}"]
    for j, operation in enumerate(a + b):
        pairs = (f" {kind.responses[r]}/{kind.states[s]}" for r, s in sorted(judge.outcome_set(kind, witness, 0, j)))
        lines.append(f"role {j} {TEAMS[j >= len(a)]} {kind.operations[operation]} judges{''.join(pairs)}")
    for p, path in enumerate(tournament.paths):
        lines.append(f"process {p}: " + ", ".join(f"node {node} {TEAMS[team]} role {role}" for node, team, role in path))
    return "".join(f"{line}\n" for line in lines)


def as_json(plan):
    """The plan as `show --as json` writes it."""
    kind = plan.kind
    pairs = lambda judged: [{"response": kind.responses[r], "state": kind.states[s]} for r, s in sorted(judged)]
    roles = [{"judges": pairs(judged), "operation": kind.operations[o], "team": TEAMS[team]} for team, o, judged in plan.roles]
    paths = [[{"node": node, "role": role, "team": TEAMS[team]} for node, team, role in path] for path in plan.paths]
    value = {"nodes": plan.nodes, "paths": paths, "processes": plan.n, "roles": roles, "start": kind.states[plan.start], "type": kind.name}
    return json.dumps(value, separators=(",", ":"), sort_keys=True) + "\n"


def as_dot(plan):
    """The plan as `show --as dot` writes it."""
    kind = plan.kind
    lines = ["rankdir=BT;", f'label="{kind.name} from {kind.states[plan.start]}";']
    lines += [f'node_{k} [label="node {k}"];' for k in range(plan.nodes)]
    for p, path in enumerate(plan.paths):
        lines.append(f'process_{p} [shape=box,label="process {p}"];')
        for origin, (node, team, role) in zip([f"process_{p}"] + [f"node_{it[0]}" for it in path], path):
            label = f"process {p}: {TEAMS[team]} role {role} {kind.operations[plan.roles[role][1]]}"
            lines.append(f'{origin} -> node_{node} [label="{label}"];')
    return f'digraph "{kind.name}" {{\n' + "".join(f"  {line}\n" for line in lines) + "}\n"


def as_promela(plan):
    """The plan as `show --as promela` writes it."""
    kind = plan.kind
    head = f"""/* {kind.name} from {kind.states[plan.start]} */
byte object[{plan.nodes}] = {plan.start};
byte written_A[{plan.nodes}] = 255;
byte written_B[{plan.nodes}] = 255;
byte taken[{plan.n}];
byte agreed = 255;

#define ACTION(p) if :: goto stopped :: taken[p]++ fi

inline decide(p, value, needed) {{
    assert(value != 255);
    assert(taken[value] > 0);
    assert(agreed == 255 || agreed == value);
    assert(taken[p] == needed && needed <= 4 * ({plan.n} - 1));
    agreed = value
}}
"""
    return head + "".join(process(plan, p) for p in range(plan.n))


def process(plan, p):
    """One process of the model."""
    kind, path = plan.kind, plan.paths[p]
    lines = ["", f"active proctype process_{p}() {{", f"    byte value = {p}, response, state;"]
    for k, (node, team, role) in enumerate(path):
        _, operation, judged = plan.roles[role]
        rows = " ".join(f":: object[{node}] == {s} -> response = {r}; object[{node}] = {t}" for s, (r, t) in enumerate(kind.rows[operation]))
        ways = " ".join(f":: response == {r} && state == {s} -> value = written_A[{node}]" for r, s in sorted(judged))
        end = f"; decide({p}, value, 4 * {len(path)})" if k + 1 == len(path) else ""
        lines += [
            f"    /* node {node}, team {TEAMS[team]}, role {role}: {kind.operations[operation]} */",
            f"    atomic {{ ACTION({p}); written_{TEAMS[team]}[{node}] = value }};",
            f"    atomic {{ ACTION({p}); if {rows} fi }};",
            f"    atomic {{ ACTION({p}); state = object[{node}] }};",
            f"    atomic {{ ACTION({p}); if {ways} :: else -> value = written_B[{node}] fi{end} }};",
        ]
    return "\n".join([*lines, "stopped:", "    skip", "}", ""])


def with_certificate(certificate, command, table, *words):
    """What a command says of the text of a certificate in a file, with these words behind its name."""
    with tempfile.NamedTemporaryFile("w", suffix=".json") as file:
        file.write(certificate)
        file.flush()
        return called([*command, file.name, *words], table)


def run_lines(plan, inputs, schedule):
    """The lines of the steps of a schedule, as `agree --steps` prints them, and those of the decisions."""
    rounds, steps = Round(plan), ""
    world = rounds.first_world
    for p, value in enumerate(inputs):
        world = rounds.begun(world, p, value)
    for p in schedule:
        steps += f"{p}: {rounds.action(world, p)}\n"
        world = rounds.step(world, p)
    ends = [rounds.decision(world, p) for p in range(plan.n)]
    return steps, "".join(f"{p}: {end[0] if end else 'undecided'}\n" for p, end in enumerate(ends))


def schedules(plan, chance):
    """Schedules that mix the processes, that run one after the other, and that stop some."""
    everyone = [p for p in range(plan.n) for _ in range(4 * len(plan.paths[p]))]
    yield chance.sample(everyone, len(everyone))
    order = chance.sample(range(plan.n), plan.n)
    yield [p for p in order for _ in range(4 * len(plan.paths[p]))]
    yield chance.sample(everyone, len(everyone) // 2) + [order[0]] * 4 * plan.n


def cases():
    chance = random.Random(5)
    for table, witness in witnesses():
        kind = Table(table)
        certificate, text = accepted(kind, witness), plan_text(kind, witness)
        plan = Plan(text, kind)
        about = f"{kind.name}, teams of {len(witness[1])} and {len(witness[2])}"
        for form, wanted in (("text", text), ("json", as_json(plan)), ("dot", as_dot(plan)), ("promela", as_promela(plan))):
            run = lambda form=form, certificate=certificate, table=table: with_certificate(certificate, ["show", "--as", form], table)
            yield f"{about}, as {form}", run, answer(wanted)
        for schedule in schedules(plan, chance):
            inputs = [chance.randrange(2**64) for _ in range(plan.n)]
            words = [",".join(map(str, it)) for it in (inputs, schedule)]
            steps, decisions = run_lines(plan, inputs, schedule)
            for command, wanted in ((["agree"], decisions), (["agree", "--steps"], steps + decisions)):
                run = lambda words=words, command=command, certificate=certificate, table=table: with_certificate(certificate, command, table, *words)
                yield f"{about}, {' '.join(command)}, {words[1]}", run, answer(wanted)
        words, count = [words[0], f"{words[1]},{plan.n}"], len(schedule)
        run = lambda words=words, certificate=certificate, table=table: with_certificate(certificate, ["agree"], table, *words)
        yield f"{about}, a step of process {plan.n}", run, fault(f"schedule: 2 NoSuchProcess {count}")
