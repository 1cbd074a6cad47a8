"""Plan trees of processes that crash and come back: which nodes do, what they cost, all executions of a node, and the least steps of a life.

After docs/SHORTEST.md, "Processes that come back". At a node each process writes its value to the register of its team, and then by the kind of the node:
  REPEATED   applies its operation, in each life again
  RECORDED   reads the object, and applies its operation only if it finds the start state
  LONE       the same where an order of one team leads back to the start state: the processes of the others look into the register of this team
             before they apply their operations. It has to have two teams, and one process alone in the other one
If its response alone tells which team came first, it reads the register of that team; else it reads the object once more before. If it applies
its operation in one life at most, the state that it reads has to tell, without the response: others may have begun anew from the start state.
Nothing here is the program's.
"""
import functools
import itertools

REPEATED, RECORDED, LONE = "repeated", "recorded", "lone"
WRITE, LOOK, PEEK, ACT, AGAIN, TAKE = "write", "look", "peek", "act", "again", "take"
EMPTY = None


def steps_of(kind, by_response, is_lone=False):
    """The steps of a process at a node, at most: write, act, take; a read before the act, one behind it, and the look of a process alone."""
    return 3 + (not by_response) + (kind != REPEATED) + is_lone


class Node:
    """A node of a kind: the start state, and the operation and the team of each process. What a process judges comes from all orders of the
    processes; with REPEATED, from all words in which each comes any number of times. `keeps_response` says whether a process that reads behind its
    operation judges by the response too."""

    def __init__(self, table, kind, by_response, start, operations, teams, keeps_response=None):
        self.keeps_response = kind == REPEATED if keeps_response is None else keeps_response
        self.table, self.kind, self.by_response, self.start, self.operations, self.teams = table, kind, by_response, start, operations, teams
        self.left, self.told = self.all_runs()
        self.back = self.left.get(start, set())  # the teams of which an order leads back to the start state

    def all_runs(self):
        """The teams in which the runs begin that leave a state, by the state; and those of the runs that answer a process, by the process, the
        response and the last state."""
        everyone = frozenset(range(len(self.operations)))
        first = [(team, self.start, everyone, (EMPTY,) * len(everyone)) for team in set(self.teams)]
        left, told, seen, waiting = {}, {}, set(first), first
        while waiting:
            team, state, able, answers = waiting.pop()
            if able != everyone or any(it is not EMPTY for it in answers):
                left.setdefault(state, set()).add(team)
            for process, response in enumerate(answers):
                if response is not EMPTY:
                    told.setdefault((process, response, state), set()).add(team)
            is_first = all(it is EMPTY for it in answers)
            for process in able if not is_first else [p for p in able if self.teams[p] == team]:
                response, after = self.table.act(self.operations[process], state)
                there = team, after, able if self.kind == REPEATED else able - {process}, (*answers[:process], response, *answers[process + 1 :])
                if there not in seen:
                    seen.add(there)
                    waiting.append(there)
        return left, told

    def pairs(self):
        """The teams that a process is shown by its response, and by the last state, or by the response alone."""
        if not self.by_response:
            return self.told
        by_response = {}
        for (process, response, _), teams in self.told.items():
            by_response.setdefault((process, response), set()).update(teams)
        return by_response

    def is_sound(self):
        """Whether the node may be in a tree of processes that come back."""
        if any(len(teams) > 1 for teams in self.pairs().values()):
            return False
        if self.kind == REPEATED:
            return True
        is_alone = self.kind == LONE and sum(team not in self.back for team in self.teams) == 1
        return all(len(teams) == 1 for teams in self.left.values()) and (not self.back or is_alone)

    def judge(self, process, response, state):
        """The team that came first, by the state alone if the process has no response. Some team, if several are told."""
        if response is EMPTY:
            return min(self.left.get(state, {0}))
        return min(self.pairs().get((process, response) if self.by_response else (process, response, state), {0}))


def step(node, world, process):
    """The world after a step of a process. A world is (state, registers, locals), a local state (stage, response, team to take), or (value,)."""
    state, registers, locals = world
    stage, response, team = locals[process]
    mine = node.teams[process]
    if stage == WRITE:
        registers, after = changed(registers, mine, process), (ACT if node.kind == REPEATED else LOOK, EMPTY, EMPTY)
    elif stage == LOOK and state == node.start:
        after = (PEEK if node.kind == LONE and node.back and mine not in node.back else ACT, EMPTY, EMPTY)
    elif stage in (LOOK, AGAIN):
        after = (TAKE, EMPTY, node.judge(process, response, state))
    elif stage == PEEK:
        found = registers[min(node.back)]
        after = (ACT, EMPTY, EMPTY) if found is EMPTY else (found,)
    elif stage == ACT:
        response, state = node.table.act(node.operations[process], state)
        kept = response if node.keeps_response else EMPTY
        after = (TAKE, EMPTY, node.judge(process, response, state)) if node.by_response else (AGAIN, kept, EMPTY)
    else:
        after = (TAKE, EMPTY, team) if registers[team] is EMPTY else (registers[team],)
    return state, registers, changed(locals, process, after)


def changed(items, place, item):
    return items[:place] + (item,) + items[place + 1 :]


def walk(node):
    """What goes wrong in some execution of steps and crashes at a node where each process is a team's only voice or comes with the value of its
    team, or None. Each process has its team as its value, as processes that have met below."""
    count = len(node.operations)
    begin = (WRITE, EMPTY, EMPTY)
    first = (node.start, (EMPTY,) * (max(node.teams) + 1), (begin,) * count), EMPTY
    seen, waiting = {first}, [first]
    while waiting:
        (state, registers, locals), decided = waiting.pop()
        for process in range(count):
            reached = [((state, registers, changed(locals, process, begin)), decided)]
            if len(locals[process]) > 1:
                after = step(node, (state, registers, locals), process)
                if after == (state, registers, locals):
                    return "a step for nothing"
                told = node.teams[after[2][process][0]] if len(after[2][process]) == 1 else EMPTY
                if EMPTY not in (told, decided) and told != decided:
                    return "two decisions"
                reached.append((after, decided if told is EMPTY else told))
            for it in reached:
                if it not in seen:
                    seen.add(it)
                    waiting.append(it)
    return None


# ---- the least steps of a life


def components(joined, operations):
    """The components of operations, as numbers with a bit for each; `joined` has for each operation those that it is joined with."""
    left, found = operations, []
    while left:
        part, grown = 0, left & -left
        while part != grown:
            part = grown
            for operation, others in joined.items():
                if part >> operation & 1:
                    grown |= others & operations
        found.append(part)
        left &= ~part
    return found


def parting_teams(table):
    """How many teams operations of a type can part into, where the responses alone tell, and where the states do too: from some start state,
    whatever words of them are applied, each operation is told by which team the word began."""
    most, states = {True: 1, False: 1}, range(len(table.states))
    operations = range(len(table.operations))
    for size in range(2, len(operations) + 1):
        for chosen in itertools.combinations(operations, size):
            reached = [closure(table, chosen, state) for state in states]
            for by_response in most:
                told = {(b, state): told_in(table, reached, b, state, by_response) for b in chosen for state in states}
                behind = [union(told[b, state] for b in chosen) for state in states]
                for start in states:
                    shown = {a: told[a, start] | union(behind[state] for state in reached[table.act(a, start)[1]]) for a in chosen}
                    joined = {a: sum(1 << b for b in chosen if shown[a] & shown[b]) for a in chosen}
                    most[by_response] = max(most[by_response], len(components(joined, sum(1 << a for a in chosen))))
    return most


def closure(table, operations, state):
    """The states to which words of these operations lead, with the state itself."""
    found, waiting = {state}, [state]
    while waiting:
        here = waiting.pop()
        for operation in operations:
            after = table.act(operation, here)[1]
            if after not in found:
                found.add(after)
                waiting.append(after)
    return frozenset(found)


def told_in(table, reached, operation, state, by_response):
    """What words that begin with an operation in a state tell it: a number with a bit for each response, or for each response and last state."""
    response, after = table.act(operation, state)
    place = operation * len(table.responses) + response
    return 1 << place if by_response else sum(1 << place * len(table.states) + last for last in reached[after])


def union(sets):
    """The union of sets that are numbers."""
    return functools.reduce(int.__or__, sets, 0)


def recording_roots(table, most):
    """For each number of processes the nodes of the kinds RECORDED and LONE: (sizes of the teams, steps of each team). A stock has a count for
    each operation; sets of states, and of responses to each operation, are numbers with a bit for each."""
    states, operations = range(len(table.states)), range(len(table.operations))
    width = len(table.responses)
    bit = lambda operation, response: 1 << operation * width + response
    empty = (0,) * len(operations)
    last, told, whole = {empty: [1 << state for state in states]}, {empty: [0 for _ in states]}, {empty: set()}
    roots = {n: set() for n in range(2, most + 1)}
    for size in range(1, most + 1):
        now_last, now_told, now_whole = {}, {}, {}
        for stock in sorted({changed(it, o, it[o] + 1) for it in last for o in operations}):
            chosen = [(o, changed(stock, o, stock[o] - 1)) for o in operations if stock[o]]
            # the start states from which the stock falls into no parts: with one process less of some operation it did not
            now_whole[stock] = set().union(*(whole[less] for o, less in chosen if less[o])) if len(chosen) > 1 else {*states}
            row_last, row_told = [], []
            for state in states:
                if size == most and state in now_whole[stock]:
                    continue
                lefts, tells = {}, {}
                for o, less in chosen:
                    response, after = table.act(o, state)
                    lefts[o], tells[o] = last[less][after], told[less][after] | bit(o, response)
                row_last.append(1 << state | union(lefts.values()))
                row_told.append(union(tells.values()))
                if state not in now_whole[stock]:
                    joined = {o: sum(1 << p for p in lefts if lefts[o] & lefts[p]) for o in lefts}
                    parts = components(joined, sum(1 << o for o in lefts))
                    if len(parts) == 1:
                        now_whole[stock].add(state)
                    else:
                        roots[size] |= {*roots_of(stock, joined, parts, lefts, tells, 1 << state)}
            now_last[stock], now_told[stock] = row_last, row_told
        last, told, whole = now_last, now_told, now_whole
        if size > 1 and not roots[size]:
            break
    return roots


def roots_of(stock, joined, parts, lefts, tells, start):
    """The nodes of a stock from a start state: the operations that leave a state in common are joined, and these are the parts. Which states are left
    by words that begin with an operation, and what they tell."""
    by_both = {o: joined[o] | sum(1 << p for p in lefts if tells[o] & tells[p]) for o in lefts}
    back = sum(1 << o for o in lefts if lefts[o] & start)
    for by_response, parts in ((False, parts), (True, components(by_both, sum(1 << o for o in lefts)))):
        if not back:
            for sizes in coarser(tuple(sorted(weight(stock, part) for part in parts))):
                yield sizes, (steps_of(RECORDED, by_response),) * len(sizes)
        for part in parts:
            if weight(stock, part) == 1 and back and not part & back:
                yield (1, sum(stock) - 1), (steps_of(LONE, by_response, True), steps_of(LONE, by_response))


def weight(stock, part):
    return sum(count for o, count in enumerate(stock) if part >> o & 1)


@functools.cache
def coarser(sizes):
    """The sizes of two or more teams that have whole teams of these sizes in each."""
    found = {sizes} if len(sizes) > 1 else set()
    for i, j in itertools.combinations(range(len(sizes)), 2):
        rest = [it for k, it in enumerate(sizes) if k not in (i, j)]
        found |= coarser(tuple(sorted([*rest, sizes[i] + sizes[j]])))
    return frozenset(found)


def all_sizes(n, most):
    """The sizes of two teams or more, and at most so many, of n processes."""
    whole = coarser((1,) * n)
    return {sizes for sizes in whole if len(sizes) <= most}


def least_life(table, n):
    """The least cost of a tree of n processes that come back, over nodes of operations that part, and of the kinds RECORDED and LONE: (greatest
    steps of a life, objects), or None."""
    roots = recording_roots(table, n)
    for by_response, most in parting_teams(table).items():
        price = steps_of(REPEATED, by_response)
        for m in roots:
            roots[m] |= {(sizes, (price,) * len(sizes)) for sizes in all_sizes(m, most)}

    @functools.cache
    def objects(m, bound):
        """The fewest objects for m processes within so many steps, or None."""
        if m == 1:
            return 0
        found = []
        for sizes, prices in roots[m]:
            below = [objects(size, bound - price) if bound >= price else None for size, price in zip(sizes, prices)]
            if None not in below:
                found.append(1 + sum(below))
        return min(found, default=None)

    return next(((bound, objects(n, bound)) for bound in range(6 * n) if objects(n, bound) is not None), None)
