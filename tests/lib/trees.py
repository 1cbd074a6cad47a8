"""Protocols without reads at one object, as trees: what a process does next follows from its own responses so far.

A protocol has a start state of the object, and for each process a team and a tree, {responses: operation}. Where the tree has no operation, the
process is at an end and decides. With registers each process has one: it writes its responses there before each further operation and at its
end, and at its end it looks at all registers in one step (a snapshot is made of registers).

The teams are the inputs. All that decide in one execution have to decide one team, and a process whose team alone has moved has to decide it. So
ends that come in one execution have one decision, and some ends have theirs by themselves: a protocol with these trees exists exactly if no
chain of ends leads from one team to the other. Each protocol that solves consensus with the teams as inputs, at one object, in this form and as
deep, is found; others use several objects, registers in other ways, or more operations.
"""
import collections
import itertools

TEAMS = A, B = 0, 1

# A process: what its next step is, its responses, and what it has seen of the registers at its end.
Process = collections.namedtuple("Process", "step got seen")
ACT, WRITE, LOOK, END = "act", "write", "look", "end"


class Protocol:
    """A protocol: the type, the start state, and for each process a team and a tree."""

    def __init__(self, table, start, teams, trees, has_registers):
        self.table, self.start, self.teams, self.trees, self.has_registers = table, start, teams, trees, has_registers

    def after_response(self, number, got):
        """The process once it has got these responses."""
        if self.has_registers:
            return Process(WRITE, got, ())
        return Process(ACT if got in self.trees[number] else END, got, ())

    def stepped(self, scene, number):
        """The state, the processes and the registers after a step of a process."""
        state, processes, registers = scene
        step, got, _ = processes[number]
        if step == ACT:
            response, state = self.table.act(self.trees[number][got], state)
            after = self.after_response(number, (*got, response))
        elif step == WRITE:
            registers = (*registers[:number], got, *registers[number + 1:])
            after = Process(ACT if got in self.trees[number] else LOOK, got, ())
        else:
            after = Process(END, got, registers)
        return state, (*processes[:number], after, *processes[number + 1:]), registers

    def executions(self):
        """All ends that come together in an execution, each as (process, responses, registers seen); and the ends of processes whose team alone
        has moved, by the team."""
        count = len(self.teams)
        fresh = self.start, (Process(ACT, (), ()),) * count, (None,) * count
        seen, left, together, alone = {fresh}, [fresh], set(), (set(), set())
        while left:
            scene = left.pop()
            moved = {self.teams[number] for number, it in enumerate(scene[1]) if it.got}
            moving = [number for number, it in enumerate(scene[1]) if it.step != END]
            ends = [(number, *it[1:]) for number, it in enumerate(scene[1]) if it.step == END]
            if len(moved) == 1:
                alone[moved.pop()].update(ends)
            if not moving:
                together.add(tuple(ends))
            for number in moving:
                after = self.stepped(scene, number)
                if after not in seen:
                    seen.add(after)
                    left.append(after)
        return together, alone

    def chain(self):
        """A shortest chain of ends from one team to the other. None if there is none: then the protocol agrees."""
        together, (begun, wanted) = self.executions()
        within = collections.defaultdict(list)
        for ends in together:
            for it in ends:
                within[it].append(ends)
        before, left = dict.fromkeys(begun), list(begun)
        for it in left:
            if it in wanted:
                return way_back(before, it)
            for other in itertools.chain.from_iterable(within.pop(it, ())):
                if other not in before:
                    before[other] = it
                    left.append(other)
        return None

    def with_operation(self, number, got, operation):
        """The protocol in which a process goes on from these responses by this operation."""
        return self.with_trees([*self.trees[:number], {**self.trees[number], got: operation}, *self.trees[number + 1:]])

    def with_trees(self, trees):
        """The protocol with other trees."""
        return Protocol(self.table, self.start, self.teams, trees, self.has_registers)

    def key(self):
        """What tells this protocol from another one with the same beginning."""
        return tuple(frozenset(it.items()) for it in self.trees)


def way_back(before, it):
    """The way by which an end was found."""
    found = []
    while it is not None:
        found.append(it)
        it = before[it]
    return found


def first_protocols(table, n, has_registers):
    """The protocols of one operation for each process, up to the order of the processes in a team and the names of the teams."""
    states, operations = range(len(table.rows[0])), range(len(table.rows))
    for size in range(1, n // 2 + 1):
        teams = (A,) * size + (B,) * (n - size)
        for one in itertools.combinations_with_replacement(operations, size):
            for other in itertools.combinations_with_replacement(operations, n - size):
                if 2 * size < n or one <= other:
                    for start in states:
                        yield Protocol(table, start, teams, [{(): it} for it in (*one, *other)], has_registers)


def agreeing(protocol, most, tries):
    """A protocol that agrees and begins as this one, with at most so many operations of a process, and whether all such were looked at: not
    more than `tries` are. A protocol that goes on nowhere along a chain has the chain too, so the search goes on at each end of a shortest
    one, by each operation."""
    seen, waiting = set(), [protocol]
    while waiting:
        protocol = waiting.pop()
        if protocol.key() in seen:
            continue
        if len(seen) == tries:
            return None, False
        seen.add(protocol.key())
        found = protocol.chain()
        if found is None:
            return protocol, True
        for number, got in dict.fromkeys(it[:2] for it in found):
            if len(got) < most:
                waiting += [protocol.with_operation(number, got, it) for it in range(len(protocol.table.rows))]
    return None, True


def found_protocol(table, n, most, tries, has_registers=False):
    """A protocol for n processes that agrees, and whether all were looked at that have at most so many operations of a process."""
    are_all = True
    for first in first_protocols(table, n, has_registers):
        found, whole = agreeing(first, most, tries)
        if found:
            return found, True
        are_all &= whole
    return None, are_all
