"""The game on two runs: whether a type is n-defended, and traps as evidence that it is not.

A position is (first, second, statuses): the state of the object in each run, and a status for each process that is not lost. A status is
(run, operation, response) for a process that is ahead in this run, and (POISED, operation, 0) for one that is alike in both. Processes have
no numbers: the statuses are in order. Nor have the runs: of a position and the one with the runs exchanged the lesser counts.

A position is a leaf if its states are equal and some process is poised. A part of a position has some of its processes. A trap has for each
of its positions a move, (status, run), whose every answer is a leaf or has a part in the trap. So no position of it holds: the adversary
plays on for ever, and each of its moves is one for more processes too.
"""
import itertools

POISED = 2
BUDGET = 100_000


class OutOfBudget(Exception):
    """The game has more positions than it may look at."""


def position_of(first, second, statuses):
    """The position in its form."""
    statuses = tuple(sorted(statuses))
    if first < second:
        return first, second, statuses
    return min((first, second, statuses), (second, first, tuple(sorted((run ^ (run < POISED), *rest) for run, *rest in statuses))))


def is_leaf(position):
    """Whether the states are equal and some process is poised: it runs alone in both runs, and decides the same."""
    first, second, statuses = position
    return first == second and bool(statuses) and statuses[-1][0] == POISED


def moves(table, position):
    """The moves of a position, each with its answers. Processes with one status have one move."""
    states, statuses = position[:2], position[2]
    for place, (ahead, operation, got) in enumerate(statuses):
        if statuses[place] in statuses[:place]:
            continue
        others = statuses[:place] + statuses[place + 1:]
        for run in (0, 1):
            if run != ahead:
                response, after = table.rows[operation][states[run]]
                into = (states[0], after) if run else (after, states[1])
                yield (statuses[place], run), [
                    position_of(*into, others + it) for it in following(table, (run, operation, response), ahead, got)
                ]


def following(table, stepped, ahead, got):
    """What the protocol can choose from for a process that has stepped: its status, or none if it is lost."""
    if ahead == POISED:
        return [(stepped,)]
    if stepped[2] == got:
        return [((POISED, it, 0),) for it in range(len(table.rows))]
    return [()]


def parts(position):
    """The positions with one process less."""
    first, second, statuses = position
    for place, status in enumerate(statuses):
        if len(statuses) > 1 and status not in statuses[:place]:
            yield position_of(first, second, statuses[:place] + statuses[place + 1:])


def all_parts(position):
    """The position, and all that have some of its processes, at least one."""
    first, second, statuses = position
    for size in range(len(statuses), 0, -1):
        for some in dict.fromkeys(itertools.combinations(statuses, size)):
            yield position_of(first, second, some)


# Choices


def canonical_choices(table, n):
    """A start state, and the operations of both teams, in order. Which team is which makes no difference. For three processes and more no
    operation is in both teams: two that do it leave one state, and a third process is poised."""
    states, operations = range(len(table.rows[0])), range(len(table.rows))
    for size in range(1, n // 2 + 1):
        for one in itertools.combinations_with_replacement(operations, size):
            for other in itertools.combinations_with_replacement(operations, n - size):
                if (2 * size < n or one <= other) and (n == 2 or not {*one} & {*other}):
                    yield from ((start, one, other) for start in states)


def starts(table, choice):
    """The start positions of a canonical choice: one for each operation of one team and each of the other."""
    start, *teams = choice
    for pair in itertools.product(*map(dict.fromkeys, teams)):
        waiting = [(POISED, it, 0) for team, first in zip(teams, pair) for it in without(team, first)]
        (told, one), (said, other) = (table.rows[it][start] for it in pair)
        yield position_of(one, other, [(0, pair[0], told), (1, pair[1], said), *waiting])


def without(operations, one):
    """The operations, with this one once less."""
    place = operations.index(one)
    return operations[:place] + operations[place + 1:]


# Deciding


class Game:
    """The game of a type: which positions do not hold, and why."""

    def __init__(self, table, budget=BUDGET):
        self.table, self.budget, self.seen = table, budget, 0
        # Why a position is lost: a move, with its answers; or a part that is lost. None for a leaf.
        self.lost, self.held = {}, {position_of(state, other, ()) for state in self.states() for other in self.states()}

    def states(self):
        """The numbers of the states."""
        return range(len(self.table.rows[0]))

    def is_lost(self, position):
        """Whether a position does not hold."""
        if position not in self.lost and position not in self.held:
            Search(self, position).decide()
        return position in self.lost

    def is_defended(self, choice):
        """Whether all start positions of a choice hold."""
        return not any(map(self.is_lost, starts(self.table, choice)))

    def defended(self, n):
        """The first choice for n whose start positions all hold; None if there is none."""
        return next(filter(self.is_defended, canonical_choices(self.table, n)), None)

    def trap(self, n):
        """A trap that has a part of a start position of each choice for n. None of these may be defended."""
        return self.trap_of(next(filter(self.is_lost, starts(self.table, choice))) for choice in canonical_choices(self.table, n))

    def trap_of(self, positions):
        """A trap that has a part of each of these positions, which have to be lost: a move for each position."""
        found, left = {}, list(positions)
        while left:
            position = self.least_part(left.pop())
            if position not in found and not is_leaf(position):
                found[position], answers = self.lost[position]
                left += answers
        return found

    def least_part(self, position):
        """The part for which a position is lost, as long as it is lost for a part."""
        while isinstance(why := self.lost[position], Part):
            position = why.position
        return position


class Part:
    """A position is lost since this one with fewer processes is."""

    def __init__(self, position):
        self.position = position


class Search:
    """A walk through the positions that come of one and have as many processes as it."""

    def __init__(self, game, root):
        self.game, self.root = game, root
        # For each open position the moves that may win. For each position where it is an answer. For each move, how many answers are not lost.
        self.open, self.uses, self.left = {}, {}, {}

    def decide(self):
        """Goes on until the root is lost, or all positions are looked at. Of these the game then knows each."""
        waiting = [self.root]
        while waiting and self.root not in self.game.lost:
            position = waiting.pop()
            if position not in self.open and position not in self.game.lost and position not in self.game.held:
                waiting += self.look(position)
        if self.root not in self.game.lost:
            self.settle()

    def look(self, position):
        """Looks at a position. Answers the positions that may come of it."""
        game = self.game
        game.seen += 1
        if game.seen > game.budget:
            raise OutOfBudget
        if is_leaf(position):
            return self.lose(position, None)
        if part := next(filter(game.is_lost, parts(position)), None):
            return self.lose(position, Part(part))
        self.open[position], new = [], []
        for move, answers in moves(game.table, position):
            if any(it in game.held or len(it[2]) < len(position[2]) and not game.is_lost(it) for it in answers):
                continue
            unknown = {it for it in answers if it not in game.lost}
            if not unknown:
                return self.lose(position, (move, answers))
            self.note(position, move, answers, unknown)
            new += unknown
        return new

    def note(self, position, move, answers, unknown):
        """Notes a move that wins if all these answers are lost."""
        self.open[position].append((move, answers))
        self.left[position, move] = len(unknown)
        for it in unknown:
            self.uses.setdefault(it, []).append((position, move, answers))

    def lose(self, position, why):
        """Notes that a position is lost, and those that are lost by it. Answers that nothing comes of them."""
        waiting = [(position, why)]
        while waiting:
            position, why = waiting.pop()
            if position not in self.game.lost:
                self.game.lost[position] = why
                self.open.pop(position, None)
                for user, move, answers in self.uses.get(position, ()):
                    self.left[user, move] -= 1
                    if not self.left[user, move]:
                        waiting.append((user, (move, answers)))
        return []

    def settle(self):
        """Decides what is open when all is looked at: what holds is the least set that has a position if each move has an answer in it."""
        game = self.game
        counts = {position: len(them) for position, them in self.open.items()}
        waiting, met = [position for position, count in counts.items() if not count], set()
        while waiting:
            game.held.add(position := waiting.pop())
            for user, move, _ in self.uses.get(position, ()):
                if user in counts and user not in game.held and (user, move) not in met:
                    met.add((user, move))
                    counts[user] -= 1
                    if not counts[user]:
                        waiting.append(user)
        for position, them in self.open.items():
            if position not in game.held:
                game.lost[position] = next(it for it in them if game.held.isdisjoint(it[1]))


# Evidence


def is_caught(trap, position):
    """Whether a position is a leaf, or has a part in the trap."""
    return is_leaf(position) or any(it in trap for it in all_parts(position))


def trap_faults(table, n, trap):
    """What is wrong with a trap as evidence that a type is not n-defended."""
    for position, move in trap.items():
        answers = dict(moves(table, position)).get(move)
        if position != position_of(*position) or not answers or not all(is_caught(trap, it) for it in answers):
            yield f"{position} has no move {move} back into the trap"
    for choice in canonical_choices(table, n):
        if not any(is_caught(trap, it) for it in starts(table, choice)):
            yield f"no start position of {choice} is caught"
