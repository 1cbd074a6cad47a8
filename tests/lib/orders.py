"""Both numbers of a type from the definitions, over every choice and every order of its processes.

Processes of one team with one operation count as equal, so that a choice is a count for each team and operation.
"""
import functools
import itertools


class Orders:
    """Where the orders of a type lead from a start state, and what is answered in them, for all stocks of up to n processes.

    A class is a team, 0 or 1, and an operation. A stock has a count for each class, as many as the orders take at most.
    A set of states is a number with a bit for each state.
    """

    def __init__(self, table, start, n):
        self.table, self.start, self.n = table, start, n
        self.classes = list(itertools.product(range(2), range(len(table.operations))))
        self.image = [functools.cache(lambda states, o=o: self.image_of(states, o)) for o in range(len(table.operations))]
        where = lambda row, response: sum(1 << state for state, (it, _) in enumerate(row) if it == response)
        self.answers = [{response: where(row, response) for response, _ in row} for row in table.rows]
        self.left, self.pairs = [{}, {}], [{}, {}]
        for size in range(1, n + 1):
            for stock in stocks(len(self.classes), size):
                for team in range(2):
                    self.add(team, stock)

    def image_of(self, states, operation):
        """The states to which an operation leads from these states."""
        return sum({1 << after for state, (_, after) in enumerate(self.table.rows[operation]) if states >> state & 1})

    def add(self, team, stock):
        """Adds what the orders that begin in the team and take all of the stock lead to, by the last process of the order."""
        states, pairs = 0, {}
        for last, (last_team, operation) in enumerate(self.classes):
            if not stock[last]:
                continue
            before = (*stock[:last], stock[last] - 1, *stock[last + 1:])
            if any(before):
                found = self.left[team].get(before, 0)
            else:
                found = 1 << self.start if last_team == team else 0
            image = self.image[operation]
            states |= image(found)
            for response, where in self.answers[operation].items():
                if found & where:
                    pairs[last, response] = pairs.get((last, response), 0) | image(found & where)
            for pair, lasts in self.pairs[team].get(before, {}).items():
                pairs[pair] = pairs.get(pair, 0) | image(lasts)
        self.left[team][stock], self.pairs[team][stock] = states, pairs

    @functools.cached_property
    def within(self):
        """For each team and stock the same of all orders that take some of the stock."""
        all_left, all_pairs = [{}, {}], [{}, {}]
        for team, stock in itertools.product(range(2), self.left[0]):
            states, pairs = self.left[team][stock], dict(self.pairs[team][stock])
            for i in range(len(stock)):
                less = (*stock[:i], stock[i] - 1, *stock[i + 1:])
                states |= all_left[team].get(less, 0)
                for pair, lasts in all_pairs[team].get(less, {}).items():
                    pairs[pair] = pairs.get(pair, 0) | lasts
            all_left[team][stock], all_pairs[team][stock] = states, pairs
        return all_left, all_pairs

    def choices(self, size):
        """The stocks of so many processes in which both teams have someone."""
        half = len(self.classes) // 2
        return [stock for stock in stocks(len(self.classes), size) if any(stock[:half]) and any(stock[half:])]

    def is_witness(self, stock):
        """Whether no process gets the same response and last state from orders that begin in different teams."""
        one, other = (pairs[stock] for pairs in self.within[1])
        return all(not lasts & other.get(pair, 0) for pair, lasts in one.items())

    def is_recording_witness(self, stock):
        """Whether no state is left by orders that begin in different teams, and an order of one team leaves the start state only if the
        other team is one process alone."""
        left, half = [states[stock] for states in self.within[0]], len(self.classes) // 2
        sizes = sum(stock[:half]), sum(stock[half:])
        no_way_back = all(sizes[1 - team] == 1 or not left[team] >> self.start & 1 for team in range(2))
        return not left[0] & left[1] and no_way_back


@functools.cache
def stocks(classes, size):
    """All ways to take so many processes of these classes, as a count for each class."""
    if classes == 1:
        return [(size,)]
    return [(count, *rest) for count in range(size + 1) for rest in stocks(classes - 1, size - count)]


def numbers(table, n):
    """The greatest numbers up to n for which some choice is a witness, and for which some is a recording witness; else 1. Each
    smaller number from 2 on has one too."""
    found = [{1}, {1}]
    for start in range(len(table.states)):
        orders = Orders(table, start, n)
        for size in range(2, n + 1):
            for stock in orders.choices(size):
                if orders.is_witness(stock):
                    found[0].add(size)
                if orders.is_recording_witness(stock):
                    found[1].add(size)
    assert all(it == set(range(1, len(it) + 1)) for it in found), f"{found} is not every number up to one"
    return len(found[0]), len(found[1])
