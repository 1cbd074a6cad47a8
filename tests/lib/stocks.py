"""Both numbers of a type by words and stocks, from the definitions of these.

A word is a list of operations that are applied one after the other. A stock is a count for each operation. A word is within a stock if
it has each operation at most so often.
"""
import itertools


class Stocks:
    """What the words within stocks of a type do from a start state."""

    def __init__(self, table, start):
        self.start, self.operations = start, range(len(table.operations))
        # For each operation and state the pair of the operation and its response, as a bit, and the next state.
        self.steps = [[(1 << 16 * operation + response, after) for response, after in row] for operation, row in enumerate(table.rows)]
        self.known = {}

    def words(self, stock):
        """For each operation the words within the stock that begin with it: each state in which some of them end, with the pairs of an
        operation and a response that they show. The pairs of a state are bits of a number."""
        if stock not in self.known:
            self.known[stock] = self.longer_words(stock)
        return self.known[stock]

    def longer_words(self, stock):
        """The same, from the words within the stocks with one operation less: a word is one of these, and a last operation behind it."""
        found = {}
        for last in filter(stock.__getitem__, self.operations):
            steps = self.steps[last]
            shown, after = steps[self.start]
            into = found.setdefault(last, {})
            into[after] = into.get(after, 0) | shown
            for first, ends in self.words(without(stock, last)).items():
                into = found.setdefault(first, {})
                for state, pairs in ends.items():
                    shown, after = steps[state]
                    into[after] = into.get(after, 0) | pairs | shown
        return found

    def are_joined(self, one, other):
        """Whether words of two kinds show some operation the same response and the same last state."""
        return any(pairs & other.get(state, 0) for state, pairs in one.items())

    def splits(self, stock):
        """Whether the operations of the stock fall into two parts, none of one joined with one of the other."""
        words = self.words(stock)
        first, *others = words
        part = [first]
        for one in part:
            joined = [it for it in others if self.are_joined(words[one], words[it])]
            part += joined
            others = [it for it in others if it not in joined]
        return bool(others)

    def records(self, stock):
        """Whether the operations of the stock fall into two parts so that the state tells in which of them a word begins. Words of one
        part come back to the start state only if the other part is one operation alone."""
        words = self.words(stock)
        for part in parts(list(words)):
            left = [{state for first in part[side] for state in words[first]} for side in (0, 1)]
            if left[0].isdisjoint(left[1]) and not any(self.is_way_back(left[side], stock, part[1 - side]) for side in (0, 1)):
                return True
        return False

    def is_way_back(self, left, stock, other):
        """Whether words of one part leave the start state, and the other part has two operations or more."""
        return self.start in left and sum(stock[operation] for operation in other) > 1

    def levels(self):
        """The stocks of two operations that split, those of three, and so on as long as there are some. A stock of three operations or more
        that splits has two in one part. Without one of these the rest splits too, so each level comes from the one before."""
        one_each = itertools.combinations(self.operations, 2)
        level = list(filter(self.splits, (tuple(int(it in pair) for it in self.operations) for pair in one_each)))
        while level:
            yield level
            level = list(filter(self.splits, {one_more(stock, it) for stock in level for it in self.operations}))


def without(stock, operation):
    """The stock with the operation once less."""
    return (*stock[:operation], stock[operation] - 1, *stock[operation + 1:])


def one_more(stock, operation):
    """The stock with the operation once more."""
    return (*stock[:operation], stock[operation] + 1, *stock[operation + 1:])


def parts(operations):
    """All ways to part operations into two parts, both with some. The first operation is in the first part."""
    first, *others = operations
    for size in range(len(others)):
        for more in itertools.combinations(others, size):
            yield (first, *more), [it for it in others if it not in more]


def tell_two(table, start, operations):
    """Whether two processes with these operations, in different teams, have no pair in the outcome sets of both teams."""
    seen = set(), set()
    for order in ([0], [1], [0, 1], [1, 0]):
        state, got = start, []
        for process in order:
            response, state = table.act(operations[process], state)
            got.append((process, response))
        seen[order[0]].update((*pair, state) for pair in got)
    return seen[0].isdisjoint(seen[1])


def can_two_tell(table):
    """Whether the type is 2-discerning. Two processes may have one operation."""
    states, operations = range(len(table.states)), range(len(table.operations))
    return any(tell_two(table, start, pair) for start in states for pair in itertools.combinations_with_replacement(operations, 2))


def numbers(table, most, kind=Stocks):
    """The greatest numbers up to `most` for which the type is n-discerning, and for which it is n-recording; else 1. A stock that records
    splits too."""
    number, recoverable = 2 if can_two_tell(table) else 1, 1
    for start in range(len(table.states)):
        stocks = kind(table, start)
        for size, level in zip(range(2, most + 1), stocks.levels()):
            number = max(number, size if size > 2 else 1)
            if size > recoverable and any(map(stocks.records, level)):
                recoverable = size
    return number, recoverable
