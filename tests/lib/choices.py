"""How many choices of a start state, operations and teams a type has, and for how many processes `find` goes through them."""
import math

MOST_CHOICES = 100_000
GREATEST_LIMIT = 8


def count(states, operations, n):
    """The number of canonical choices for n processes."""
    lists = lambda k: math.comb(operations + k - 1, k)
    below = sum(lists(k) * lists(n - k) for k in range(1, (n + 1) // 2))
    return states * (below + (lists(n // 2) * (lists(n // 2) + 1) // 2 if n % 2 == 0 else 0))


def greatest_limit(table):
    """The greatest limit that `find` takes for a type."""
    return max(n for n in range(2, GREATEST_LIMIT + 1) if count(len(table.states), len(table.operations), n) <= MOST_CHOICES)
