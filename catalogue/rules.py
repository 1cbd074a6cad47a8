"""Rules that give the number of a type, its recoverable number and that without reads, from its table alone, without a search.

They share nothing with the program: they are here so that the numbers in `expected` stand on more than
one leg. Each is said in README.md, under "Rules that give a number", with its reason or its law.
"""
import math
import tomllib


class Type:
    """A type table, its states, responses and operations by number: rows[operation][state] = (response, next state)."""

    def __init__(self, text):
        table = tomllib.loads(text)
        self.name, self.states, self.responses = table["name"], table["states"], table["responses"]
        self.operations = [o["name"] for o in table["operation"]]
        self.rows = [
            [(self.responses.index(r), self.states.index(s)) for r, s in zip(o["response"], o["next"])] for o in table["operation"]
        ]

    def starts(self):
        """Each start state with two operations, the rows of a process of team A and of one of team B."""
        return [(s, f, g) for s in range(len(self.states)) for f in self.rows for g in self.rows]


def interfere(s, f, g):
    """True where, from state s, f and g lead to one state in both orders, or one of them leads where it leads after the other."""
    after_f, after_g = f[s][1], g[s][1]
    return len({f[after_g][1], g[after_f][1]}) == 1 or f[after_g][1] == after_f or g[after_f][1] == after_g


def interferes(a_type):
    """True where any two operations interfere in every state."""
    return all(interfere(*start) for start in a_type.starts())


def two_can_tell(a_type):
    """True where two processes can tell which of them was first: from some state, with some operations."""
    return any(tells(s, f, g) and tells(s, g, f) for s, f, g in a_type.starts())


def tells(s, f, g):
    """True where the process that does f can tell whether it was before g, from its response and the state afterwards."""
    first, second = f[s], f[g[s][1]]
    return second not in (first, (first[0], g[first[1]][1]))


def one_against_many(a_type):
    """True where one process can be told from any number of processes that all do a second operation, by responses and states."""
    return any(tells_from_many(*start) for start in a_type.starts())


def operations_last(a_type):
    """True where two operations last from some state: the state alone tells for good whether the single one was first."""
    return any(state_tells_from_many(*start) for start in a_type.starts())


def led_to(states, g):
    """The states that any number of calls of g, none among them, lead to."""
    reached = list(states)
    for state in reached:
        reached += [g[state][1]] if g[state][1] not in reached else []
    return reached


def pairs(states, operation, g):
    """The pairs of a response and a last state where `operation` is done in one of the states, and then g any number of times."""
    return {(operation[x][0], last) for x in states for last in led_to([operation[x][1]], g)}


def tells_from_many(s, f, g):
    """True where, from state s, nobody has a pair both when the one that does f was first and when one of those that do g was."""
    before = led_to([g[s][1]], g)
    one_first, one_later = pairs([s], f, g), pairs(before, f, g)
    many_after = pairs(led_to([f[s][1]], g), g, g)
    late_one = led_to([f[x][1] for x in before], g)
    many_first = pairs([s] + before, g, g) | pairs(late_one, g, g)
    many_first |= {(g[x][0], last) for x in [s] + before for y in led_to([g[x][1]], g) for last in led_to([f[y][1]], g)}
    return not one_first & one_later and not many_after & many_first


def number(a_type):
    """The number by the rules: an integer, "infinite", or None where they do not say."""
    if one_against_many(a_type):
        return "infinite"
    if interferes(a_type):
        return 2 if two_can_tell(a_type) else 1
    return None


def state_tells(s, f, g):
    """True where the state alone tells which of two processes was first from state s, the one that does f or the one that does g."""
    after_f, after_g = f[s][1], g[s][1]
    return {after_f, g[after_f][1]}.isdisjoint({after_g, f[after_g][1]})


def state_tells_from_many(s, f, g):
    """True where the state alone tells for good whether one that does f was first from state s, or one of any number that do g."""
    one_first, before = led_to([f[s][1]], g), led_to([g[s][1]], g)
    many_first = led_to(before + [f[x][1] for x in before], g)
    return set(one_first).isdisjoint(many_first)


def recoverable_number(a_type):
    """The recoverable number by the rules: 1, "infinite", or None where they do not say."""
    if operations_last(a_type):
        return "infinite"
    return None if any(state_tells(*start) for start in a_type.starts()) else 1


def answers_nothing(a_type):
    """True where each operation has one response in all states."""
    return all(len({response for response, _ in row}) == 1 for row in a_type.rows)


def responses_tell_states(a_type):
    """True where an operation that gets one response in two states leads from them to one state."""
    return all(len({*row}) == len({response for response, _ in row}) for row in a_type.rows)


def number_without_reads(a_type, number):
    """The number without reads by the rules, for a type with this number; None where they do not say."""
    if answers_nothing(a_type):
        return 1
    return number if responses_tell_states(a_type) else None


def go_together(number, recoverable):
    """True where a type can have these two numbers: the second is at most the first, and from 4 on at least the first less 2; so
    both are infinite or none is."""
    number, recoverable = (math.inf if it == "infinite" else it for it in (number, recoverable))
    return recoverable <= number and (number < 4 or recoverable >= number - 2)


def is_within_states(a_type, number):
    """True where a type with so many states can have this number: a finite number is at most 2, or at most the number of states."""
    return number == "infinite" or number <= max(2, len(a_type.states))


def is_at_most(number, other):
    """True where a number is at most another one."""
    return other == "infinite" or number != "infinite" and number <= other


def faults(a_type, pair):
    """What the rules say against a number and a recoverable number of a type: one of them gives each that is infinite, and each recoverable number that is 1."""
    for told, by_rule, always in zip(pair, (number(a_type), recoverable_number(a_type)), (["infinite"], [1, "infinite"])):
        if by_rule != told and (by_rule or told in always):
            yield f"the rules give {by_rule}, and not {told}"
    if not go_together(*pair):
        yield f"no type has number {pair[0]} and recoverable number {pair[1]}"
    if not is_within_states(a_type, pair[0]):
        yield f"no type with {len(a_type.states)} states has number {pair[0]}"
    if one_against_many(a_type) != operations_last(a_type):
        yield "responses tell one from many where the state does not"


def faults_without_reads(a_type, number, without_reads):
    """What the rules say against a number without reads of a type with this number: one of them gives each that is 1."""
    by_rule = number_without_reads(a_type, number)
    if by_rule != without_reads and (by_rule or without_reads == 1):
        yield f"the rules give {by_rule} without reads, and not {without_reads}"
    if not is_at_most(without_reads, number):
        yield f"no type with number {number} has {without_reads} without reads"
