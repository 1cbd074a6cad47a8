#!/usr/bin/env python3
"""usage: check.py TABLE CERTIFICATE | TABLE --infinite STATE ONE MANY
Checks a certificate for the consensus number of a type, with reads or without, or of a plan tree, or that the number is infinite. Prints `ok`, with
status 0, or what is wrong, with status 1. Needs Python 3.11 alone. Follows docs/FORMATS.md and docs/DEFINITIONS.md, with no line of the program."""
import collections, itertools, json, pathlib, re, sys, tomllib
MOST_STATES, MOST_RESPONSES, MOST_OPERATIONS = 16, 16, 8
flat = lambda it: [leaf for inner in it for leaf in flat(inner)] if type(it) is list else [it]
def demand(holds, wrong):
    if not holds: raise ValueError(wrong)
def are_numbers(*lists):  # Python takes True and 1.0 for 1; a certificate does not
    return all(type(them) is list and all(type(it) is int and it >= 0 for it in them) for them in lists)
def names(them, most):
    demand(type(them) is list and 1 <= len(set(them)) == len(them) <= most, f"none, too many, or one twice: {them}")
    demand(all(re.fullmatch("[a-z0-9_]{1,32}", it) for it in them), f"a name that is none: {them}")
    return them

class Type:  # states, operations, processes and entries have numbers, from 0
    def __init__(self, table):
        rows, self.states, responses = table["operation"], names(table["states"], MOST_STATES), names(table["responses"], MOST_RESPONSES)
        demand(len(table) == 4 and all(len(row) == 3 for row in rows), "the table has another key")
        [self.name], self.operations, n = names([table["name"]], 1), names([it["name"] for it in rows], MOST_OPERATIONS), len(self.states)
        for key, row in itertools.product(("response", "next"), rows):
            demand(type(row[key]) is list and len(row[key]) == n, f"a row is not as long as the states: {row[key]}")
        # act[o][s] is what operation o does in state s: its response and the next state.
        self.act = [[(responses.index(r), self.states.index(s)) for r, s in zip(it["response"], it["next"])] for it in rows]
    def run(self, state, operations, order):  # the processes of an order do their operations, one after the other
        responses = {}
        for p in order:
            responses[p], state = self.act[operations[p]][state]
        return responses, state
    def is_witness(self, start, a, b, look=lambda state: state):  # by its response and the last state, each process tells which team was first
        seen, n = {True: set(), False: set()}, len(a + b)  # in orders that begin in team A, and in others
        for order in itertools.chain(*(itertools.permutations(range(n), size + 1) for size in range(n))):
            responses, state = self.run(start, a + b, order)
            seen[order[0] < len(a)] |= {(p, responses[p], look(state)) for p in order}
        return not seen[True] & seen[False]
    def is_collision(self, start, a, b, p, alpha, beta):  # A begins alpha, B begins beta, and p sees the same in both
        orders = all(set(it) <= set(range(len(a + b))) and len(set(it)) == len(it) and p in it for it in (alpha, beta))
        (one, last), (two, end) = (self.run(start, a + b, it if orders else []) for it in (alpha, beta))
        return orders and alpha[0] < len(a) <= beta[0] and (one[p], last) == (two[p], end)
    def choices(self, n, version):  # for n processes; other numbers of them, or names of teams, make no other choice
        for start, size in itertools.product(range(len(self.states)), range(1, n // 2 + 1)):
            # No witness has an operation that keeps the start state. Version 1 lists these choices too.
            some = [o for o, row in enumerate(self.act) if version == 1 or row[start][1] != start]
            teams = (itertools.combinations_with_replacement(some, it) for it in (size, n - size))
            yield from ([start, [*a], [*b]] for a, b in itertools.product(*teams) if size < n - size or a <= b)
    def check(self, certificate):  # a witness for the number; none for one process more, and so none for still more
        others = {3: self.check_stocks, 4: lambda it: Unread(self).check(it), 5: self.check_tree}
        if certificate["version"] in others: return others[certificate["version"]](certificate)
        demand([*sorted(certificate)] == "collisions limit number type version witness".split(), "another key")
        entries, limit, number, name, version, witness = (certificate[key] for key in sorted(certificate))
        demand(name == self.name and type(entries) is list, "the type, or the collisions")
        demand(are_numbers([version, limit]) and version in (1, 2) and 2 <= limit <= 4 + 2 * version, "version or limit")
        demand(number is None or are_numbers([number]) and 2 <= number <= limit, "the number")
        demand((number is None) == (witness is None), "a number without a witness, or a witness without a number")
        start, a, b = witness or (0, [], [])
        known = are_numbers([start], a, b) and start < len(self.states) and max(a + b, default=0) < len(self.act)
        demand(known and len(a + b) == (number or 0), "the witness is no choice for so many processes")
        demand(number is None or a and b and self.is_witness(start, a, b), "in the witness some process cannot tell")
        choices = self.choices((number or 1) + 1, version) if number != limit else []
        for i, (choice, entry) in enumerate(itertools.zip_longest(choices, entries)):
            demand(type(entry) is list and entry[:3] == choice, f"entry {i} is not of the next choice, {choice}")
            demand(are_numbers(entry[:6:3], *entry[1:3], *entry[4:]) and self.is_collision(*entry), f"entry {i}: no collision")
    def bounds_of(self, certificate):  # what a certificate says of a least and a greatest number: the numbers, and what shows each
        demand([*sorted(certificate)] == "at_least at_most least most type version".split(), "another key")
        low, high, least, most, name, version = (certificate[key] for key in sorted(certificate))
        demand(name == self.name and are_numbers([version, low or 0, high or 0]) and low is not False is not high, "the type, or a number")
        [(key, shown)] = [(None, [])] if least is None else least.items()
        demand((high is None or low and low <= high) and low != 0, "the bounds")
        return low, high, key, shown, most
    def check_stocks(self, certificate):  # a witness, or operations that last; and joins that leave the operations of each stock of one more in one part
        low, high, key, shown, most = self.bounds_of(certificate)
        demand(max(low or 0, high or 0) <= MOST_STATES and (most is None) == (high is None), "the bounds")
        demand(are_numbers(numbers := flat([shown, [] if most is None else most])) and max(numbers, default=0) < 256, "a number of the evidence")
        ways = {None: lambda: low == 1, "witness": lambda: self.tells(low, *shown), "lasting": lambda: low is None and self.last(*shown)}
        demand(ways[key](), "the lower bound is not shown")
        for place, join in enumerate(most or []):
            demand(self.is_join(*join), f"join {place}: none")
        demand(high != 1 or all(row[last][0] == response for row in self.act for response, last in row), "one operation tells two processes")
        firsts = [o for o, row in enumerate(self.act) if row not in self.act[:o]]  # without copies: what does all that an earlier operation does
        for start in range(len(self.states)) if high else ():
            needs = [(collections.Counter(one) | collections.Counter(two), one[0], two[0]) for q, one, _, two, _ in most if q == start and {*one, *two} <= {*firsts}]
            self.connect(needs, [], firsts, high + 1)
    def tells(self, n, start, a, b):  # each team has other operations; each operation sees which team was first, whatever words within all of them are done
        self.check_known(start, a, b)
        if n == 2: return len(a) == len(b) == 1 and self.is_witness(start, a, b)
        if len(a + b) != n or not a or not b or {*a} & {*b}: return False
        all_of, ends = collections.Counter(a + b), {True: set(), False: set()}
        for side, firsts in ((True, a), (False, b)):  # a scene: the operations that are done, the state, and what was asked, with its response
            new = {(frozenset({o: 1}.items()), last, asked) for o in firsts for response, last in [self.act[o][start]] for asked in (None, (o, response))}
            while new:
                ends[side] |= {(last, asked) for _, last, asked in new if asked}
                new = {(frozenset({**dict(done), o: dict(done).get(o, 0) + 1}.items()), last, now) for done, state, asked in new for o in all_of
                       if dict(done).get(o, 0) < all_of[o] for response, last in [self.act[o][state]] for now in {asked, asked or (o, response)}}
        return not ends[True] & ends[False]
    def last(self, start, many, single, alone, behind, first):  # `many` keeps each of the sets; none of the last one is in another
        self.check_known(start, [many, single], [])
        after = lambda o, states: {self.act[o][state][1] for state in states}
        closed = all(max(it) < len(self.states) and after(many, it) <= {*it} for it in (alone, behind, first))
        begun = start in alone and after(single, after(many, alone)) <= {*behind} and after(single, [start]) <= {*first}
        return many != single and closed and begun and not {*first} & {*alone, *behind}
    def check_known(self, start, *lists):  # a state, and operations
        demand(start < len(self.states) and all(o < len(self.act) for them in lists for o in them), "a state or an operation that is none of the type")
    def is_join(self, start, one, i, two, j):  # from the state, two words show an operation the same response and the same last state
        self.check_known(start, one, two)
        demand(i < len(one) and j < len(two) and one[i] == two[j], "a place that is none, or two operations")
        (shown, last), (other, end) = (self.run(start, word, range(len(word))) for word in (one, two))
        return (shown[i], last) == (other[j], end)
    def connect(self, needs, there, others, left):  # all stocks with these operations and so many more of the others, no two of one row of next states
        if not others:
            part = {*there[:1]}
            while more := {x for _, *pair in needs for x in pair if part & {*pair}} - part: part |= more
            return demand(part >= {*there}, f"joins do not connect {there}")
        for count in range(0 if others[1:] else left, 1 + left * all(any(x[1] != y[1] for x, y in zip(self.act[others[0]], self.act[it])) for it in there)):
            self.connect([it for it in needs if it[0][others[0]] <= count], there + others[:1] * (count > 0), others[1:], left - count)
    def is_team_witness(self, start, look, operations, team_of):  # by its response, and by what it sees of the last state, each process tells the first team
        seen = [look and q if type(look) is bool else self.act[look][q][0] for q in range(len(self.states))]
        told, everyone = {}, range(len(operations))  # what a process has seen, and the team that was first then
        for order in itertools.chain(*(itertools.permutations(everyone, size + 1) for size in everyone)):
            responses, state = self.run(start, operations, order)
            if any(told.setdefault((p, responses[p], seen[state]), team_of[order[0]]) != team_of[order[0]] for p in order): return False
        return True
    def check_tree(self, certificate):  # a tree of witnesses for so many processes, which takes each of them so many steps at most
        demand([*sorted(certificate)] == "nodes processes steps type version".split(), "another key")
        nodes, processes, steps, name, version = (certificate[key] for key in sorted(certificate))
        demand(name == self.name and type(nodes) is list and are_numbers([processes, steps, version]), "the type, or a number")
        left = iter(nodes)
        def steps_of(size):  # of a process at the next node, which has this size, and at those below
            start, look, operations, teams = next(left, [0, 0, [], []])
            demand((type(look) is bool or are_numbers([look])) and are_numbers([start], operations, teams) and sum(teams) == size and len(teams) > 1, "no node of a tree")
            demand(all(teams) and len(operations) == size, "a team of no process, or not an operation for each process")
            demand(start < len(self.states) and max(operations) < len(self.act), "a state or an operation that is none of the type")
            silent = [row for row in self.act if all(last == state for state, (_, last) in enumerate(row))]
            demand(type(look) is bool or look < len(self.act) and self.act[look] in silent, "a look that changes a state")
            team_of = [team for team, members in enumerate(teams) for _ in range(members)]
            demand(self.is_team_witness(start, look, operations, team_of), "at a node some process cannot tell")
            return 3 + (look is not False) + max(steps_of(members) if members > 1 else 0 for members in teams)
        demand(2 <= processes <= 8 and steps == steps_of(processes), "the processes, or the steps")
        demand(not [*left], "more nodes than the tree has")
    def check_infinite(self, start, one, many):  # the last state tells if `one` was first, however many do `many`
        start, one, many = self.states.index(start), self.operations.index(one), self.operations.index(many)
        times = [[many] * k for k in range(len(self.states) + 1)]  # one more leads to no other state
        last = lambda orders: {self.run(start, it, range(len(it)))[1] for it in orders}
        others = times + [[many, *some, one, *more] for some in times for more in times]
        demand(one != many and not last([one, *more] for more in times) & last(others), "a state is left both ways")

class Unread(Type):  # a type that is not read, with one state for all that no operations tell apart, in the order of the first ones
    def __init__(self, kind):
        state_of, least = [0] * len(kind.states), 0
        while len(set(state_of)) > least:  # states that an operation tells apart go to two classes
            least, new, answers = len(set(state_of)), {}, [[(r, state_of[s]) for r, s in row] for row in kind.act]
            state_of = [new.setdefault(row, len(new)) for row in zip(state_of, *answers)]
        self.name, self.states = kind.name, [state_of.index(it) for it in range(least)]
        self.act = [[(row[it][0], state_of[row[it][1]]) for it in self.states] for row in kind.act]
    def visible(self, n, start, a, b):  # operations that change nothing tell of the last state what they can
        looks = [row for row in self.act if all(last == state for state, (_, last) in enumerate(row))]
        return a and b and len(a + b) == n and self.is_witness(start, a, b, lambda state: tuple(row[state][0] for row in looks))
    def further(self, n, start, a, b, then):  # one further operation, by its response, shows each process which team was first
        next_of = {(o,): o for o in a + b} | {(o, response): more for o, response, more in reversed(then)}  # the first one counts
        each, scenes = [*enumerate(a + b)], (new := {(start, ((),) * n, None)})  # what each process has got, and whether team A was first
        while new := {(last, (*got[:p], (*got[p], response), *got[p + 1:]), p < len(a) if was_a is None else was_a) for state, got, was_a in new
                      for p, own in each if (own, *got[p]) in next_of for response, last in [self.act[next_of[own, *got[p]]][state]]} - scenes:
            scenes = scenes | new
        ends = {(p, got[p], was_a) for _, got, was_a in scenes for p, own in each if (own, *got[p]) not in next_of}
        return a and b and len(a + b) == n and all(self.act[it[2]] for it in then) and not any((*it, not was_a) in ends for *it, was_a in ends)
    def signs(self, n, start, one, many, then, side):  # all do `many`, but one; then all look for a response that comes only if this side was first
        after = lambda states, *them: {self.act[o][s][1] for s in states for o in them}
        grown = lambda states: states if (more := states | after(states, many, *then)) == states else grown(more)
        own, other = [grown(after({start}, one)), (rest := grown(after({start}, many))) | grown(after(rest, one))][::1 if side == "A" else -1]
        shown = lambda o, s: self.act[o][s][0] not in {self.act[o][it][0] for it in other}
        left = {s: {self.act[o][s][1] for o in then if not shown(o, s)} - {s} for s in own}
        while ends := {s for s in left if not left[s] & left.keys()}:  # changes without a sign come to an end
            left = {s: left[s] for s in left.keys() - ends}
        return n is None and len(then) <= 8 and not left and all(any(shown(o, s) or self.act[o][s][1] != s for o in then) for s in own)
    def is_trap(self, n, turns):  # two runs that processes do not tell apart: each move leads back, and each choice begins in the trap
        boards = collections.defaultdict(list)
        for first, second, standings, p, run in turns:  # a process is lost, poised, or ahead in a run, with its response there
            known = all(self.act[o][state] for it in standings for o in it[:1] for state in (first, second)) and p < len(standings) <= 8
            demand(known and standings[p] and run in (1, 2) and {(len(it), *it[2:]) for it in standings} <= {(0,), (1,), (3, 1), (3, 2)}, "a turn")
            boards[first, second].append(collections.Counter(map(tuple, standings)))
        def is_caught(*states, them):
            return len({*states}) == 1 in map(len, them) or any(some <= collections.Counter(map(tuple, them)) for some in boards[states])
        def leads_back(first, second, standings, p, run):
            (o, *ahead), run = standings[p], 3 - standings[p][2] if standings[p][1:] else run
            response, last = self.act[o][second if run == 2 else first]
            new = [[o, response, run]] if not ahead else [[m] for m in range(len(self.act))] if ahead[0] == response else [[]]
            return all(is_caught(*[(last, second), (first, last)][run - 1], them=[*standings[:p], it, *standings[p + 1:]]) for it in new)
        def begins(start, a, b, p, q):
            (one, first), (two, second), others = self.act[a[p]][start], self.act[b[q]][start], a[:p] + a[p + 1:] + b[:q] + b[q + 1:]
            return is_caught(first, second, them=[[a[p], one, 1], [b[q], two, 2], *([o] for o in others)])
        starts = ([(start, a, b, p, q) for p in range(len(a)) for q in range(len(b))] for start, a, b in self.choices(n, 4))
        return all(leads_back(*it) for it in turns) and all(any(begins(*it) for it in some) for some in starts)
    def check(self, certificate):
        low, high, key, shown, most = self.bounds_of(certificate)
        demand((low or 1) <= 8 and (high or 1) <= 7, "the bounds")
        numbers = flat([shown[:4], [] if most is None else most])
        demand(are_numbers(numbers) and max(numbers, default=0) < 256 and shown[4:] in ([], ["A"], ["B"]), "a number of the evidence")
        ways = {None: lambda n: n == 1, "visible": self.visible, "further": self.further, "signs": self.signs}
        demand(ways[key](low, *shown), "the lower bound is not shown")
        demand(high is None and most is None or self.is_trap(high + 1, most), "the upper bound is not shown")

def value_of(text):  # of JSON whose numbers are no greater than a float can be, with no half of a character, and nested 127 deep at most
    number = lambda it: demand(abs(float(it)) < float("inf"), f"no such number: {it}") or (int(it) if it.isdigit() else float(it))
    demand(max(itertools.accumulate(1 if it in "[{" else -1 for it in re.findall(r"[][{}]", re.sub(r'"(?:[^"\\]|\\.)*"', "", text))), default=0) < 128, "nested too deep")
    return json.loads(text, parse_int=number, parse_float=number, parse_constant=number, object_pairs_hook=lambda it: json.dumps(it, ensure_ascii=False).encode() and dict(it))

def fault(table, *words):  # what is wrong, or None
    read = lambda name: pathlib.Path(name).read_bytes().decode()
    try:
        kind, is_infinite = Type(tomllib.loads(read(table))), words[0] == "--infinite"
        kind.check_infinite(*words[1:]) if is_infinite else kind.check(value_of(read(*words)))
    except (AttributeError, LookupError, OSError, RecursionError, TypeError, ValueError) as wrong:
        return f"wrong: {wrong}"

if __name__ == "__main__":
    sys.exit(print(__doc__) if sys.argv[1:] == ["--help"] else __doc__ if len(sys.argv) < 3 else fault(*sys.argv[1:]) or print("ok"))
