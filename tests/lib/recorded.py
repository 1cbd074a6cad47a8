"""What `why --recoverable` writes, as text, as JSON and in Markdown, made from a table alone: why the state of an object tells for good which of
two teams moved first, for as many processes as the recoverable number, and for one more why no choice does.

An order of a team is one that begins in it. Of the orders of a team that leave a state, the first one counts: the shorter one comes first, and of
two of one length the one that is first by its processes. Of the states that orders of both teams leave, the first one counts, by its number.
"""
import itertools
import json

from explanations import processes, steps, with_no_limit
from texts import WIDEST, folded, grid, members

TEAMS = A, B = 0, 1
NAMES = "AB"
MOST_TOLD = 12


def first_orders(table, choice):
    """For each team the states that its orders leave, each with the first order that leaves it. In such an order, processes of one team with one
    operation move in the order of their numbers, since it makes no difference which of them moves. And of the orders of one team that have the same
    processes and leave the same state only the first goes on, since what goes on from another one goes on from it too."""
    start, a, b = choice
    kinds = [(A, operation) for operation in a] + [(B, operation) for operation in b]
    left, level = ({}, {}), {(None, frozenset(), start): ()}
    while level:
        longer = {}
        for (team, moved, state), order in level.items():
            for process in {kinds[it]: it for it in reversed(range(len(kinds))) if it not in moved}.values():
                key = kinds[process][0] if team is None else team, moved | {process}, table.act(kinds[process][1], state)[1]
                longer[key] = min(longer.get(key, (len(kinds),)), (*order, process))
        for (team, _, state), order in longer.items():
            if len(left[team].setdefault(state, order)) == len(order):
                left[team][state] = min(left[team][state], order)
        level = longer
    return left


def reason(table, choice):
    """Why a choice is no recording witness: the state, and the first order of each team that leaves it, or no step; or None if it is one.
    A state of both teams comes before a way back to the start state, and a way back of team A before one of team B."""
    (start, a, b), left = choice, first_orders(table, choice)
    common = sorted(left[A].keys() & left[B].keys())
    if common:
        return common[0], left[A][common[0]], left[B][common[0]]
    if len(b) > 1 and start in left[A]:
        return start, left[A][start], ()
    if len(a) > 1 and start in left[B]:
        return start, (), left[B][start]
    return None


def live_choices(table, n):
    """The choices for n processes in canonical form in which each operation leads away from the start state, in order."""
    for start, size in itertools.product(range(len(table.states)), range(1, n // 2 + 1)):
        live = [o for o in range(len(table.operations)) if table.act(o, start)[1] != start]
        for a in itertools.combinations_with_replacement(live, size):
            for b in itertools.combinations_with_replacement(live, n - size):
                if size < n - size or a <= b:
                    yield start, a, b


def first_witness(table, n):
    """The first recording witness for n processes, if there is one."""
    return next((it for it in live_choices(table, n) if reason(table, it) is None), None)


class Explanation:
    """What there is to tell of a type with this recoverable number in words, if so many processes are searched: the first witness for as many as the
    number, with the states that orders of each team leave; and for one more the choices, each with the reason why it is no witness."""

    def __init__(self, table, words, limit):
        self.table, self.words, self.witness, self.left, self.refuted = table, words, None, None, None
        n = limit if words == "infinite" else min(int(words), limit)
        if n > 1:
            self.witness = first_witness(table, n)
            self.left = first_orders(table, self.witness)
        self.more = None if words == "infinite" else int(words) + 1
        if self.more and self.more <= limit:
            self.refuted = [(it, reason(table, it)) for it in live_choices(table, self.more)]
            assert all(why for _, why in self.refuted)

    def told(self, tell_all):
        """The choices that are told, and how many are not."""
        told = self.refuted if tell_all else self.refuted[:MOST_TOLD]
        return told, len(self.refuted) - len(told)

    def start_team(self):
        """The team whose orders also leave the start state of the witness, in which no process has moved yet; or None. The other team is one process."""
        team = next((team for team in TEAMS if self.witness[0] in self.left[team]), None)
        assert team is None or len(self.witness[2 - team]) == 1
        return team

    def states(self, team):
        """The states that orders of the team leave."""
        return [self.table.states[it] for it in sorted(self.left[team])]

    def start_words(self, place, behind):
        """Where the start state of the witness stands."""
        state, team = self.table.states[self.witness[0]], self.start_team()
        if team is None:
            return f"No step yet: the state is {state}, which is in neither {place}."
        other = len(self.witness[1]) if team == A else 0
        alone = f"p{other}, alone in team {NAMES[1 - team]}, reads the register of team {NAMES[team]} before it moves"
        return f"No step yet: the state is {state}, which is also in the {place} of team {NAMES[team]}{behind} {alone}."

    # As text

    def why(self):
        """The lines that tell why the number is not less."""
        if self.witness is None:
            return ["One process alone agrees with itself, so the number is at least 1."]
        start, a, b = self.witness
        n = len(a) + len(b)
        first = members(self.table, a + b, " (team A)", range(len(a)))
        second = members(self.table, a + b, " (team B)", range(len(a), n))
        return [
            *([f"For {n} processes, say:"] if self.words != str(n) else []),
            f"Why {n}: from state {self.table.states[start]}, {first}, {second}.",
            f"  A first: the state is one of {' '.join(self.states(A))}",
            f"  B first: the state is one of {' '.join(self.states(B))}",
            f"  {self.start_words('list', ';')}",
            "  No state is in both lists, so the state alone tells for good which team was first.",
        ]

    def run_line(self, choice, team, order):
        """A run, step by step."""
        start, a, b = choice
        line, state = f"       {f'{team} first:' if order else 'no step:'}  {self.table.states[start]}", start
        for process in order:
            operation = (a + b)[process]
            state = self.table.act(operation, state)[1]
            line += f" --p{process} {self.table.operations[operation]}--> {self.table.states[state]}"
        return line

    def way(self, number, choice, why_not):
        """The lines of a choice that is no recording witness."""
        (start, a, b), (state, alpha, beta) = choice, why_not
        first, second = (members(self.table, a + b, "", numbers) for numbers in (range(len(a)), range(len(a), len(a + b))))
        names = self.table.states
        return [
            f"  {number}. start {names[start]}; A: {first}; B: {second}        both leave {names[state]}:",
            self.run_line(choice, "A", alpha),
            self.run_line(choice, "B", beta),
        ]

    def why_not(self, tell_all):
        """The lines that tell why the number is not more."""
        if self.more is None:
            return ["It is so for each number of processes: this is proved (docs/PROVED.md)."]
        proved = f"No protocol at all does it for {self.more}: this is proved (docs/PROVED.md)."
        if self.refuted is None:
            count = len(self.table.states)
            why = f"it has {count} states and no two operations that last." if self.more > count else "its ways are not listed here."
            return [f"Why not {self.more}: {why}", proved]
        count, (told, others) = len(self.refuted), self.told(tell_all)
        ways = "to choose a start state, operations and teams"
        counts = {0: f"no way {ways} is left.", 1: f"1 way {ways}; in it the state does not tell."}
        return [
            f"Why not {self.more}: " + counts.get(count, f"{count} ways {ways}; in each the state does not tell."),
            *itertools.chain.from_iterable(self.way(place, *it) for place, it in enumerate(told, 1)),
            *([f"  and {others} more (--all tells them)"] if others else []),
            "  Ways that differ only in the numbers of the processes or the names of the teams count as one.",
            "  Ways in which an operation leaves the start state unchanged cannot work, and are left out.",
            proved,
        ]

    def text(self, tell_all):
        fold = lambda lines: list(itertools.chain.from_iterable(map(folded, lines)))
        head = f"{self.table.name}: recoverable consensus number {self.words} (for processes that can read the whole state)"
        lines = [*folded(head), "", *grid(self.table), "", *fold(self.why()), "", *fold(self.why_not(tell_all))]
        assert all(len(line) <= WIDEST for line in lines if line not in grid(self.table))
        return "".join(f"{line}\n" for line in lines)

    # As JSON

    def refuted_value(self, choice, why_not):
        """A choice that is no recording witness, with two runs."""
        (start, a, b), (state, alpha, beta) = choice, why_not
        told = {"processes": processes(self.table, a, b), "start": self.table.states[start], "state": self.table.states[state]}
        return {**told, "a_first": steps(self.table, start, a + b, alpha), "b_first": steps(self.table, start, a + b, beta)}

    def value(self, tell_all):
        witness = refuted = None
        if self.witness:
            start, a, b = self.witness
            team = self.start_team()
            witness = {"a_states": self.states(A), "b_states": self.states(B), "processes": processes(self.table, a, b)}
            witness |= {"start": self.table.states[start], "start_team": None if team is None else NAMES[team]}
        if self.refuted is not None:
            refuted = {"choices": [self.refuted_value(*it) for it in self.told(tell_all)[0]], "count": len(self.refuted)}
        value = {"name": self.table.name, "number": with_no_limit(self.words), "refuted": refuted, "witness": witness}
        return json.dumps(value, sort_keys=True, separators=(",", ":")) + "\n"

    # In Markdown

    def team_row(self, team):
        """The row of a team of the witness."""
        _, a, b = self.witness
        numbers = range(len(a)) if team == A else range(len(a), len(a + b))
        return row([NAMES[team], members(self.table, a + b, "", numbers), " ".join(self.states(team))])

    def witness_part(self):
        if self.witness is None:
            return self.why()
        start, a, b = self.witness
        head = f"{len(a + b)} processes: from state {self.table.states[start]}, the state alone tells for good which team was first."
        rows = [*heads(["Team", "Processes", "Team first: the state is one of"]), self.team_row(A), self.team_row(B)]
        return [head, "", *rows, "", self.start_words("row", ":")]

    def no_more_part(self):
        if self.more is None:
            return "It is so for each number of processes."
        if self.refuted is None:
            return f"{self.more} processes: the choices are not listed here."
        count, choices = len(self.refuted), "of a start state, operations and teams"
        counts = {0: f"no choice {choices} is left.", 1: f"in the 1 choice {choices}, the state does not tell."}
        return f"{self.more} processes: " + counts.get(count, f"in each of the {count} choices {choices}, the state does not tell.")

    def markdown(self):
        table = self.table
        cells = [[f"{table.responses[response]}>{table.states[after]}" for response, after in steps] for steps in table.rows]
        grid = [*heads(["response > next state", *table.states]), *(row([name, *it]) for name, it in zip(table.operations, cells))]
        number = [row(["Type", "Recoverable consensus number"]), "| --- | ---: |", row([table.name, self.words])]
        return "".join(f"{line}\n" for line in [*number, "", *grid, "", *self.witness_part(), "", self.no_more_part()])


def row(cells):
    """A row of a table in Markdown."""
    return f"| {' | '.join(cells)} |"


def heads(names):
    """The head of a table in Markdown, with the line below it."""
    return row(names), row(["---"] * len(names))
