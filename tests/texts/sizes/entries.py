"""`check` and `explain` of certificates with many entries, as they are written and with a space in them; and the greatest numbers
in the faults of entries."""
import dataclasses
import itertools
import json
import random
import re
import tempfile

import counts
import judge
from calls import TYPES, answer, called, fault
from plans import accepted
from table import Table
from tables import blind, shots

OK = answer("ok\n")
# Types and limits whose certificates have many entries, and how many.
FOUND = [("shots_16_4", 8, 46_054), ("shots_14_8", 5, 84_204)]


def text(value):
    """The written text of a value in JSON."""
    return json.dumps(value, separators=(",", ":"), sort_keys=True)


@dataclasses.dataclass(frozen=True)
class Certificate:
    """The text of a certificate, with the texts of its entries."""

    entries: list
    behind: str  # the text behind the entries

    def text(self):
        return f'{{"collisions":[{",".join(self.entries)}]{self.behind}'

    def spaced(self):
        """The same in other spellings: with a space among the entries, at the beginning and at the end."""
        first, k = '{"collisions":[', len(self.entries) // 2
        yield f'{first}{",".join(self.entries[:k])}, {",".join(self.entries[k:])}]{self.behind}'
        yield f" {self.text()}"
        yield f"{self.text()} "

    def changed(self, places):
        """The certificate with another entry at these places, with one more and with one less, and what `check` says of each."""
        for i in places:
            for entry, said in zip(others(self.entries[i]), ("6 NotNext", "7 NotACollision")):
                yield f"entry {i}", Certificate([*self.entries[:i], entry, *self.entries[i + 1 :]], self.behind), f"check: {said} {i}"
        yield "one more", Certificate(self.entries + self.entries[-1:], self.behind), f"check: 6 NotNext {len(self.entries)}"
        yield "one less", Certificate(self.entries[:-1], self.behind), "check: 8 TooFew"


def others(entry):
    """An entry of another choice, and one with no collision."""
    state, a, b, *collision = json.loads(entry)
    return text([state, a, [*b[:-1], (b[-1] + 1) % 8], *collision]), text([state, a, b, *collision[:2], collision[2][:-1]])


def collision(state, n):
    """A process and two orders that it cannot tell apart, in any choice for n processes of a type that `shots` makes for n-1. Behind
    the first state all operations are alike, so the second process gets the same whoever was before it. From the first state, the
    last process of all is told nothing."""
    if state:
        return [1, [0, 1], [n - 1, 1]]
    return [1, [0, *range(2, n), 1], [n - 1, 0, *range(2, n - 1), 1]]


def shown(count):
    """A type of the most states and operations with this number, and its certificate of version 1 for the limit above it."""
    table = shots(count, 4, 14 - 2 * (count - 1))
    kind, n = Table(table), count + 1
    teams = [text(choice[1:])[1:-1] for choice in itertools.takewhile(lambda it: it[0] == 0, judge.choices(kind, n, False))]
    entries = [f"[{s},{it},{end}" for s in range(judge.MOST_STATES) for end in [text(collision(s, n))[1:]] for it in teams]
    witness = text([0, [0], [4] * (count - 1)])
    return table, Certificate(entries, f',"limit":{n},"number":{count},"type":"{kind.name}","version":1,"witness":{witness}}}')


def checked(certificate, table, command="check"):
    """What a command says of the text of a certificate."""
    with tempfile.NamedTemporaryFile("w", suffix=".json") as file:
        file.write(certificate)
        file.flush()
        return called([command, file.name], table)


def explained(certificate, table):
    """The lines of an explanation that tell how many entries there are."""
    printed, *ended = checked(certificate, table, "explain")
    return [line for line in printed.decode().splitlines() if line.startswith(("Why not", "  and"))], *ended


def written(number, places, spellings):
    """A certificate with the collisions above, and as many entries as the type has canonical choices."""
    table, certificate = shown(number)
    count = len(certificate.entries)
    assert count == counts.count(judge.MOST_STATES, judge.MOST_OPERATIONS, number + 1)
    yield f"{count} entries", lambda: checked(certificate.text(), table), OK
    for spelling in itertools.islice(certificate.spaced(), spellings):
        yield f"{count} entries, with a space", lambda spelling=spelling: checked(spelling, table), OK
    for change, it, said in certificate.changed(places):
        yield f"{count} entries, {change}", lambda it=it: checked(it.text(), table), fault(said)
    ways = f"Why not {number + 1}: {count} ways to choose a start state, operations and teams; in each a process cannot tell."
    wanted = [ways, f"  and {count - 12} more (--all tells them)"], b"", 0
    yield f"{count} entries, explained", lambda: explained(certificate.text(), table), wanted


def found(name, limit, count):
    """A certificate that `find` makes, with an entry for each live choice."""
    table, kind = TYPES[name], Table(TYPES[name])
    line = called(["find", "--limit", str(limit)], table)[0].decode()
    inner, behind = re.fullmatch(r'\{"collisions":\[(.*)\](,"limit":.*\})\n', line).groups()
    certificate = Certificate(re.split(r"(?<=\]\]),(?=\[)", inner), behind)
    live = [sum(kind.act(o, s)[1] != s for o in range(len(kind.operations))) for s in range(len(kind.states))]
    number = json.loads("{" + behind[1:])["number"]
    assert count == sum(counts.count(1, moving, number + 1) for moving in live if moving)
    yield f"{name}, limit {limit}: entries", lambda: len(certificate.entries), count
    for spelling in (certificate.text(), line, *certificate.spaced()):
        yield f"{name}, limit {limit}: a spelling", lambda spelling=spelling: checked(spelling, table), OK
    for change, it, said in certificate.changed((0, count - 1)):
        for spelling in (it.text(), next(it.spaced())):
            yield f"{name}, limit {limit}, {change}", lambda spelling=spelling: checked(spelling, table), fault(said)


def witness_check(kind, table, witness):
    """What `check` says of a choice as a witness, for its number of processes as the limit, and what it should say."""
    value = json.loads(accepted(kind, witness))
    said = judge.check_fault(kind, value)
    return lambda: checked(text(value), table), fault(f"check: {said}") if said else OK


def chosen():
    """Random choices, for 5 to 8 processes of some types and for 2 to 4 of the one with all states and operations."""
    chance = random.Random(3)
    sizes = [(name, n) for name in ("sticky_bit", "three_shot", "test_and_set", "compare_and_swap_4", "shots_12_4") for n in (5, 6, 7, 8)]
    for name, n in sizes + [("wide", n) for n in (2, 3, 4)] * 10:
        kind, size = Table(TYPES[name]), chance.randrange(1, n)
        operations = [chance.randrange(len(kind.operations)) for _ in range(n)]
        witness = [chance.randrange(len(kind.states)), operations[:size], operations[size:]]
        yield f"{name}: {witness}", *witness_check(kind, TYPES[name], witness)


def witnesses():
    """Each of eight processes as the only one that cannot tell."""
    table = blind()
    for j in range(8):
        operations = [(2 if p == j else 0) + (p > 3) for p in range(8)]
        run = lambda whole=accepted(Table(table), [0, operations[:4], operations[4:]]): checked(whole, table)
        yield f"process {j} alone cannot tell", run, fault(f"check: 4 WitnessMeets {j}")


def cases():
    yield from written(3, (0, 1, 9, 10, 99, 100, 1001, 10_000, 26_015), 3)
    yield from written(5, (407_615,), 1)
    for it in FOUND:
        yield from found(*it)
    yield from chosen()
    yield from witnesses()
