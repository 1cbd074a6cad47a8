"""`replay` and `serve`: logs of 5 to 8 processes, the most calls and slots, and the greatest numbers of an event."""
import pathlib
import random
import tempfile

from calls import TYPES, answer, called, fault, path_of
from plans import accepted, plan_text
from protocol import Log, Plan, events_text
from table import Table
from tables import sums

COUNTER = Table(TYPES["counter_3"])
IDLE = "4 Idle"


class Served:
    """A plan of a witness, over which the counter modulo 3 is served from state 0."""

    def __init__(self, table, witness):
        self.table, self.kind = table, Table(table)
        self.certificate = accepted(self.kind, witness)
        self.plan = Plan(plan_text(self.kind, witness), self.kind)
        self.n = self.plan.n
        self.about = f"{self.kind.name}, teams of {len(witness[1])} and {len(witness[2])}"

    def steps(self, p):
        """The steps that a slot costs a process: a look at each process, and four for each place of its path."""
        return self.n + 4 * len(self.plan.paths[p])

    def says(self, command, capacity, word):
        """What `replay` says of events, or `serve` of calls. A long word stands in a file."""
        with tempfile.TemporaryDirectory() as room:
            file, lists = pathlib.Path(room) / "cert.json", pathlib.Path(room) / "list"
            file.write_text(self.certificate)
            lists.write_text(word)
            given = word if len(word) < 4096 else f"@{lists}"
            return called([command, str(file), path_of("counter_3"), "0", str(capacity), given], self.table)


def sticky(a, b):
    return Served(TYPES["sticky_bit"], [0, [0] * a, [1] * b])


# Events


def events_of(log, chance, count):
    """This many random events that can come, or fewer if none can come any more."""
    world, events, left = log.first_world, [], set(range(log.plan.n))
    while left and len(events) < count:
        p = chance.choice(sorted(left))
        event = (p, 0 if log.is_idle(world, p) else None)
        if log.fault(world, event):
            left.discard(p)
        else:
            world = log.invoke(world, p, 0) if event[1] is not None else log.step(world, p)[0]
            events.append(event)
    return events


def replays():
    """Random events, over plans of 5 to 8 processes; then an event that cannot come."""
    chance = random.Random(6)
    plans = [sticky(*it) for it in ((1, 4), (2, 3), (3, 3), (1, 6), (5, 2), (4, 4), (1, 7))]
    plans.append(Served(sums(), [0, [0, 1, 2, 3, 4, 5, 6], [7]]))
    for served in plans:
        for capacity, count in ((1, 300), (2, 400), (3, 500), (8, 500)):
            log = Log(served.plan, COUNTER, 0, capacity)
            events = events_of(log, chance, count)
            world, _ = log.replayed(events)
            about = f"{served.about}, capacity {capacity}"
            run = lambda events=events, served=served, capacity=capacity: served.says("replay", capacity, events_text(events))
            yield f"{about}: {events_text(events)}", run, log.lines(events)
            more = [(p, operation) for p in (0, served.n - 1, served.n) for operation in (None, 0, 1)]
            for event, said in ((it, log.fault(world, it)) for it in more):
                if said:
                    all_of_them = events_text([*events, event])
                    run = lambda it=all_of_them, served=served, capacity=capacity: served.says("replay", capacity, it)
                    yield f"{about}, then {event}", run, fault(f"replay: {said} {len(events)}")


def whole_slots(served, capacity, callers):
    """The events in which these processes make a call each, slot by slot, and then go on to their answers one after the other."""
    slot = [f"i{p}:0" for p in callers] + [f"s{p}" for p in callers for _ in range(served.steps(p))]
    return slot * capacity


def filled(served, capacity, callers):
    """What `replay` prints of these events: in each slot all calls, in the order of the processes."""
    places = {p: k for k, p in enumerate(sorted(callers))}
    before = lambda slot, p: slot * len(callers) + places[p]
    answers = (f"answer {p} {slot} {before(slot, p) % 3}\n" for slot in range(capacity) for p in callers)
    entries = (f"entry {slot} {p} inc {before(slot, p) % 3} {(before(slot, p) + 1) % 3}\n" for slot in range(capacity) for p in places)
    return "".join(answers) + "".join(entries)


def full_logs():
    """Logs with every slot filled, up to slot 1,023, and what comes then; with one slot less, one call less."""
    for served, callers in ((sticky(1, 1), [0]), (sticky(1, 1), [1, 0]), (sticky(3, 2), [4, 0, 2]), (sticky(1, 7), list(range(8)))):
        for capacity in (1023, 1024):
            events = whole_slots(served, capacity, callers)
            about = f"{served.about}, {capacity} slots of {callers}"
            says = lambda more, served=served, capacity=capacity, events=events: served.says("replay", capacity, ",".join([*events, *more]))
            yield f"{about}, {len(events)} events", lambda says=says: says([]), answer(filled(served, capacity, callers))
            p, n, count = callers[-1], served.n, len(events)
            wrong = [(f"s{n}", "1 NoSuchProcess"), (f"i{p}:1", "2 NoSuchOperation"), (f"s{p}", IDLE), (f"i{p}:0", "5 AtEnd")]
            for event, said in wrong:
                yield f"{about}, then {event}", lambda says=says, event=event: says([event]), fault(f"replay: {said} {count}")
            other = ",".join([*events[:-1], f"i{p}:0"])
            run = lambda served=served, capacity=capacity, other=other: served.says("replay", capacity, other)
            yield f"{about}, a call in place of the last step", run, fault(f"replay: 3 NotIdle {count - 1}")


def numbers():
    """The faults of events with the numbers 0, 1,001 and some between; the greatest ones stand above."""
    served = sticky(1, 1)
    start = whole_slots(served, 200, [0])
    for count in (0, 1, 9, 10, 99, 100, 255, 256, 1001):
        events, is_idle = start[:count], start[count] == "i0:0"
        mine = ("s0", IDLE) if is_idle else ("i0:0", "3 NotIdle")
        for event, said in (("s2", "1 NoSuchProcess"), ("i0:1", "2 NoSuchOperation"), ("s1", IDLE), mine):
            run = lambda events=events, event=event: served.says("replay", 1024, ",".join([*events, event]))
            yield f"event {count} is {event}", run, fault(f"replay: {said} {count}")


# Calls


def alone():
    """One process makes this many calls, and no other makes one. Each call has a slot of its own, until there is none."""
    for served, p in ((sticky(1, 1), 0), (sticky(1, 1), 1), (sticky(2, 3), 2), (sticky(3, 3), 5), (sticky(6, 1), 6), (sticky(4, 4), 7)):
        for calls, capacity in ((513, 1024), (767, 767), (1023, 1024), (1023, 1023), (1024, 1024), (1024, 1023), (600, 513)):
            done = min(calls, capacity)
            text = "".join(f"answer {p} {k} {k % 3}\n" for k in range(done)) + f"full {p}\n" * (calls > capacity)
            text += "".join(f"entry {k} {p} inc {k % 3} {(k + 1) % 3}\n" for k in range(done))
            text += "events " + ",".join(whole_slots(served, done, [p])) + "\n"
            word = "/".join(",".join(["0"] * calls) if q == p else "none" for q in range(served.n))
            run = lambda served=served, capacity=capacity, word=word: served.says("serve", capacity, word)
            yield f"{served.about}: {calls} calls of process {p}, {capacity} slots", run, answer(text, int(calls > capacity))


def together():
    """Several processes make calls at once. The output is what the events in its last line make."""
    plans = [(sticky(*it), 8) for it in ((1, 4), (2, 3), (3, 3), (5, 1), (1, 6), (3, 4), (4, 4), (7, 1))]
    plans += [(sticky(1, 1), 256), (sticky(2, 3), 100), (Served(sums(), [0, [0, 1, 2, 3, 4, 5, 6], [7]]), 6)]
    for served, most in plans:
        for calls, capacity in (([most] * served.n, most * served.n), ([most] * served.n, most), ([k % 3 for k in range(served.n)], 1)):
            log, counts = Log(served.plan, COUNTER, 0, capacity), [[0] * count for count in calls]
            word = "/".join(",".join(map(str, it)) or "none" for it in counts)
            says = lambda served=served, capacity=capacity, word=word: served.says("serve", capacity, word)
            run = lambda log=log, counts=counts, says=says: log.is_served(counts, says())
            yield f"{served.about}: {calls} calls, {capacity} slots", run, True


def overfull():
    """Each process makes more calls than there are slots, so the last call of each is full."""
    for served in (sticky(1, 1), sticky(2, 3), sticky(3, 3), sticky(1, 6), sticky(4, 4)):
        for capacity in (1, 3):
            log, counts = Log(served.plan, COUNTER, 0, capacity), [[0] * (capacity + 1)] * served.n
            word = "/".join(",".join(map(str, it)) for it in counts)

            def run(served=served, log=log, counts=counts, capacity=capacity, word=word):
                ended = served.says("serve", capacity, word)
                told = [line for line in ended[0].decode().splitlines() if line.startswith("full ")]
                return log.is_served(counts, ended), told

            yield f"{served.about}: {word}, {capacity} slots", run, (True, [f"full {p}" for p in range(served.n)])


def cases():
    yield from replays()
    yield from full_logs()
    yield from numbers()
    yield from alone()
    yield from together()
    yield from overfull()
