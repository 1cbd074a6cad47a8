"""Objects of textbooks as tables, each with its number without reads.

Each is made by a start state and a rule for each operation, which gives the response and the next state. Containers hold the letters a and b,
and have little room. The number is that of the literature, or follows from the argument beside it; tests/lib/unread.py has to come to it too,
and has the traps that are named.
"""
import collections
import itertools
import math

from table import Table, table_text

INFINITE = math.inf

# What is told of an object: its name, start states and rules; its number without reads, and why.
Object = collections.namedtuple("Object", "name starts rules number why")


def text_of(it):
    """The table of an object. Its states are the start states and all to which they lead."""
    states = list(it.starts)
    for known in states:
        for rule in it.rules.values():
            states += [after] if (after := rule(known)[1]) not in states else []
    named = lambda state: "q" + "".join(map(str, state))
    rows = [(name, [str(rule(it)[0]) for it in states], [named(rule(it)[1]) for it in states]) for name, rule in it.rules.items()]
    return table_text(it.name, [*map(named, states)], [*dict.fromkeys(answer for _, row, _ in rows for answer in row)], rows)


def tables():
    """All objects, each with its type."""
    return [(it, Table(text_of(it))) for it in objects()]


# Containers: the state is what they hold, the oldest item or the lowest one first


def refuse(item, state):
    return "full", state


def drop(item, state):
    return "ok", state


def evict(item, state):
    return "ok", state[1:] + item


def replace_last(item, state):
    return "ok", state[:-1] + item


def put(item, room, where_full, answer=lambda state: "ok", at_front=False):
    """Puts an item behind the others, or before them. What happens to a full one is a rule of its own."""
    return lambda state: where_full(item, state) if len(state) == room else (answer(state), item + state if at_front else state + item)


def take_first(state):
    return (state[0], state[1:]) if state else ("empty", state)


def take_last(state):
    return (state[-1], state[:-1]) if state else ("empty", state)


def see(rule):
    """A look at what a rule would take away."""
    return lambda state: (rule(state)[0], state)


def count(state):
    return len(state), state


def breaking(rules, answer):
    """Rules of an object that breaks for good when it overflows, and answers so from then on."""
    once = lambda rule: lambda state: (answer, "broken") if state == "broken" or rule(state)[0] == "full" else rule(state)
    return {name: once(rule) for name, rule in rules.items()}


def queue(room, where_full, answer=lambda state: "ok"):
    return {f"enq_{it}": put(it, room, where_full, answer) for it in "ab"} | {"deq": take_first}


def stack(room, where_full):
    return {f"push_{it}": put(it, room, where_full) for it in "ab"} | {"pop": take_last}


def deque(room, where_full, where_front_is_full):
    back = {f"back_{it}": put(it, room, where_full) for it in "ab"}
    front = {f"front_{it}": put(it, room, where_front_is_full, at_front=True) for it in "ab"}
    return back | front | {"pop_back": take_last, "pop_front": take_first}


def evict_back(item, state):
    return "ok", item + state[:-1]


BOOK_QUEUE = "2 for the queue (Herlihy 1991); a full one tells nothing more."
BOOK_STACK = "2 for the stack (Herlihy 1991); a full one tells nothing more."
FIRST_STAYS = "The oldest item stays to be seen, as in the augmented queue of Herlihy 1991."


def queues():
    was_empty = lambda state: "no" if state else "yes"
    for room in (2, 3):
        yield f"queue_drop_{room}", queue(room, drop), 2, BOOK_QUEUE
        yield f"queue_evict_{room}", queue(room, evict), 2, "Who takes the only item was first. Readable it has 2 or 3, and there is a trap for three."
        yield f"queue_tells_empty_{room}", queue(room, refuse, was_empty), 3, "A protocol for three: tests/numbers/unread_protocols. There is a trap for four."
        yield f"queue_tells_length_{room}", queue(room, refuse, lambda state: len(state) + 1), 3, "As where it tells whether it was empty."
        yield f"queue_breaks_{room}", breaking(queue(room, refuse), "broken"), INFINITE, (
            "From a full one, one `enq` against any number of `deq`: it is broken for good exactly where the `enq` was first."
        )
        yield f"queue_peek_drop_{room}", queue(room, drop) | {"peek": see(take_first)}, INFINITE, FIRST_STAYS
        yield f"queue_count_{room}", queue(room, refuse) | {"count": count}, 2, "How many items there are does not tell whose is the oldest."
    yield "queue_tells_empty_1", queue(1, refuse, was_empty), 2, "Where a letter fits in, the queue was empty: as the queue."
    yield "queue_breaks_silently_2", breaking(queue(2, refuse), "ok"), INFINITE, "As the one that says so: a `deq` that is answered `ok` shows it."
    yield "queue_peek_refuse_3", queue(3, refuse) | {"peek": see(take_first)}, INFINITE, FIRST_STAYS
    yield "queue_peek_evict_2", queue(2, evict) | {"peek": see(take_first)}, 2, "A window of two: readable, too, it has 2."
    yield "queue_peek_evict_3", queue(3, evict) | {"peek": see(take_first)}, 3, "A window of three whose oldest item is seen: readable, too, it has 3."
    yield "queue_clear_3", queue(3, refuse) | {"clear": lambda state: ("ok", ""), "count": count}, 2, "A clearing wipes out what was before it."


def stacks():
    for room in (2, 3):
        yield f"stack_drop_{room}", stack(room, drop), 2, BOOK_STACK
        yield f"stack_evict_{room}", stack(room, evict), 2, "Readable it has 2 or 3, and there is a trap for three."
        yield f"stack_replace_{room}", stack(room, replace_last), 2, "Only who takes the items above it sees the lowest one, which stays; there is a trap for three."
        yield f"stack_top_refuse_{room}", stack(room, refuse) | {"top": see(take_last)}, INFINITE, "With one place left, the first push stays to be seen."
        yield f"stack_top_evict_{room}", stack(room, evict) | {"top": see(take_last)}, 2, "The top is what was pushed last; there is a trap for three."


def deques():
    yield "deque_drop_2", deque(2, drop, drop), 2, "At least 2, as a queue (Herlihy 1991). No publication of its number is known."
    yield "deque_evict_2", deque(2, evict, evict_back), 2, "As the one that drops."
    yield "deque_3", deque(3, refuse, refuse), 2, "As the one that drops."
    yield "deque_count_3", deque(3, refuse, refuse) | {"count": count, "is_empty": lambda state: (int(not state), state)}, 2, "As the one that drops."


# Priority queues: the state has a 1 for each key that is in


def insert(key, answers=("ok", "ok")):
    return lambda state: (answers[int(state[key])], state[:key] + "1" + state[key + 1:])


def delete(keys):
    """Takes out the first of these keys that is in."""

    def rule(state):
        found = next((key for key in keys if state[key] == "1"), None)
        return ("empty", state) if found is None else (found, state[:found] + "0" + state[found + 1:])

    return rule


def priority_queue(size, answers=("ok", "ok")):
    return {f"insert_{key}": insert(key, answers) for key in range(size)} | {"delmin": delete(range(size))}


def few_keys(room, where_full):
    """A priority queue of two keys that may come more than once, with little room."""
    insertion = lambda key: lambda state: where_full(key, state) if len(state) == room else ("ok", "".join(sorted(state + key)))
    return {f"insert_{key}": insertion(key) for key in "01"} | {"delmin": take_first}


def priority_queues():
    both = {"delmax": delete(range(3, -1, -1))}
    least = {"min": see(delete(range(4)))}
    how_many = {"count": lambda state: (state.count("1"), state)}
    why = "At least 2 (Herlihy 1991). No publication of its number is known; there is a trap for three."
    yield "keys_4", "0000", priority_queue(4), 2, why
    yield "keys_4_both_ends", "0000", priority_queue(4) | both, 2, why
    yield "keys_4_answered", "0000", priority_queue(4, ("new", "old")) | both, 2, why
    yield "keys_4_min", "0000", priority_queue(4) | least, 2, why
    yield "keys_4_looks", "0000", priority_queue(4) | both | how_many | least, INFINITE, (
        "From key 0 alone, one `delmax` against any number of `insert_1`: `min` shows for good whether key 0 was taken."
    )
    yield "keys_refuse_3", "", few_keys(3, refuse), 2, why
    yield "keys_drop_3", "", few_keys(3, drop), 2, why
    yield "keys_evict_3", "", few_keys(3, lambda key, state: ("ok", "".join(sorted(state + key))[:-1])), 2, why


# Objects with one place or a count


def places():
    writes = {f"put_{it}": lambda state, it=it: ("ok", it) for it in "ab"}
    sticks = {f"put_{it}": lambda state, it=it: ("ok", state or it) for it in "ab"}
    first = {f"put_{it}": lambda state, it=it: ("no" if state else "yes", state or it) for it in "ab"}
    look = {"look": lambda state: (state or "none", state)}
    yield "mailbox_overwrites", writes | {"take": take_first}, 2, "Who takes the letter was first; puts and takes wipe out what was before them."
    yield "mailbox_look", writes | {"take": take_first} | look, 2, "A look at a place that each put overwrites shows the last letter."
    yield "mailbox_look_keeps", sticks | {"take": take_first} | look, INFINITE, "Until somebody takes it, the letter is a sticky bit with a look (Plotkin 1989)."
    yield "sticky_silent", sticks, 1, "Nothing is answered."
    yield "sticky_tells_first", first, 2, "Only the first is told so: the answers of test-and-set."
    yield "sticky_look", sticks | look, INFINITE, "A sticky bit (Plotkin 1989)."
    yield "cas_bool_look", {
        f"cas_{it}": lambda state, it=it: ("no" if state else "yes", state or it) for it in "ab"
    } | look, INFINITE, "Compare-and-swap (Herlihy 1991) whose value can be seen."


def counts():
    up, down = (lambda most: lambda state: ("ok", (min(state[0] + 1, most),))), lambda state: ("yes" if state[0] else "no", (max(state[0] - 1, 0),))
    value, is_zero = {"value": lambda state: (state[0], state)}, {"is_zero": lambda state: ("no" if state[0] else "yes", state)}
    lower = {"dec": lambda state: ("ok", (max(state[0] - 1, 0),))}
    yield "semaphore_1", (0,), {"up": up(1), "down": down}, 2, "Two who take the one unit (by the theorem of Herlihy 1991)."
    yield "semaphore_5", (0,), {"up": up(5), "down": down}, 2, "As with one unit."
    yield "semaphore_value_5", (0,), {"up": up(5), "down": down} | value, 2, "Readable: the operations interfere."
    yield "counter_is_zero_3", (0,), {"inc": up(3)} | lower | is_zero, 1, "The operations interfere, and those that change something answer nothing."


def cells():
    """Write-and-read-next: cells in a ring. A process writes to a cell and reads the next one in one step."""
    at = lambda size, cell: lambda state: (state[(cell + 1) % size], state[:cell] + "1" + state[cell + 1:])
    ring = lambda size: {f"write_{cell}": at(size, cell) for cell in range(size)}
    yield "write_read_next_2", "00", ring(2), 2, "With two cells: who reads a cell that was written was second."
    yield "write_read_next_3", "000", ring(3), 1, "1 from three cells on (Daian, Losa, Afek and Gafni 2018)."
    yield "write_read_next_4", "0000", ring(4), 1, "1 from three cells on (Daian, Losa, Afek and Gafni 2018)."


def shots():
    """Agreement objects for some processes, whose winner can be taken, or exchanged at the end, once more."""
    for size in range(2, 7):
        call = lambda it, size=size: lambda state: (
            (it, (it, 1)) if state == ("bot",) else ("none", state) if state == ("dead",) else
            (state[0], (state[0], state[1] + 1)) if state[1] < size else ("none", state)
        )
        take = lambda state: (state[0], ("dead",)) if len(state) == 2 else ("none", state)
        flip = lambda state, size=size: (
            ("none", state) if len(state) == 1 else (state[0], ("ab"[state[0] == "a"], size)) if state[1] == size else ("no", state)
        )
        calls = {f"call_{it}": call(it) for it in "ab"}
        why = "Each call tells the first one, and one process more, which comes too late, sees the winner by the one look that there is."
        yield f"shot_take_{size}", [("bot",)], calls | {"take": take}, size + 1, why
        yield f"shot_flip_{size}", [("bot",)], calls | {"flip": flip}, size + 1, why


def objects():
    """All objects."""
    for name, rules, number, why in itertools.chain(queues(), stacks(), deques(), places()):
        yield Object(name, [""], rules, number, why)
    for name, start, rules, number, why in itertools.chain(priority_queues(), counts(), cells()):
        yield Object(name, [start], rules, number, why)
    for name, starts, rules, number, why in shots():
        yield Object(name, starts, rules, number, why)
