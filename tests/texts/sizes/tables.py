"""Types of any size, as texts of tables."""
from table import table_text


def idle(states, operations):
    """A type whose operations change nothing: no choice of it is live."""
    names = [f"s{k}" for k in range(states)]
    return table_text(f"idle_{states}_{operations}", names, ["ok"], [(f"o{k}", ["ok"] * states, names) for k in range(operations)])


def shots(count, each=1, spare=0, name=None):
    """A type that tells `count` times which kind of operation was first, as `three_shot` does three times, and then nothing more:
    its number is `count`. The operations x come first, `each` of them, and then as many y. Further states lead to the last one."""
    left, right, more = ([f"{letter}{k}" for k in range(1, most)] for letter, most in (("a", count), ("b", count), ("c", spare + 1)))
    states = ["bot", *left, *right, "dead", *more]
    told = ["a"] * len(left) + ["b"] * len(right) + ["none"] * (1 + spare)
    after = [*left[1:], "dead", *right[1:], "dead", "dead"] + ["dead"] * spare
    row = lambda first, to: ([first, *told], [to, *after])
    operations = [(f"x{k}", *row("a", left[0])) for k in range(each)] + [(f"y{k}", *row("b", right[0])) for k in range(each)]
    return table_text(name or f"shots_{count}", states, ["a", "b", "none"], operations)


def sums():
    """A type that counts modulo 13. If team A was first, it counts by 1, 2, 4, 8, 3, 6, 12 and 11, and tells how far it was; if the
    last operation was first, it tells no more than that."""
    steps = [1, 2, 4, 8, 3, 6, 12, 11]
    numbers = [f"c{k}" for k in range(13)]
    following = lambda step, first: [first, *(f"c{(k + step) % 13}" for k in range(13)), "late"]
    firsts = [f"c{step % 13}" for step in steps[:7]] + ["late"]
    operations = [(f"o{k}", ["first", *numbers, "late"], following(step, first)) for k, (step, first) in enumerate(zip(steps, firsts))]
    return table_text("sums", ["bot", *numbers, "late"], ["first", *numbers, "late"], operations)


def blind():
    """A type for eight processes, one of which has the operation `ex` or `ey` and gets no answer; if it comes last, the state no longer
    tells which team was first. The others do `x` in team A and `y` in team B, and are told."""
    left, right = ([f"{letter}{k}" for k in range(1, 8)] for letter in "ab")
    states = ["bot", *left, *right, "dead"]
    told = ["a"] * 7 + ["b"] * 7 + ["ok"]
    row = lambda first, last: ["a1" if first == "a" else "b1", *left[1:], last or "a7", *right[1:], last or "b7", "dead"]
    operations = [(name, [first, *told], row(first, "")) for name, first in (("x", "a"), ("y", "b"))]
    operations += [(name, ["ok"] * 16, row(first, "dead")) for name, first in (("ex", "a"), ("ey", "b"))]
    return table_text("blind", states, ["a", "b", "ok"], operations)
