"""Types whose numbers the laws of their families give."""
from calls import TOP
from table import table_text

# States and copies of an operation.
COPIES = [(3, 2), (4, 2), (16, 4), (13, 5), (14, 5), (16, 5), (10, 6), (11, 6), (16, 6), (8, 7), (9, 7), (10, 7), (16, 7)]


def up_and_down(states, copies=1):
    """A counter that `inc` lets stand at its greatest value, and that `dec` leads from 0 to it. Each answers the old value. From 0, one
    `dec` against states - 1 `inc` is a witness, and no two operations last, so this is its number.

    With one `inc` less the state alone tells: the greatest value stays where `dec` was first, and does not occur else. No choice for more
    processes does so. One team does `inc` and the other `dec`, since two that do the same leave one state. From a value other than 0,
    *inc, dec* leaves what *dec* or *dec, inc* leaves. From 0, states - 1 `inc` leave what *dec* leaves, and with two `dec` the start
    state may not come back, as it does by *inc, dec*.

    Copies of `inc` act as it does: a choice with them is one with `inc` in their place. So they change neither number."""
    names = [f"s{i}" for i in range(states)]
    up, down = names[1:] + names[-1:], names[-1:] + names[:-1]
    name, ups = ("inc_dec", ["inc"]) if copies == 1 else ("inc_dec_copies", [f"inc{i}" for i in range(copies)])
    size = states if copies == 1 else f"{states}_{copies + 1}"
    return table_text(f"{name}_{size}", names, names, [*((it, names, up) for it in ups), ("dec", names, down)])


def families():
    """Types with the two numbers that the laws of their families give: (text, number, recoverable number)."""
    catalogue = lambda name: (TOP / f"catalogue/{name}.toml").read_text()
    yield from ((up_and_down(s), s, s - 1) for s in range(3, 17))
    yield from ((up_and_down(s, copies), s, s - 1) for s, copies in COPIES)
    yield from ((catalogue(f"shot_{n}"), n, n - 1) for n in range(2, 9))
    yield from ((catalogue(f"memory_swap_own_{n}"), n, n) for n in range(2, 9))
    yield catalogue("cas_2"), 2, 1
    yield from ((catalogue(f"{name}_{k}"), "infinite", "infinite") for name in ("cas", "sticky") for k in range(3, 9))
    yield catalogue("add1_top_4bit"), 9, 8
