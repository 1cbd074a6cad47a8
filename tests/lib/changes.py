"""Random changes of values of JSON."""
import copy

INSTEAD = [None, True, False, 0, 1, 2, 1.0, -1, 255, 256, "0", "A", "B", [], [0], {}, [[]]]


def places(value, place=()):
    """The places of all values within a value of JSON."""
    for key, it in value.items() if isinstance(value, dict) else enumerate(value) if isinstance(value, list) else ():
        yield (*place, key)
        yield from places(it, (*place, key))


def change(value, drawn):
    """Makes a change somewhere within a value of JSON, drawn from a source of random numbers."""
    *place, key = drawn.choice([*places(value)])
    for step in place:
        value = value[step]
    way = drawn.randrange(7)
    if way == 0 and isinstance(value, list):
        del value[key]
    elif way == 1 and isinstance(value, list):
        value.insert(key, copy.deepcopy(value[key]))
    elif way == 2 and isinstance(value, list):
        other = drawn.randrange(len(value))
        value[key], value[other] = value[other], value[key]
    elif way in (3, 4) and type(value[key]) is int:
        value[key] += drawn.choice([-1, 1])
    elif way == 5 and isinstance(value, dict):
        value[key + drawn.choice(["", "s"])] = value.pop(key)
    else:
        value[key] = copy.deepcopy(drawn.choice(INSTEAD))
