"""The table of a type from three functions, here of a queue with room for two: python3 examples/tables.py > queue.toml"""
import itertools


def states():
    return ["q" + "".join(items) for size in range(3) for items in itertools.product("ab", repeat=size)]


def operations():
    return ["enq_a", "enq_b", "deq"]


def transition(operation, state):  # the response, and the next state
    if operation == "deq":
        return ("empty", state) if state == "q" else (state[1], "q" + state[2:])
    return ("full", state) if len(state) == 3 else ("ok", state + operation[-1])


def table(name, states, operations, transition):  # a name is 1 to 32 of a-z, 0-9 and _
    texts = lambda them: "[" + ", ".join(f'"{it}"' for it in them) + "]"
    rows = {operation: [transition(operation, state) for state in states] for operation in operations}
    lines = [f'name = "{name}"', f"states = {texts(states)}", f"responses = {texts(dict.fromkeys(r for row in rows.values() for r, _ in row))}"]
    for operation, row in rows.items():
        lines += ["[[operation]]", f'name = "{operation}"', f"response = {texts(r for r, _ in row)}", f"next = {texts(s for _, s in row)}"]
    return "\n".join(lines)


if __name__ == "__main__":
    print(table("queue", states(), operations(), transition))
