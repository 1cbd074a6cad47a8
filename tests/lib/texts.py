"""Texts that tell of tables: the grid of a table, lines that are folded, and processes with their operations in words."""
import itertools
import re

WIDEST = 100
MARGIN = " " * 10


def grid(table):
    widest = {kind: max(map(len, names)) for kind, names in vars(table).items() if kind in ("states", "responses", "operations")}
    wide = widest["responses"] + widest["states"] + 4
    lines = [" " * (widest["operations"] + 6) + "".join(name.ljust(wide) for name in table.states).rstrip()]
    for number, name in enumerate(table.operations):
        cells = [f"{table.responses[r]}>{table.states[q]}" for r, q in table.rows[number]]
        lines.append("  " + name.ljust(widest["operations"] + 4) + "".join(cell.ljust(wide) for cell in cells).rstrip())
    lines[1] += " " * 12 + "(response > next state)"
    return lines


def folded(line):
    """The line, in as many lines as it needs. Words behind a gap of more than two spaces stay together."""
    lines = [""]
    for it in re.finditer(r"( *)([^ ]+)", line):
        gap, word = it.groups()
        together = line[it.start(2) :] if lines[-1] and len(gap) > 2 else word
        if len(lines[-1] + gap + together) <= WIDEST:
            lines[-1] += gap + word
        else:
            lines.append(MARGIN + word)
    return lines


def alike(operations, numbers):
    """These processes in groups: neighbours with the same operation."""
    return [list(same) for _, same in itertools.groupby(numbers, lambda process: operations[process])]


def together(group):
    """A group in words."""
    between = " and " if len(group) == 2 else " to "
    return f"p{group[0]}" + (f"{between}p{group[-1]}" if len(group) > 1 else "")


def members(table, operations, team, numbers):
    """The members of a team with their operations. Neighbours with the same operation stand together."""
    return ", ".join(
        f"{together(group)}{team} {'do' if len(group) > 1 else 'does'} {table.operations[operations[group[0]]]}" for group in alike(operations, numbers)
    )
