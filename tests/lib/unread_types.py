"""Types made for the number without reads, each of which shows something that no type of the catalogue does."""
from table import Table


def table_of(name, *rows):
    """A type by its rows: for each operation `RESPONSE>STATE` by state, with the numbers of states and the words of responses."""
    cells = [[cell.split(">") for cell in row.split()] for row in rows]
    words = list(dict.fromkeys(word for row in cells for word, _ in row))
    return Table.of(name, [[(words.index(word), int(state)) for word, state in row] for row in cells])


# Two registers of one writer each, and one that both write: each process writes its own and the common one at once. Each is read alone.
ASSIGN = table_of(
    "assign_apart", "ok>1 ok>1 ok>4 ok>4 ok>4", "ok>2 ok>3 ok>2 ok>3 ok>3", "no>0 yes>1 no>2 yes>3 yes>4", "no>0 no>1 yes>2 yes>3 yes>4",
    "no>0 one>1 two>2 two>3 one>4",
)
# A type that is defended for two, and whose number is 1.
LOOSE = table_of("loose", "0>0 0>2 0>2 0>0", "0>3 0>1 1>2 0>1")
# A type for three, by further operations whose processes tell each other that they go on; no further operation alone is enough. Here the
# number of a response is that of its word.
TOLD = table_of("told", "1>0 1>1 0>0", "1>0 0>0 1>2", "0>2 0>0 0>1")
# Both first operations answer alike, so that processes look by the third one, which changes nothing and tells the state.
LOOKED_AT = table_of("looked_at", "ok>1 ok>1 ok>2", "ok>2 ok>1 ok>2", "ok>0 one>1 two>2")
# A type for any number of processes, if they read its state: each operation answers alike in all states.
BLIND = table_of("blind", "ok>1 ok>1 ok>2", "ok>2 ok>1 ok>2")
