"""Types as tables: read from a text, and written as one."""
import tomllib


class Table:
    """A type by its table: the names, and what an operation does in a state."""

    def __init__(self, text):
        table = tomllib.loads(text)
        self.name, self.states, self.responses = table["name"], table["states"], table["responses"]
        self.operations = [it["name"] for it in table["operation"]]
        self.rows = [
            [(self.responses.index(response), self.states.index(after)) for response, after in zip(it["response"], it["next"])]
            for it in table["operation"]
        ]

    @classmethod
    def of(cls, name, rows):
        """The type with these rows; its states, responses and operations have names by their numbers."""
        made = cls.__new__(cls)
        made.name, made.rows = name, rows
        made.states = [f"s{state}" for state in range(len(rows[0]))]
        made.responses = [f"r{response}" for response in range(1 + max(response for row in rows for response, _ in row))]
        made.operations = [f"o{operation}" for operation in range(len(rows))]
        return made

    def text(self):
        """The text of the type."""
        rows = [([self.responses[response] for response, _ in row], [self.states[after] for _, after in row]) for row in self.rows]
        return table_text(self.name, self.states, self.responses, [(name, *row) for name, row in zip(self.operations, rows)])

    def act(self, operation, state):
        """The response and the next state."""
        return self.rows[operation][state]

    def count_changes(self):
        """How many changes of one entry there are."""
        return len(self.operations) * len(self.states) * (len(self.states) * len(self.responses) - 1)


def quoted(names):
    """Names as an array of texts."""
    return "[" + ", ".join(f'"{it}"' for it in names) + "]"


def table_text(name, states, responses, operations):
    """The text of a table; an operation is (name, responses, next states)."""
    head = f'name = "{name}"\nstates = {quoted(states)}\nresponses = {quoted(responses)}\n'
    return head + "".join(operation_text(*it) for it in operations)


def operation_text(name, responses, following):
    """The text of an operation of a table."""
    return f'[[operation]]\nname = "{name}"\nresponse = {quoted(responses)}\nnext = {quoted(following)}\n'
