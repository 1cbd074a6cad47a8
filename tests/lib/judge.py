"""What docs/FORMATS.md says of a table, of a certificate and of a certificate against a table.

Each function answers the first fault as the program names it, or None. Python's tomllib reads TOML: it knows
TOML 1.0, and here it has the bounds of the crate `toml` and the escapes of TOML 1.1. A reader after RFC 8259
reads JSON, with the bounds of `serde_json`.
"""
import itertools
import re
import tomllib

NAME = re.compile(r"[a-z0-9_]{1,32}\Z")
MOST_STATES, MOST_RESPONSES, MOST_OPERATIONS, MOST_PROCESSES = 16, 16, 8, 8
MOST_NUMBER = 255
# The greatest limit of each version.
GREATEST_LIMITS = {1: 6, 2: MOST_PROCESSES}
DEEPEST_ARRAY, DEEPEST_VALUE = 80, 127


class Refused(Exception):
    """A text that is no document."""


# Tables


def finite(text):
    """A float as it is written. It has to be one of 64 bits."""
    value = float(text.replace("_", ""))
    if value in (float("inf"), float("-inf")) and "inf" not in text:
        raise Refused
    return value


def depth(value):
    """How deep arrays lie in each other. Looks at the numbers on the way."""
    if isinstance(value, int) and not isinstance(value, bool) and not -(2**63) <= value < 2**63:
        raise Refused
    if isinstance(value, dict):
        return max(map(depth, value.values()), default=0)
    return 1 + max(map(depth, value), default=0) if isinstance(value, list) else 0


def document(data):
    """The document of a text in TOML, or None. Puts the escapes of TOML 1.1 as those of 1.0."""
    try:
        text = re.sub(r"(?<!\\)((?:\\\\)*)\\e", r"\1\\u001b", data.decode().removeprefix("\ufeff"))
        text = re.sub(r"(?<!\\)((?:\\\\)*)\\x(?=[0-9a-fA-F]{2})", r"\1\\u00", text)
        value = tomllib.loads(text, parse_float=finite)
        return value if depth(value) <= DEEPEST_ARRAY else None
    except (ValueError, RecursionError, Refused):
        return None


def texts(value):
    return isinstance(value, list) and all(isinstance(it, str) for it in value)


def table_fault(data):
    """The first fault of the text of a table."""
    value = document(data)
    if value is None:
        return "1 NotToml"
    operations = value.get("operation")
    tables = [it for it in operations if isinstance(it, dict)] if isinstance(operations, list) else []
    root_keys, keys = {"name", "states", "responses", "operation"}, {"name", "response", "next"}
    if set(value) - root_keys or any(set(it) - keys for it in tables):
        return "2 UnknownKey"
    if root_keys - set(value) or any(keys - set(it) for it in tables):
        return "3 MissingKey"
    if not (isinstance(value["name"], str) and texts(value["states"]) and texts(value["responses"])):
        return "4 WrongKind"
    if tables != operations or not all(isinstance(it["name"], str) and texts(it["response"]) and texts(it["next"]) for it in tables):
        return "4 WrongKind"
    return draft_fault(value["name"], value["states"], value["responses"], tables)


def draft_fault(name, states, responses, operations):
    """The first fault of a document whose values are of their kinds."""
    names = [it["name"] for it in operations]
    if not all(NAME.match(it) for it in [name, *states, *responses, *names]):
        return "5 BadName"
    if not (1 <= len(states) <= MOST_STATES and 1 <= len(responses) <= MOST_RESPONSES and 1 <= len(operations) <= MOST_OPERATIONS):
        return "6 Count"
    if any(len(set(it)) < len(it) for it in (states, responses, names)):
        return "7 Repeated"
    if any(len(it[row]) != len(states) for it in operations for row in ("response", "next")):
        return "8 RowLength"
    if not all(set(it["response"]) <= set(responses) and set(it["next"]) <= set(states) for it in operations):
        return "9 UnknownName"
    return None


# JSON


class Json:
    """Reads one value, or is refused."""

    NUMBER = re.compile(r"-?(0|[1-9][0-9]*)(\.[0-9]+)?([eE][+-]?[0-9]+)?")
    STRING = re.compile(r'"((?:[^"\\\x00-\x1f]|\\(?:["\\/bfnrt]|u[0-9a-fA-F]{4}))*)"')
    ESCAPES = {"b": "\b", "f": "\f", "n": "\n", "r": "\r", "t": "\t"}

    def __init__(self, text):
        self.text, self.at = text, 0

    def blank(self):
        while self.text[self.at : self.at + 1] in tuple(" \t\r\n"):
            self.at += 1

    def passes(self, part):
        self.blank()
        there = self.text.startswith(part, self.at)
        self.at += len(part) * there
        return there

    def needs(self, part):
        if not self.passes(part):
            raise Refused

    def whole(self):
        value = self.value(DEEPEST_VALUE)
        self.blank()
        if self.at < len(self.text):
            raise Refused
        return value

    def value(self, left):
        self.blank()
        for word, value in (("null", None), ("true", True), ("false", False)):
            if self.passes(word):
                return value
        if self.text[self.at : self.at + 1] in ("[", "{") and left == 0:
            raise Refused
        if self.passes("["):
            return self.parts("]", lambda: self.value(left - 1), list)
        if self.passes("{"):
            return self.parts("}", lambda: self.member(left - 1), dict)
        return self.string() if self.text[self.at : self.at + 1] == '"' else self.number()

    def parts(self, closing, one, gather):
        found = []
        while not self.passes(closing):
            if found:
                self.needs(",")
            found.append(one())
        return gather(found)

    def member(self, left):
        self.blank()
        key = self.string()
        self.needs(":")
        return key, self.value(left)

    def string(self):
        match = self.STRING.match(self.text, self.at)
        if not match:
            raise Refused
        self.at = match.end()
        parts = re.split(r"\\(u[0-9a-fA-F]{4}|.)", match[1])
        parts[1::2] = [chr(int(it[1:], 16)) if it[0] == "u" else self.ESCAPES.get(it, it) for it in parts[1::2]]
        try:
            return "".join(parts).encode("utf-16", "surrogatepass").decode("utf-16")
        except UnicodeDecodeError:  # half of a pair
            raise Refused from None

    def number(self):
        match = self.NUMBER.match(self.text, self.at)
        if not match:
            raise Refused
        self.at = match.end()
        if float(match[0]) in (float("inf"), float("-inf")):
            raise Refused
        is_unsigned = not (match[0].startswith("-") or match[2] or match[3])
        return int(match[0]) if is_unsigned and int(match[0]) < 2**64 else 0.5


def certificate_of(data):
    """The certificate that a text in JSON is, or its first fault."""
    try:
        value = Json(data.decode()).whole()
    except (UnicodeDecodeError, Refused):
        return "1 NotJson"
    return "2 WrongShape" if not has_shape(value) else "3 Version" if value["version"] not in (1, 2) else value if is_in_range(value) else "4 Range"


def is_unsigned(value):
    return type(value) is int


def are_unsigned(value):
    return isinstance(value, list) and all(map(is_unsigned, value))


def is_choice(value):
    return is_unsigned(value[0]) and are_unsigned(value[1]) and are_unsigned(value[2])


def has_shape(value):
    keys = {"collisions", "limit", "number", "type", "version", "witness"}
    if not isinstance(value, dict) or set(value) != keys or not isinstance(value["collisions"], list):
        return False
    numbers = is_unsigned(value["limit"]) and is_unsigned(value["version"]) and (value["number"] is None or is_unsigned(value["number"]))
    witness = value["witness"]
    fits = witness is None or (isinstance(witness, list) and len(witness) == 3 and is_choice(witness))
    return numbers and fits and isinstance(value["type"], str) and all(map(is_entry, value["collisions"]))


def is_entry(value):
    return isinstance(value, list) and len(value) == 6 and is_choice(value) and is_unsigned(value[3]) and are_unsigned(value[4]) and are_unsigned(value[5])


def is_in_range(value):
    choices = [it[:3] for it in value["collisions"] + ([value["witness"]] if value["witness"] else [])]
    states, operations = [it[0] for it in choices], [it for choice in choices for part in choice[1:] for it in part]
    processes = [p for it in value["collisions"] for p in (it[3], *it[4], *it[5])]
    lists = [part for choice in choices for part in choice[1:]] + [part for it in value["collisions"] for part in it[4:]]
    bounds = [([value["limit"], value["number"] or 0], MOST_NUMBER), (states, MOST_STATES - 1), (operations, MOST_OPERATIONS - 1)]
    bounds += [(processes, MOST_PROCESSES - 1), (map(len, lists), MOST_PROCESSES)]
    return all(number <= most for numbers, most in bounds for number in numbers) and bool(NAME.match(value["type"]))


# The check


def run(kind, state, operations):
    """The responses to operations from a state, and the last state."""
    responses = []
    for operation in operations:
        response, state = kind.act(operation, state)
        responses.append(response)
    return responses, state


def outcome_set(kind, choice, team, j):
    """The pairs of a response of process j and a last state, over all orders with j that begin in the team."""
    state, a, b = choice
    operations = a + b
    begun = range(len(a)) if team == 0 else range(len(a), len(operations))
    reached = {(frozenset(), state, None)}
    pairs = set()
    while reached:
        following = set()
        for moved, here, mine in reached:
            for p in range(len(operations)) if moved else begun:
                if p not in moved:
                    response, after = kind.act(operations[p], here)
                    following.add((moved | {p}, after, response if p == j else mine))
        pairs |= {(mine, here) for _, here, mine in following if mine is not None}
        reached = following
    return pairs


def is_choice_of(kind, choice, n):
    state, a, b = choice
    return state < len(kind.states) and bool(a) and bool(b) and len(a + b) == n and all(it < len(kind.operations) for it in a + b)


def choices(kind, n, live):
    """The canonical choices for n processes, in order; only the live ones if `live`."""
    for state in range(len(kind.states)):
        moving = [o for o in range(len(kind.operations)) if not live or kind.act(o, state)[1] != state]
        for size in range(1, n // 2 + 1):
            for a in itertools.combinations_with_replacement(moving, size):
                for b in itertools.combinations_with_replacement(moving, n - size):
                    if len(a) < len(b) or a <= b:
                        yield [state, list(a), list(b)]


def is_collision(kind, choice, j, alpha, beta):
    state, a, b = choice
    operations, pairs = a + b, []
    for order, first in ((alpha, range(len(a))), (beta, range(len(a), len(operations)))):
        distinct = len(set(order)) == len(order) and all(p < len(operations) for p in order)
        if not (distinct and j in order and order[0] in first):
            return False
        responses, last = run(kind, state, [operations[p] for p in order])
        pairs.append((responses[order.index(j)], last))
    return pairs[0] == pairs[1]


def check_fault(kind, value):
    """The first fault of a certificate against a table."""
    limit, number, witness, entries = value["limit"], value["number"], value["witness"], value["collisions"]
    if value["type"] != kind.name:
        return "1 OtherType"
    if not 2 <= limit <= GREATEST_LIMITS[value["version"]] or not (number is None or 2 <= number <= limit):
        return "2 BadNumber"
    if (number is None) != (witness is None) or (witness and not is_choice_of(kind, witness, number)):
        return "3 WitnessShape"
    for j in range(number or 0):
        if outcome_set(kind, witness, 0, j) & outcome_set(kind, witness, 1, j):
            return f"4 WitnessMeets {j}"
    if number == limit:
        return "5 Unexpected" if entries else None
    wanted = choices(kind, (number or 1) + 1, value["version"] == 2)
    for i, entry in enumerate(entries):
        if next(wanted, None) != entry[:3]:
            return f"6 NotNext {i}"
        if not is_collision(kind, entry[:3], *entry[3:]):
            return f"7 NotACollision {i}"
    return None if next(wanted, None) is None else "8 TooFew"
