"""Forged certificates: a text with a change, with what has changed."""
import itertools
import json
import re

from calls import CERTIFICATES, TYPES
from table import Table

CHANGES = [b"", b"\x00", b"\x7f", b"\x80", b"\xff", b" ", b"\n", b"\r", b'"', b"#", b",", b"1", b"Z", b"[", b"]", b"\\"]
NOT_UTF_8 = [b"\xff", b"\x80", b"\xc0\x80", b"\xe2\x82", b"\xed\xa0\x80", b"\xf4\x90\x80\x80", b"\xf8\x88\x80\x80\x80"]


def changed_bytes(text):
    """The text with one byte changed, dropped or doubled, at every place."""
    for at in range(len(text)):
        for change in CHANGES + [text[at : at + 1] * 2]:
            yield f"byte {at} is {change}", text[:at] + change + text[at + 1 :]


NUMBERS = [0, 1, 2, 3, 7, 8, 15, 16, 255, 256, 2**64, -1, 0.5, None, [0]]
TEAMS = [[], [0], [1], [2], [7], [8], [0, 0], [0, 1], [1, 0], [1, 1], [0, 0, 0], [0] * 8, [0] * 9, 0, None, [None]]
ORDERS = [[], [0], [1], [2], [3], [0, 0], [0, 1], [1, 0], [0, 2], [2, 0], [2, 1], [1, 2], [0, 1, 2], [2, 1, 0], [1, 0, 2]]
ORDERS += [[7], [8], [0] * 9, 0, "0"]


def entries_of(text):
    return json.loads(text)["collisions"]


def written(value):
    return json.dumps(value, separators=(",", ":"))


def with_entries(text, entries):
    return written(json.loads(text) | {"collisions": entries})


def changed_entries(text):
    """The text with entries dropped, doubled, exchanged, and each part of each changed."""
    entries = entries_of(text)
    for i, entry in enumerate(entries):
        yield f"entry {i} dropped", with_entries(text, entries[:i] + entries[i + 1 :])
        yield f"entry {i} twice", with_entries(text, entries[:i] + [entry] + entries[i:])
        yield f"entry {i} last", with_entries(text, entries[:i] + entries[i + 1 :] + [entry])
        yield f"entries up to {i}", with_entries(text, entries[:i])
        yield f"{i} entries more", with_entries(text, entries + entries[: i + 1])
        for part, instead in itertools.chain(itertools.product((0, 3), NUMBERS), itertools.product((1, 2), TEAMS), itertools.product((4, 5), ORDERS)):
            changed = entries[:i] + [entry[:part] + [instead] + entry[part + 1 :]] + entries[i + 1 :]
            yield f"part {part} of entry {i} is {instead}", with_entries(text, changed)


def changed_values(text):
    """The text with its numbers, its type and its witness changed, one or two at a time."""
    value = json.loads(text)
    numbers = [0, 1, 2, 3, 4, 5, 6, 7, 8, 9, 255, 256, 2**63, 2**64 - 1, 2**64]
    others = [-1, 1.5, True, None, "2", "", [], {}, [0], [0, [0], [0]], [0, [0], [0, 0]], [0, [], []], "TAS", "a" * 32, "a" * 33]
    for key in value:
        for other in numbers + others:
            yield f"{key} is {other}", written(value | {key: other})
    for one, two in (("limit", "number"), ("limit", "version"), ("number", "version")):
        for first, second in itertools.product(numbers[:11] + [None], repeat=2):
            yield f"{one} is {first}, {two} is {second}", written(value | {one: first, two: second})


def changed_keys(text):
    """The text with its keys dropped, doubled, renamed and in another order."""
    value = json.loads(text)
    pairs = [(written(key), written(it)) for key, it in value.items()]
    whole = lambda them: "{" + ",".join(f"{key}:{it}" for key, it in them) + "}"
    yield "keys in reverse", whole(pairs[::-1])
    yield "no keys", "{}"
    for i, (key, it) in enumerate(pairs):
        yield f"no {key}", whole(pairs[:i] + pairs[i + 1 :])
        yield f"{key} twice", whole(pairs + [(key, it)])
        yield f"{key} twice, another first", whole([(key, '"x"')] + pairs)
        yield f"{key} twice, another last", whole(pairs + [(key, '"x"')])
        yield f"{key} renamed", whole(pairs[:i] + [(key.upper(), it)] + pairs[i + 1 :])
        yield f"{key} with an escape", whole(pairs[:i] + [(f'"\\u{ord(key[1]):04x}{key[2:]}', it)] + pairs[i + 1 :])
        yield f"another key before {key}", whole(pairs[:i] + [('""', "0")] + pairs[i:])


def spaced(text):
    """The text with white space, or a character that is none, before each token and behind the last."""
    places = [match.start() for match in re.finditer(r'"[^"]*"|\d+|null|[^\s]', text)] + [len(text)]
    for at in places:
        for between in (" ", "\n", "\t", "\x00", "\u00a0", ","):
            yield f"{between!r} at {at}", text[:at] + between + text[at:]
    for between in (" ", "\r\n", "\t\n\r "):
        yield f"{between!r} everywhere", "".join(between + text[one:two] for one, two in zip([0] + places, places + [None]))


DIGITS = "1" * 400
WRITTEN_NUMBERS = [DIGITS, f"-{DIGITS}", f"0.{DIGITS}", f"{DIGITS}.0", "0" * 400, f"2{'0' * 300}", "1e400", "1e-400", "0e400", "-1e400"]
WRITTEN_NUMBERS += ["03", "3.0", "3e0", "-0", "-3", "+3", "3.", ".3", "0x3", "3_0", "NaN", "Infinity", "\u0663"]


def written_otherwise(text):
    """The text with another way to write its numbers and its type."""
    limit, name = re.search(r'"limit":(\d+)', text)[0], json.loads(text)["type"]
    for number in WRITTEN_NUMBERS:
        yield f"limit {number[:8]} of {len(number)}", text.replace(limit, f'"limit":{number}')
        yield f"an entry {number[:8]} of {len(number)}", text.replace('"collisions":[', f'"collisions":[{number},', 1)
    behind = ["\\u0000", "\\ud83d\\ude00", "\\ude00\\ud83d", "\\ud83d", "\\", "\n", "\t", "\x00", "\x7f", "\u00e9", "\\n", "\\x41"]
    forms = [f"\\u{ord(name[0]):04x}{name[1:]}", f"{name[:-1]}\\u{ord(name[-1]):04X}", f"\\ud800{name}", f"\\{name}", name.upper(), f" {name}"]
    for form in forms + [name + part for part in behind]:
        yield f"type {form!r}", text.replace(f'"{name}"', f'"{form}"')


def nested(text):
    """Lists and objects in each other, whole, in the text, and cut."""
    for deep in (126, 127, 128, 200, 100_000):
        for opening, inner, closing in (("[", "", "]"), ('{"a":', "0", "}")):
            value = lambda count: opening * count + inner + closing * count
            yield f"{deep} of {opening} in each other", value(deep)
            yield f"{deep - 1} of {opening} in the witness", re.sub(r'"witness":.*', f'"witness":{value(deep - 1)}}}', text)
        yield f"{deep} open brackets", "[" * deep
        yield f"{deep} open entries", text.replace('"collisions":[', '"collisions":[' + "[" * deep, 1)


def bytes_otherwise(text):
    data, name = text.encode(), json.loads(text)["type"].encode()
    for at in range(len(name) + 1):
        for bad in NOT_UTF_8:
            yield f"{bad} at {at} of the type", data.replace(b'"' + name + b'"', b'"' + name[:at] + bad + name[at:] + b'"')
    for bad in NOT_UTF_8:
        yield f"{bad} before all", bad + data
        yield f"{bad} behind all", data + bad
    yield "a byte order mark", b"\xef\xbb\xbf" + data
    yield "UTF-16", text.encode("utf-16")
    yield "UTF-32", text.encode("utf-32")
    yield "two texts", data + data
    yield "nothing", b""


def witnesses(text, name):
    """All choices of the type, and some that are none, as the witness; those for the number alone, but for a few."""
    value, kind = json.loads(text), Table(TYPES[name])
    operations = range(len(kind.operations) + 1)
    for state in range(len(kind.states) + 1):
        for size in range(value["number"] + 1):
            for chosen in itertools.product(operations, repeat=value["number"]):
                yield f"witness {state} {chosen} {size}", written(value | {"witness": [state, chosen[:size], chosen[size:]]})


SEARCHED = ["test_and_set_at_3", "found_test_and_set_at_3", "binary_register_at_2", "found_binary_register_at_2"]
OTHERS = ["sticky_bit_at_4", "found_sticky_bit_at_8", "idle_at_2", "found_idle_at_2", "found_three_shot_at_3"]


def forged_certificates():
    for key in SEARCHED + OTHERS:
        text = CERTIFICATES[key]
        name = json.loads(text)["type"]
        yield key, name, "as it is", text
        ways = [changed_entries, changed_values]
        if key in SEARCHED:
            ways += [changed_keys, written_otherwise, nested, bytes_otherwise]
        if "found_test" in key or key == "binary_register_at_2":
            ways += [lambda it: ((f"the first {size} bytes", it[:size]) for size in range(len(it)))]
        if "found_test" in key or key == "test_and_set_at_3":
            ways += [spaced, lambda it: changed_bytes(it.encode())]
        for way in ways:
            yield from ((key, name, about, forged) for about, forged in way(text))
    for key, name in (("found_test_and_set_at_3", "test_and_set"), ("three_shot_at_3", "three_shot"), ("found_three_shot_at_3", "three_shot")):
        yield from ((key, name, about, forged) for about, forged in witnesses(CERTIFICATES[key], name))
