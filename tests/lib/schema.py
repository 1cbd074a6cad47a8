"""Values against JSON Schemas: the part of draft 7 that the files of docs/schema use."""
import re

TYPES = {"object": dict, "array": list, "string": str, "boolean": bool, "null": type(None)}
# What describes a schema and limits no value.
WORDS = {"$schema", "title", "description", "definitions"}


def is_integer(value):
    return isinstance(value, int) and not isinstance(value, bool)


def is_of(value, kind):
    return is_integer(value) if kind == "integer" else isinstance(value, TYPES[kind])


def same(one, other):
    """Whether two values are equal in JSON, where true is not 1."""
    if isinstance(one, list) and isinstance(other, list):
        return len(one) == len(other) and all(map(same, one, other))
    if isinstance(one, dict) and isinstance(other, dict):
        return one.keys() == other.keys() and all(same(one[key], other[key]) for key in one)
    return type(one) is type(other) and one == other


class Schema:
    """A schema, with the document in which its references stand."""

    def __init__(self, document):
        self.document = document

    def faults(self, value):
        """What is wrong with a value: a line for each place, with the path to it. None if nothing is."""
        return list(self.of(self.document, value, "$"))

    def at(self, path):
        part = self.document
        for key in path.removeprefix("#/").split("/"):
            part = part[key]
        return part

    def of(self, schema, value, path):
        if "$ref" in schema:
            if len(schema) > 1:
                raise ValueError(f"{schema['$ref']} stands beside other words, which do not count there")
            schema = self.at(schema["$ref"])
        for word, wanted in schema.items():
            if word in WORDS or word in ("required", "additionalProperties", "additionalItems"):
                continue
            limit = LIMITS.get(word)
            if not limit:
                raise ValueError(f"no word of a schema: {word}")
            yield from limit(self, schema, wanted, value, path)


def of_type(schemas, schema, wanted, value, path):
    if not is_of(value, wanted):
        yield f"{path}: no {wanted}"


def of_const(schemas, schema, wanted, value, path):
    if not same(value, wanted):
        yield f"{path}: not {wanted!r}"


def of_enum(schemas, schema, wanted, value, path):
    if not any(same(value, one) for one in wanted):
        yield f"{path}: none of {wanted!r}"


def of_one(schemas, schema, wanted, value, path):
    told = [list(schemas.of(one, value, path)) for one in wanted]
    fits = sum(not faults for faults in told)
    if fits != 1:
        yield f"{path}: of {len(wanted)} forms it has {fits}: " + "; ".join(faults[0] for faults in told if faults)


def of_properties(schemas, schema, wanted, value, path):
    if not isinstance(value, dict):
        return
    for key in schema.get("required", []):
        if key not in value:
            yield f"{path}: no {key}"
    for key, part in value.items():
        if key in wanted:
            yield from schemas.of(wanted[key], part, f"{path}.{key}")
        elif schema.get("additionalProperties") is False:
            yield f"{path}: {key} should not be there"


def of_items(schemas, schema, wanted, value, path):
    if not isinstance(value, list):
        return
    each = wanted if isinstance(wanted, list) else [wanted] * len(value)
    for place, (one, part) in enumerate(zip(each, value)):
        yield from schemas.of(one, part, f"{path}[{place}]")
    if schema.get("additionalItems") is False and len(value) > len(each):
        yield f"{path}: more than {len(each)} items"


def unique(schemas, schema, wanted, value, path):
    if isinstance(value, list) and any(same(one, other) for k, one in enumerate(value) for other in value[:k]):
        yield f"{path}: an item stands twice"


def pattern(schemas, schema, wanted, value, path):
    if isinstance(value, str) and not re.search(wanted.replace("$", r"\Z"), value):
        yield f"{path}: {value!r} does not match {wanted}"


def least(kind, size):
    def limit(schemas, schema, wanted, value, path):
        if kind(value) and size(value) < wanted:
            yield f"{path}: {size(value)} is below {wanted}"

    return limit


def most(kind, size):
    def limit(schemas, schema, wanted, value, path):
        if kind(value) and size(value) > wanted:
            yield f"{path}: {size(value)} is above {wanted}"

    return limit


def is_list(value):
    return isinstance(value, list)


def is_text(value):
    return isinstance(value, str)


LIMITS = {
    "type": of_type,
    "const": of_const,
    "enum": of_enum,
    "oneOf": of_one,
    "properties": of_properties,
    "items": of_items,
    "uniqueItems": unique,
    "pattern": pattern,
    "minimum": least(is_integer, int),
    "maximum": most(is_integer, int),
    "minItems": least(is_list, len),
    "maxItems": most(is_list, len),
    "minLength": least(is_text, len),
}
