"""A validator of JSON values for the keywords that docs/results.schema.json uses.

`faults` gives a line for each place of a value that does not fit a JSON Schema (draft 2020-12).
Another keyword than those below is an error of the schema.
"""

KEYWORDS = {"$schema", "$defs", "$ref", "title", "description", "type", "properties", "required",
            "additionalProperties", "items", "maxItems", "enum", "anyOf", "minimum", "maximum",
            "minLength", "maxLength"}
TYPES = {
    "object": lambda value: isinstance(value, dict),
    "array": lambda value: isinstance(value, list),
    "string": lambda value: isinstance(value, str),
    "boolean": lambda value: isinstance(value, bool),
    "null": lambda value: value is None,
    "integer": lambda value: isinstance(value, int) and not isinstance(value, bool),
}


def faults(schema, value, place="$", whole=None):
    """A line for each place of the value that does not fit the schema."""
    whole = whole or schema
    unknown = set(schema) - KEYWORDS
    if unknown:
        raise ValueError(f"unknown keywords: {sorted(unknown)}")
    if "$ref" in schema:
        yield from faults(referred(whole, schema["$ref"]), value, place, whole)
    if "type" in schema and not TYPES[schema["type"]](value):
        yield f"{place}: no {schema['type']}"
        return
    if "enum" in schema and value not in schema["enum"]:
        yield f"{place}: none of the values"
    if "anyOf" in schema:
        found = [list(faults(one, value, place, whole)) for one in schema["anyOf"]]
        if all(found):
            yield f"{place}: fits none: {found}"
    yield from sizes(schema, value, place)
    yield from parts(schema, value, place, whole)


def referred(whole, path):
    for name in path.removeprefix("#/").split("/"):
        whole = whole[name]
    return whole


def sizes(schema, value, place):
    """A number, a text or a list that is too small or too large."""
    for word, size in (("imum", value), ("Length", value), ("Items", value)):
        if word != "imum":
            size = len(value) if isinstance(value, (str, list)) else None
        for way, sign in (("min", 1), ("max", -1)):
            bound = schema.get(way + word)
            if bound is not None and sign * size < sign * bound:
                yield f"{place}: {way}{word} {bound}"


def parts(schema, value, place, whole):
    """The members of an object and the items of a list."""
    if isinstance(value, dict):
        known = schema.get("properties", {})
        for name in schema.get("required", []):
            if name not in value:
                yield f"{place}: {name} is missing"
        for name, part in value.items():
            if name in known:
                yield from faults(known[name], part, f"{place}.{name}", whole)
            elif schema.get("additionalProperties") is False:
                yield f"{place}: {name} is none of its members"
    if isinstance(value, list) and "items" in schema:
        for at, part in enumerate(value):
            yield from faults(schema["items"], part, f"{place}[{at}]", whole)
