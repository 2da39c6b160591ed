"""Reads a schema of JSON by small means: the words of draft 2020-12 that docs/desk.schema.json uses, and no other."""
import re

TYPES = {"object": dict, "array": list, "string": str, "integer": int, "boolean": bool, "null": type(None)}


def is_a(value, name):
    # a truth is an int to Python
    return isinstance(value, TYPES[name]) and (name == "boolean" or not isinstance(value, bool))


def same(value, other):
    return type(value) is type(other) and value == other


def first(faults):
    return next((found for found in faults if found is not None), None)


def of_parts(root, parts):
    """The first fault of values by their schemas, with its key or place before it."""
    found = ((key, fault(root, value, schema)) for key, value, schema in parts)
    return first(f"{key}: {what}" if what is not None else None for key, what in found)


def reference(root, wanted, value):
    return fault(root, value, root["$defs"][wanted.removeprefix("#/$defs/")])


def one_of(root, schemas, value):
    faults = [fault(root, value, schema) for schema in schemas]
    return None if faults.count(None) == 1 else f"{faults.count(None)} shapes fit: {faults}"


def properties(root, schemas, value):
    return of_parts(root, [(key, value[key], schema) for key, schema in schemas.items() if key in value]) if is_a(value, "object") else None


def items(root, schema, value):
    return of_parts(root, [(place, part, schema) for place, part in enumerate(value)]) if is_a(value, "array") else None


def limit(kind, within):
    """A word that limits values of a kind, and says nothing of others."""
    return lambda root, most, value: f"{str(value)[:40]} passes the limit {most}" if is_a(value, kind) and not within(value, most) else None


def wanted(good):
    """A word that all values must be good for."""
    return lambda root, due, value: None if good(value, due) else f"{str(value)[:40]} is not {due}"


WORDS = {
    "$ref": reference,
    "oneOf": one_of,
    "properties": properties,
    "items": items,
    "type": wanted(lambda value, due: any(is_a(value, name) for name in ([due] if isinstance(due, str) else due))),
    "const": wanted(same),
    "enum": wanted(lambda value, due: any(same(value, other) for other in due)),
    "required": limit("object", lambda value, names: all(name in value for name in names)),
    "minItems": limit("array", lambda value, least: len(value) >= least),
    "maxItems": limit("array", lambda value, most: len(value) <= most),
    "minimum": limit("integer", lambda value, least: value >= least),
    "maximum": limit("integer", lambda value, most: value <= most),
    "minLength": limit("string", lambda value, least: len(value) >= least),
    "pattern": limit("string", lambda value, pattern: re.search(pattern, value) is not None),
}
SILENT = {"$schema", "$defs", "title", "description", "additionalProperties"}


def strange(schema, value):
    """Keys are closed wherever there are any."""
    if ("properties" in schema) != ("additionalProperties" in schema) or schema.get("additionalProperties", False) is not False:
        raise ValueError("an object of the schema does not close its keys")
    others = set(value) - set(schema["properties"]) if "properties" in schema and is_a(value, "object") else ()
    return f"there is no key {sorted(others)}" if others else None


def fault(root, value, schema=None):
    """The first fault of a value by the schema, or by one within it; None where there is none."""
    schema = root if schema is None else schema
    unknown = schema.keys() - WORDS.keys() - SILENT
    if unknown:
        raise ValueError(f"words of the schema that shape.py does not read: {sorted(unknown)}")
    return first([strange(schema, value), *(WORDS[word](root, said, value) for word, said in schema.items() if word in WORDS)])
