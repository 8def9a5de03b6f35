#!/usr/bin/python3
"""Types for Python out of the description.

usage: tests/trials/api/python_types.py [FILE]    (client/acd_types.py, which tests/trials/try-api compares; else it prints them)

Needs python3-yaml (a Debian package)."""
import textwrap

from made import put

HEAD = '''"""The bodies that the desk takes and gives, as types: made of docs/openapi.yaml by
tests/trials/api/python_types.py, and not by hand."""
from __future__ import annotations

from typing import Literal, NotRequired, TypedDict, Union
'''


def type_of(schema):
    if "$ref" in schema:
        return schema["$ref"].rsplit("/", 1)[1]
    if "enum" in schema:
        return f"Literal[{', '.join(map(repr, schema['enum']))}]"
    if schema["type"] == "array":
        return f"list[{type_of(schema['items'])}]"
    return {"integer": "int", "string": "str"}[schema["type"]]


def typed_dict(name, schema):
    """A class for an object; what an allOf refers to is its base."""
    parts = schema.get("allOf", [schema])
    bases = [type_of(part) for part in parts if "$ref" in part] or ["TypedDict"]
    lines = [f"    {member}: {type_of(inner) if member in part.get('required', []) else f'NotRequired[{type_of(inner)}]'}\n"
             for part in parts for member, inner in part.get("properties", {}).items()]
    return f"\n\nclass {name}({', '.join(bases)}):\n{''.join(lines or ['    pass' + chr(10)])}"


def assigned(name, kind):
    line = f"{name} = {kind}"
    indent = " " * (line.find("[") + 1)
    return textwrap.fill(line, 120, subsequent_indent=indent, break_long_words=False, break_on_hyphens=False) + "\n"


def module(document):
    """Plain values, then the objects, then what is one of several."""
    plain, objects, unions = [], [], []
    for name, schema in document["components"]["schemas"].items():
        if "oneOf" in schema:
            unions.append((name, [type_of(choice) for choice in schema["oneOf"]]))
        elif "allOf" in schema or schema["type"] == "object":
            objects.append(typed_dict(name, schema))
        else:
            plain.append(assigned(name, type_of(schema)))
    made = []
    while unions:  # one that is made of another stands behind it
        name, choices = next(union for union in unions if not any(other in union[1] for other, _ in unions))
        unions.remove((name, choices))
        made.append(assigned(name, f"Union[{', '.join(choices)}]"))
    return HEAD + "\n" + "".join(plain) + "".join(objects) + "\n\n" + "".join(made)


if __name__ == "__main__":
    put(module)
