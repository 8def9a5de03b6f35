#!/usr/bin/python3
"""Types for TypeScript, and for JavaScript that tsc checks, out of the description.

usage: tests/trials/api/typescript.py [FILE]    (else it prints them)

Needs python3-yaml (a Debian package)."""
from made import put


def literal(value):
    return f"'{value}'" if isinstance(value, str) else str(value)


def member_types(schema):
    required = schema.get("required", [])
    shown = [f"{name}{'' if name in required else '?'}: {type_of(inner)};" for name, inner in schema.get("properties", {}).items()]
    return shown + [f"{name}?: never;" for name in schema.get("not", {}).get("required", [])]


def type_of(schema):
    if "$ref" in schema:
        return schema["$ref"].rsplit("/", 1)[1]
    if "oneOf" in schema:
        return " | ".join(map(type_of, schema["oneOf"]))
    if "allOf" in schema:
        return " & ".join(map(type_of, schema["allOf"]))
    if "enum" in schema:
        return " | ".join(map(literal, schema["enum"]))
    if schema["type"] == "array":
        return f"Array<{type_of(schema['items'])}>"
    if schema["type"] == "object":
        return "{ " + " ".join(member_types(schema)) + " }"
    return {"integer": "number", "string": "string"}[schema["type"]]


def declarations(document):
    return "".join(f"export type {name} = {type_of(schema)};\n" for name, schema in document["components"]["schemas"].items())


if __name__ == "__main__":
    put(declarations)
