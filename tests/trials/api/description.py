"""What docs/openapi.yaml says: of the requests, of a reply, and of what has to come up for each word of it to be true.

Needs python3-jsonschema and python3-yaml (Debian packages)."""
import copy
import json
import re

import jsonschema
import yaml

SCHEMAS = "#/components/schemas/"


def by_discriminator(validator, choices, instance, schema):
    """oneOf as a client reads it: the discriminator names the one schema, so its mapping is held to account too."""
    if "discriminator" not in schema:
        yield from jsonschema.Draft7Validator.VALIDATORS["oneOf"](validator, choices, instance, schema)
        return
    chosen = choice(schema, instance)
    if chosen is None:
        yield jsonschema.ValidationError(f"{schema['discriminator']['propertyName']} names no schema")
    else:
        yield from validator.descend(instance, chosen)


def choice(schema, instance):
    """What the discriminator's mapping has for the value, if anything."""
    value = instance.get(schema["discriminator"]["propertyName"]) if isinstance(instance, dict) else None
    return schema["discriminator"]["mapping"].get(value) if isinstance(value, str) else None


Validator = jsonschema.validators.extend(jsonschema.Draft7Validator, {"oneOf": by_discriminator})


def make_exact(node):
    """In Python `$` stands before a last line feed too; a pattern of the description means the end alone."""
    for value in node.values() if isinstance(node, dict) else node if isinstance(node, list) else ():
        make_exact(value)
    if isinstance(node, dict) and isinstance(node.get("pattern"), str) and node["pattern"].endswith("$"):
        node["pattern"] = node["pattern"][:-1] + r"\Z"


class Description:
    def __init__(self, text):
        self.text, self.plain = text, yaml.safe_load(text)
        self.document = copy.deepcopy(self.plain)
        make_exact(self.document)
        self.schemas = self.document["components"]["schemas"]
        self.closed = copy.deepcopy(self.document)
        self.closed["components"]["schemas"] = {name: self.close(schema) for name, schema in self.schemas.items()}
        self.validators, self.wholes = {}, {}
        self.paths = [(re.compile(re.sub(r"\{\w+\}", "([^/]+)", path) + r"\Z"), path) for path in self.document["paths"]]

    def resolved(self, node):
        while "$ref" in node:
            found = self.document
            for part in node["$ref"][2:].split("/"):
                found = found[part]
            node = found
        return node

    def merged(self, schema):
        """An allOf as the one object that it means."""
        schema = self.resolved(schema)
        if "allOf" not in schema:
            return schema
        made = {"type": "object", "required": [], "properties": {}, **{key: value for key, value in schema.items() if key != "allOf"}}
        for part in map(self.merged, schema["allOf"]):
            made["required"] = made["required"] + part.get("required", [])
            made["properties"] = {**made["properties"], **part.get("properties", {})}
            made.update({key: part[key] for key in ("not",) if key in part})
        return made

    def close(self, schema):
        """The same, but an object has no members besides those that are named."""
        if isinstance(schema, list):
            return [self.close(value) for value in schema]
        if not isinstance(schema, dict) or "$ref" in schema:
            return schema
        made = {key: self.close(value) for key, value in self.merged(schema).items()}
        if made.get("type") == "object":
            made.setdefault("properties", {})
            made["additionalProperties"] = False
        return made

    def errors(self, schema, value, closed):
        """What is wrong with the value, by the schema; where closed is set a member that isn't named is wrong too."""
        key = (json.dumps(schema, sort_keys=True), closed)
        if key not in self.validators:
            self.validators[key] = Validator(self.whole(self.close(schema) if closed else schema, closed))
        return list(self.validators[key].iter_errors(value))

    def whole(self, schema, closed):
        """The schema with what its references name in their place: the validator is twice as fast so."""
        if isinstance(schema, list):
            return [self.whole(value, closed) for value in schema]
        if not isinstance(schema, dict):
            return schema
        if "$ref" in schema:
            return self.named(schema["$ref"], closed)
        made = {key: self.whole(value, closed) for key, value in schema.items()}
        if "discriminator" in schema:
            mapping = schema["discriminator"]["mapping"]
            if not all({"$ref": ref} in schema["oneOf"] for ref in mapping.values()):
                raise ValueError(f"a mapping of {schema['discriminator']['propertyName']} names a schema that isn't among its oneOf")
            made["discriminator"] = {**schema["discriminator"], "mapping": {value: self.named(ref, closed) for value, ref in mapping.items()}}
        return made

    def named(self, ref, closed):
        if (ref, closed) not in self.wholes:
            schemas = (self.closed if closed else self.document)["components"]["schemas"]
            self.wholes[ref, closed] = self.whole(schemas[ref[len(SCHEMAS):]], closed)
        return self.wholes[ref, closed]

    def operation(self, method, target):
        """The operation of a method and a target, with the values of its path's parameters; HEAD is as GET."""
        path = target.partition("?")[0]
        for pattern, name in self.paths:
            found = pattern.match(path)
            if found:
                item = self.document["paths"][name]
                operation = item.get("get" if method == "HEAD" else method.lower())
                if operation is None:
                    return name, None, {}
                names = [it["name"] for it in map(self.resolved, operation.get("parameters", [])) if it["in"] == "path"]
                return name, operation, dict(zip(names, found.groups()))
        return None, None, {}

    def operations(self):
        """Path, method and operation of all."""
        return [(path, method, operation) for path, item in self.document["paths"].items() for method, operation in item.items()]

    def variant(self, request):
        """The name of the schema of one request, if its service and what it asks for name one."""
        name = "ServiceRequest"
        while name and "x-result" not in self.schemas[name]:
            schema = self.schemas[name]
            if "discriminator" in schema:
                chosen = choice(schema, request)
            else:
                chosen = schema["oneOf"][0 if "group" in request else 1]["$ref"]
            name = chosen and chosen[len(SCHEMAS):]
        return name

    def requests(self):
        """The names of the schemas of requests."""
        return [name for name, schema in self.schemas.items() if "x-result" in schema]

    def examples(self):
        """The examples of requests, by name; over a new desk they have the replies of the same names."""
        return self.document["paths"]["/csta"]["post"]["requestBody"]["content"]["application/json"]["examples"]

    # what comes up in a reply

    def chosen(self, schema, value):
        """Which schema of a oneOf the value is of."""
        if "discriminator" in schema:
            return choice(schema, value)
        return next(each["$ref"] for each in schema["oneOf"] if not self.errors(each, value, True))

    def uses(self, schema, value, place):
        """Each fixed text and each member that may be left out, as the value has it: facts of the description that were seen."""
        if "$ref" in schema:
            name = schema["$ref"][len(SCHEMAS):]
            yield from self.uses(self.closed["components"]["schemas"][name], value, name)
        elif "oneOf" in schema:
            yield from self.uses({"$ref": self.chosen(schema, value)}, value, place)
        elif "enum" in schema:
            yield place, "is", value
        elif schema.get("type") == "array":
            for item in value:
                yield from self.uses(schema["items"], item, f"{place}[]")
        else:
            for member, inner in schema.get("properties", {}).items():
                if member not in schema.get("required", []):
                    yield place, "has" if member in value else "lacks", member
                if member in value:
                    yield from self.uses(inner, value[member], f"{place}.{member}")

    def facts(self, schema, place, known=None):
        """All that `uses` could tell."""
        known = set() if known is None else known
        if "$ref" in schema:
            name = schema["$ref"][len(SCHEMAS):]
            if name not in known:
                known.add(name)
                yield from self.facts(self.closed["components"]["schemas"][name], name, known)
        elif "oneOf" in schema:
            for inner in schema["oneOf"]:
                yield from self.facts(inner, place, known)
        elif "enum" in schema:
            yield from ((place, "is", value) for value in schema["enum"])
        elif schema.get("type") == "array":
            yield from self.facts(schema["items"], f"{place}[]", known)
        else:
            for member, inner in schema.get("properties", {}).items():
                if member not in schema.get("required", []):
                    yield from ((place, how, member) for how in ("has", "lacks"))
                yield from self.facts(inner, f"{place}.{member}", known)
