"""Holds exchanges against the description, and counts what came up."""
import json
import re
from collections import Counter

SPELLING = re.compile(r'(?<![\w".])-?\d+(\.\d+([eE][+-]?\d+)?|[eE][+-]?\d+)|-0(?![\d.])')
REFUSED_BEFORE = {404: "NotFound", 405: "MethodNotAllowed", 501: "NotImplemented", 431: "HeadTooLarge", 400: "Malformed"}


def no_constant(text):
    raise ValueError(text)


def read_json(body):
    """The value of a text, or None where it isn't JSON in UTF-8."""
    try:
        value = json.loads(body.decode(), parse_constant=no_constant)
        json.dumps(value, ensure_ascii=False).encode()
    except (ValueError, AttributeError):
        return None
    return value


class Judge:
    def __init__(self, description):
        self.description = description
        self.statuses, self.spelt, self.kinds = Counter(), 0, Counter()
        self.seen = set()
        examples = self.responses("/csta", "post")
        self.examples = {name: (int(status), it["value"]) for status, response in examples.items()
                         for content in response.get("content", {}).values() for name, it in content.get("examples", {}).items()}

    def responses(self, path, method):
        """Those of the desk: none that a proxy alone answers."""
        described = self.description.document["paths"].get(path, {}).get(method, {}).get("responses", {})
        resolved = {status: self.description.resolved(response) for status, response in described.items()}
        return {status: response for status, response in resolved.items() if "x-proxy" not in response}

    def judged(self, exchange):
        """What of an exchange isn't as the description says."""
        path, operation, values = self.description.operation(exchange.method, exchange.target)
        self.statuses[path, exchange.method, exchange.status] += 1
        response = self.response_to(exchange, path, operation)
        if response is None:
            yield f"status {exchange.status} isn't named"
            return
        for name, header in response.get("headers", {}).items():
            value = exchange.fields.get(name.lower())
            if value is None or self.description.errors(header["schema"], value, True):
                yield f"field {name}: {value}"
        value = yield from self.judged_body(exchange, response)
        if operation is not None and exchange.method == "POST":
            yield from self.judged_request(exchange, value)
        elif operation is not None and not exchange.sent:
            yield from self.judged_parameters(exchange, operation, values)

    def response_to(self, exchange, path, operation):
        if operation is not None:
            return self.responses(path, "get" if exchange.method == "HEAD" else exchange.method.lower()).get(str(exchange.status))
        name = REFUSED_BEFORE.get(exchange.status)
        return name and self.description.document["components"]["responses"][name]

    def judged_body(self, exchange, response):
        """The body's value, which is looked for behind all but a HEAD."""
        if exchange.method == "HEAD":
            if exchange.reply:
                yield "HEAD has a body"
            return None
        kind = exchange.fields.get("content-type")
        if kind not in response["content"]:
            yield f"Content-Type {kind}"
            return None
        value = read_json(exchange.reply) if kind == "application/json" else exchange.reply.decode()
        schema = response["content"][kind]["schema"]
        errors = self.description.errors(schema, value, True)
        if errors:
            yield f"reply: {errors[0].message[:200]}"
        else:
            self.seen.update(self.description.uses(schema, value, "reply"))
            for event in value.get("events", []) if isinstance(value, dict) else ():
                self.kinds[event["event"], event.get("cause"), "group" in event] += 1
        return value

    def judged_request(self, exchange, reply):
        """A body is valid just where it isn't malformed, but for the spelling of numbers; a result is that of its request."""
        if exchange.status in (411, 413, 431, 501) or reply is None or reply.get("error", {}).get("member") in ("head", "host", "contentLength"):
            return
        request, malformed = read_json(exchange.body), exchange.status == 400
        errors = self.description.errors({"$ref": "#/components/schemas/ServiceRequest"}, request, False)
        if malformed and not errors and SPELLING.search(exchange.body.decode()):
            self.spelt += 1
        elif malformed == (not errors):
            told = f"malformed, {reply['error']}" if malformed else "taken"
            yield f"request {exchange.body[:300]!r} is {told}, and by its schema {errors[0].message[:200] if errors else 'valid'}"
        if exchange.status == 200 and not malformed and not errors:
            result = self.description.schemas[self.description.variant(request)]["x-result"]
            for error in self.description.errors({"$ref": f"#/components/schemas/{result}"}, reply["result"], True):
                yield f"result of {request['service']}: {error.message}"
        if exchange.example and (exchange.status, reply) != self.examples.get(exchange.example):
            yield f"example {exchange.example}: {exchange.status} {reply}"

    def judged_parameters(self, exchange, operation, values):
        """A read with a parameter outside of its form is 404 in the path and 400 in the query; without one it isn't malformed."""
        query = [part.partition("=") for part in exchange.target.partition("?")[2].split("&")]
        wrong = {"path": False, "query": False}
        for parameter in map(self.description.resolved, operation.get("parameters", [])):
            name = parameter["name"]
            given = [values[name]] if parameter["in"] == "path" else [value for key, _, value in query if key == name]
            if len(given) > 1 or any(self.is_wrong(parameter["schema"], text) for text in given):
                wrong[parameter["in"]] = True
        wanted = 400 if wrong["query"] else 404 if wrong["path"] else None
        if exchange.status != wanted if wanted else exchange.status == 400:
            yield f"status {exchange.status}, and by its parameters {wanted or 'another'}"

    def is_wrong(self, schema, text):
        whole = self.description.resolved(schema).get("type") == "integer"
        if whole and not re.fullmatch(r"-?[0-9]+", text):
            return True
        return bool(self.description.errors(schema, int(text) if whole else text, False))

    # what has to come up

    def missing(self):
        """What the description names and no exchange had: statuses, fixed texts, members that may be there or not."""
        for path, method, _ in self.description.operations():
            responses = self.responses(path, method)
            for status in responses:
                if not self.statuses[path, method.upper(), int(status)]:
                    yield f"{method} {path} {status}"
            for response in responses.values():
                for content in response["content"].values():
                    yield from (fact for fact in self.description.facts(content["schema"], "reply") if fact not in self.seen)
