"""Whether the tables of docs/USING.md and the description say the same. Routes and what they answer are told by docs/api.html alone, which is made of the description."""
import re

SCHEMAS = "#/components/schemas/"
HEAD_FAULTS = {"json", "head", "host", "contentLength", "after"}
FORMS = [(r"a text of (\d+) to (\d+) digits", "^[0-9]{%s,%s}$"), (r"a text of (\d+) to (\d+) characters of a-z, 0-9 and hyphen", "^[a-z0-9-]{%s,%s}$"),
         (r"a text of (\d+) to (\d+) characters from space to `~`", "^[ -~]{%s,%s}$")]
NUMBERS = r"(?:a whole number from|seconds,) (\d+) to (\d+)"
NAMED = {"device": "DeviceId", "agent": "AgentId", "call": "CallId", "monitor": "MonitorId", "requester": "Requester", "invoke": "Invoke", "name": "Name",
         "ring": "Timeout", "wrap": "Timeout", "priority": "Priority", "moment": "Moment"}


def rows(page, heading):
    """The rows of the table whose first line begins so, each as its cells."""
    lines = page.split("\n")
    start = next(number for number, line in enumerate(lines) if line.startswith(heading)) + 2
    for line in lines[start:]:
        if not line.startswith("|"):
            return
        yield [cell.strip() for cell in line[1:-1].split("|")]


def texts(phrase):
    """What stands in a phrase between backticks."""
    return re.findall(r"`([^`]+)`", phrase)


class Comparison:
    def __init__(self, description, page):
        self.description, self.page = description, page
        self.found, self.count = [], 0

    def same(self, what, page, described):
        self.count += 1
        if page != described:
            self.found.append(f"{what}: the page has {page}, the description {described}")

    def members(self, name):
        return self.description.merged(self.description.schemas[name])

    def variants(self):
        """By service its requests' schemas, merged."""
        found = {}
        for name in self.description.requests():
            found.setdefault(self.members(name)["properties"]["service"]["enum"][0], []).append(self.members(name))
        return found

    def all(self):
        self.compare_services()
        self.compare_forms()
        self.compare_codes()
        self.compare_results()
        self.compare_events()
        self.compare_states()
        return self.found

    def compare_services(self):
        described = self.variants()
        shown = {}
        for cells in rows(self.page, "| service and members"):
            service, _, members = cells[0].partition("` ")
            shown[service.strip("`")] = re.findall(r"\b(%s)\b" % "|".join([*NAMED, "caller", "called", "to", "group", "groups", "requested"]), members)
        self.same("services", sorted(shown), sorted(described))
        for service, variants in described.items():
            asked = [[name for name in variant["required"] if name not in ("requester", "invoke", "service")] for variant in variants]
            if len(asked) == 1:
                self.same(service, shown.get(service), asked[0])
            else:
                self.same(service, set(shown.get(service, [])), {name for names in asked for name in names})
        named = {name for variants in described.values() for variant in variants for name in variant["properties"]}
        self.same("members that may be faulty", named | HEAD_FAULTS, set(self.description.schemas["FaultyMember"]["enum"]))

    def compare_forms(self):
        plain = self.description.plain["components"]["schemas"]
        for names, form in rows(self.page, "| member | form |"):
            for name in texts(names) or re.findall(r"^\w+", names):
                schema = plain.get(NAMED.get(name))
                for pattern, made in FORMS:
                    found = re.match(pattern, form)
                    if found and schema:
                        self.same(name, made % found.groups(), schema["pattern"])
                found = re.match(NUMBERS, form) or re.match(r"seconds, a whole number from (\d+) to (\d+)", form)
                if found and schema:
                    self.same(name, tuple(map(int, found.groups())), (schema["minimum"], schema["maximum"]))
                if name == "requested":
                    changes = self.members("ChangeState")["properties"]["requested"]["enum"] + self.members("LogOnInGroup")["properties"]["requested"]["enum"]
                    self.same(name, set(texts(form)), set(changes))
                if name == "groups":
                    self.same(name, "one to eight devices" in form, (plain["ServedGroups"]["minItems"], plain["ServedGroups"]["maxItems"]) == (1, 8))

    def codes_of(self, status):
        """The codes of /csta's answers with a status."""
        response = self.description.resolved(self.description.document["paths"]["/csta"]["post"]["responses"].get(status, {"content": {}}))
        facts = [fact for content in response["content"].values() for fact in self.description.facts(content["schema"], "reply")]
        codes = {place[:-5]: value for place, how, value in facts if how == "is" and place.endswith(".code")}
        return {(codes[place[:-5]], value) for place, how, value in facts if how == "is" and place.endswith(".name") and place[:-5] in codes}

    def compare_codes(self):
        for status, told in rows(self.page, "| status | codes and names, and when |"):
            shown = {(int(code), name) for code, name in re.findall(r"(\d+) `(\w+)`", told)}
            self.same(f"codes of {status}", shown, self.codes_of(status))

    def compare_results(self):
        shown = {}
        for services, result in rows(self.page, "| service | result |"):
            for service in re.findall(r"\w+", services.partition(", agent")[0].partition(", else")[0]):
                shown.setdefault(service, set()).add(frozenset(re.findall(r'"(\w+)":', result)))
        for service, variants in self.variants().items():
            result = self.description.schemas[variants[0]["x-result"]]
            required, possible = frozenset(result.get("required", [])), frozenset(result.get("properties", {}))
            self.same(f"result of {service}", shown.get(service, {frozenset()}), {required, possible})

    def compare_events(self):
        described = [schema["$ref"][len(SCHEMAS):] for schema in self.description.schemas["EventReport"]["oneOf"]]
        shown = list(rows(self.page, "| kind | event | device | call | further members |"))
        self.same("events", [cells[1] for cells in shown], [name[0].lower() + name[1:] for name in described])
        for (kind, event, device, call, further), name in zip(shown, described):
            schema = self.members(name)
            required, optional, causes = {"event", "moment", "number"}, set(), None
            required |= {"device"} if device else set()
            required |= {"call"} if call else set()
            for part in filter(None, further.split("; ")):
                (optional if " where " in part or " of an agent " in part else required).update(texts(part))
                causes = part.partition(": ")[2].split(", ") if part.startswith("`cause`") else causes
            self.same(f"event {kind}, {event}", (required, optional), (set(schema["required"]), set(schema["properties"]) - set(schema["required"])))
            self.same(f"causes of {event}", causes, schema["properties"].get("cause", {}).get("enum"))

    def compare_states(self):
        states, pending = re.search(r"States are the texts (.*?); pending ones (.*?)\.", self.page).groups()
        connections = re.search(r"Connection states:\s+(.*?)\.", self.page, re.DOTALL)[1]
        for name, shown in (("AgentState", texts(states)), ("PendingState", texts(pending)), ("ConnectionState", re.findall(r"([a-z]+) \d", connections))):
            self.same(name, shown, self.description.schemas[name]["enum"])
