"""Judges what the administrator writes: settings, roles, logins, names, and nginx's ports and certificate. Tested, not
proved.

It starts nothing and changes nothing. It reads each file as the program reads it that the file is for, and what that
program would report is a fault here. What all read alike, and its writer may not have meant, is a warning."""
import argparse
import contextlib
import datetime
import json
import re
import ssl
from collections.abc import Callable, Iterator
from functools import partial
from pathlib import Path
from typing import Any

from acd_service import certificate, command, gate_state, office, reasons, settings
from acd_service.command import Fault

# least and greatest value of a setting
NUMBERS = {"ACD_PORT": (1024, 65535), "ACD_GATE_PORT": (1024, 65535), "ACD_TLS_PORT": (1, 65535), "ACD_STEP": (1, 3600),
           "ACD_PATIENCE": (1, 60), "ACD_COPIES": (1, 999), "ACD_HALT": (0, 200), "ACD_CARRY_DAYS": (1, 999_999_999)}
PATHS = ("ACD_FILE", "ACD_COPY_FOLDER", "ACD_SOCKET", "ACD_GATE_SOCKET")
# days before the end of a certificate from which on it is a fault
SOON = 14
MEMBERS = {"title": str, "language": str, "zone": str, "names": dict, "limits": dict, "customer": dict,
           "reasons": dict, "codes": dict, "requireReason": bool}
KINDS = {str: "a text", dict: "an object", bool: "true or false"}
NAMED, LONGEST_ADDRESS = ("groups", "agents", "stations"), 1000
# the settings of pages that are numbers, each with its greatest value, those of one group among them, and those that
# are texts
DAY = 86400
# schemes of a customer's file that would run in the page, or show what is the machine's own
NEVER = {"javascript", "data", "vbscript", "blob", "file", "filesystem", "about", "view-source", "ws", "wss"}
MOST = {"limit": DAY, "goal": 100, "lost": 100, "long": DAY, "bad": DAY, "ringing": DAY, "busy": DAY, "hold": DAY,
        "own": DAY, "workingAfterCall": DAY, "notReady": DAY}
OF_GROUP = r"(limit|goal|lost|long|bad)\.[0-9]{1,15}"
TEXTS = ("title", "lang", "since", "theme", "groups", "level", "tone", "notify")
SECRET, PROXY = "nginx-secret.conf", "X-Proxy"
# what a line begins with that is no fault
WARNING = "warning: "


def why(fault: OSError) -> str:
    return f"can't be read: {fault.strerror or fault}"


def lines_of(file: Path) -> list[str]:
    """The lines of a file, as the gate reads them."""
    return file.read_bytes().removeprefix(b"\xef\xbb\xbf").decode("utf-8", "replace").split("\n")


# Settings

def of_settings(file: Path) -> Iterator[str]:
    found: dict[str, str] = {}
    for number, line in enumerate(lines_of(file), 1):
        name, equals, value = (part.strip() for part in line.partition("="))
        if not line.strip() or line.startswith(("#", ";")):
            continue
        if not equals or not re.fullmatch("[A-Za-z_][A-Za-z0-9_]*", name):
            yield f"{file}, line {number}: must be NAME=VALUE"
            continue
        if name in found:
            yield f"{WARNING}{file}, line {number}: {name} appears twice; the last one counts"
        found[name] = value
    for name in settings.others(found):
        yield f"{file}: no setting is called {name}; the nearest is {settings.nearest(name)}"
    for name in settings.earlier(found):
        yield f"{file}: {name} is a setting of an earlier version; remove it"
    yield from of_values(file)


def values_of(file: Path) -> dict[str, str]:
    return {**settings.DEFAULTS, **{name: value for name, value in settings.written(file).items() if value}}


def of_values(file: Path) -> Iterator[str]:
    has = values_of(file)
    for name, (least, most) in NUMBERS.items():
        try:
            command.whole_number(least, most)(has[name] or str(least))
        except argparse.ArgumentTypeError:
            yield f"{file}: {name} must be a whole number from {least} to {most}, and not '{has[name]}'"
    for name in PATHS:
        if name in has and not has[name].startswith("/"):
            yield f"{file}: {name} must begin with /, and not be '{has[name]}'"
    yield from of_places(file, has)
    with contextlib.suppress(PermissionError):
        if has["ACD_FILE"].startswith("/") and not Path(has["ACD_FILE"]).is_file():
            yield f"{file}: there is no file {has['ACD_FILE']} (ACD_FILE)"


def of_places(file: Path, has: dict[str, str]) -> Iterator[str]:
    """Where desk, gate and nginx listen, and which ports are kept from others."""
    kept = has["ACD_LOCAL_PORTS"]
    if kept and not all(re.fullmatch("[1-9][0-9]{0,4}", port) and int(port) <= 65535 for port in kept.split(",")):
        yield f"{file}: ACD_LOCAL_PORTS must be ports with commas between them, and not '{kept}'"
    for names in (("ACD_PORT", "ACD_GATE_PORT", "ACD_TLS_PORT"), ("ACD_SOCKET", "ACD_GATE_SOCKET")):
        named = [has[name] for name in names if has[name]]
        if len(set(named)) < len(named):
            yield f"{file}: {', '.join(names[:-1])} and {names[-1]} must differ"


# Roles and logins

def of_logins(roles: Path, users: Path) -> Iterator[str]:
    # of the gate's modules only this needs more than Python has
    from acd_service.gate.roles import hashes_of, roles_of
    found: list[dict[str, Any] | None] = []
    readers: list[tuple[Path, Callable[[Path, list[str]], dict[str, Any]]]] = [(roles, roles_of), (users, hashes_of)]
    for file, read in readers:
        with command.reports_into() as reports:
            try:
                found.append(read(file, lines_of(file)))
            except OSError as fault:
                found.append(None)
                reports.append(f"{file} {why(fault)}")
        yield from reports
    has_role, has_password = found
    if has_role is None or has_password is None:
        return
    for login in sorted(has_password.keys() - has_role.keys()):
        yield f"{users}: {login} has no line in {roles}, and gets nothing"
    for login in sorted(has_role.keys() - has_password.keys()):
        yield f"{roles}: {login} has no line in {users}, and can't log in"


def of_own(folder: Path, roles: Path, users: Path) -> Iterator[str]:
    """What the gate refuses of the logins, roles and names that the office gave. There may be none."""
    from acd_service.gate.accounts import Accounts
    if not folder.is_dir():
        return
    with command.reports_into() as reports:
        found = Accounts(roles, users, folder)
        found.both()
        found.names()
    # what is said of root's own files was said before
    yield from (line for line in reports if line.startswith(str(folder)))


# Names

def of_board(file: Path) -> Iterator[str]:
    """An office may have none."""
    if not file.exists():
        return
    try:
        said = json.loads(file.read_bytes())
    except ValueError as fault:
        yield f"{file} is not JSON: {fault}"
        return
    if not isinstance(said, dict):
        yield f"{file} is not a JSON object"
        return
    wrong = set()
    for name, value in said.items():
        if name not in MEMBERS:
            yield f"{file}: no member is called {name}"
        elif not isinstance(value, MEMBERS[name]):
            wrong.add(name)
            yield f"{file}: {name} must be {KINDS[MEMBERS[name]]}"
    judges: dict[str, Callable[[Path, Any], Iterator[str]]] = {
        "zone": of_zone, "names": of_names, "limits": of_limits, "customer": of_customer,
        "reasons": partial(of_list, "reasons"), "codes": partial(of_list, "codes")}
    for name, judge in judges.items():
        if name in said and name not in wrong:
            yield from judge(file, said[name])


def of_zone(file: Path, zone: str) -> Iterator[str]:
    if not office.is_zone(zone):
        yield f"{file}: there is no zone {zone}"


def of_names(file: Path, names: dict[str, Any]) -> Iterator[str]:
    for kind, named in names.items():
        if kind not in NAMED or not isinstance(named, dict):
            yield f"{file}: names has {', '.join(NAMED)}, each an object, and not {kind}"
            continue
        for number, name in named.items():
            if not re.fullmatch("[0-9]{1,15}", number) or not isinstance(name, str) or len(name) > office.LONGEST:
                yield (f"{file}: names.{kind}: {number} must be a number, and its name a text of {office.LONGEST} "
                       "letters at most")


def of_list(name: str, file: Path, has: dict[str, Any]) -> Iterator[str]:
    for key, text in has.items():
        if not re.fullmatch(reasons.KEY, key):
            yield (f"{file}: {name}: {key} must be 1 to 15 of a-z, 0-9 and hyphen, begin with a letter, and not have "
                   "six digits in a row")
        elif not isinstance(text, str) or not text.strip() or len(text) > office.LONGEST:
            yield f"{file}: {name}.{key} must be a text of {office.LONGEST} letters at most"
    if len(has) > office.MOST_KEYS:
        yield f"{file}: {name} has over {office.MOST_KEYS} keys; the others are ignored"


def of_limits(file: Path, limits: dict[str, Any]) -> Iterator[str]:
    for name, value in limits.items():
        plain = re.sub(rf"^{OF_GROUP}$", r"\1", name)
        if plain in MOST:
            number = office.seconds(value)
            if isinstance(value, bool) or number is None or number > MOST[plain]:
                yield f"{file}: limits.{name} must be a number above 0, up to {MOST[plain]}"
        elif name not in TEXTS:
            yield f"{file}: no limit is called {name}"


def of_customer(file: Path, said: dict[str, Any]) -> Iterator[str]:
    for name in sorted(said.keys() - {"address", "schemes"}):
        yield f"{file}: customer has address and schemes, and not {name}"
    schemes = said.get("schemes", ["https"])
    if not isinstance(schemes, list) or not schemes or not all(map(is_scheme, schemes)):
        yield f"{file}: customer.schemes must be a list such as [\"https\"], without those that a browser runs"
        schemes = ["https"]
    address = said.get("address")
    is_text = isinstance(address, str) and "{caller}" in address and len(address) <= LONGEST_ADDRESS
    if not is_text or str(address).partition(":")[0].lower() not in schemes:
        yield f"{file}: customer.address must be an address with {{caller}} in it, of {' or '.join(schemes)}"


def is_scheme(name: object) -> bool:
    return isinstance(name, str) and re.fullmatch("[a-z][a-z0-9+.-]*", name) is not None and name not in NEVER


# The webhook

def of_webhook(file: Path) -> Iterator[str]:
    """An office may have none."""
    # only these need the client's module
    from acd_service import reach
    from acd_service.webhook import sending
    if not file.exists():
        return
    has = settings.written(file)
    judges: dict[str, Callable[[str], object]] = {"ACD_WEBHOOK": sending.address, "ACD_WEBHOOK_DESK": reach.address}
    for name, judge in judges.items():
        try:
            judge(has.get(name, ""))
        except argparse.ArgumentTypeError as fault:
            yield f"{file}: {name}: {fault}"
    if has.get("ACD_WEBHOOK_CALLERS", "no") not in ("", "no", "yes"):
        yield f"{file}: ACD_WEBHOOK_CALLERS must be yes or no"


# nginx

def of_nginx(folder: Path, env: Path) -> Iterator[str]:
    """A machine may have none. Its configurations that concern the desk are those that name the gate's secret, or pass
    requests to the gate."""
    if not folder.exists():
        return
    texts = {file: re.sub(r"(^|\s)#.*", "", file.read_text(errors="replace"))
             for file in sorted((*folder.glob("conf.d/*.conf"), *folder.glob("sites-enabled/*")))}
    ours = {file: text for file, text in texts.items() if SECRET in text or "/auth/any" in text}
    if not ours:
        yield f"{folder}: no configuration asks the gate; /usr/share/doc/acd/examples/nginx.conf is one"
        return
    whole = "\n".join(ours.values())
    for name, what, pattern in places_in_nginx(values_of(env)):
        if not re.search(pattern, whole):
            yield f"{', '.join(map(str, ours))}: the {what} of {name} isn't there; change it here or in {env}"
    for file, text in ours.items():
        if SECRET not in text:
            yield f"{file} is of before 1.15: nginx asks the gate for every stranger"
        elif PROXY not in text:
            yield f"{WARNING}{file} is of before 1.16: nginx asks the gate twice for each request"
        elif re.search(rf"{PROXY}\s+\$acd_session_secret\b", text):
            yield f"{WARNING}{file} is of 1.16: nginx tells the gate the secret that signs sessions"
        elif not re.search(r"location[^{]*\boffice\b", text):
            yield f"{WARNING}{file} is of before 1.18: nginx passes on neither /office nor /password"
        yield from of_certificates(file, text)


def places_in_nginx(has: dict[str, str]) -> Iterator[tuple[str, str, str]]:
    """What nginx's configuration must have: the setting, what it names in words, and how that looks there."""
    for port, path in (("ACD_PORT", "ACD_SOCKET"), ("ACD_GATE_PORT", "ACD_GATE_SOCKET")):
        if has[port]:
            yield port, f"port {has[port]}", rf"server\s+127\.0\.0\.1:{re.escape(has[port])}\b"
        else:
            yield path, f"socket {has[path]}", rf"server\s+unix:{re.escape(has[path])}[\s;]"
    shown = has["ACD_TLS_PORT"]
    yield "ACD_TLS_PORT", f"port {shown}", rf"listen\s+(\S+:)?{re.escape(shown)}\b[^;]*\bssl\b"


def of_certificates(file: Path, text: str) -> Iterator[str]:
    shown, keys = (re.findall(rf"^\s*{name}\s+([^;\s]+)\s*;", text, re.MULTILINE)
                   for name in ("ssl_certificate", "ssl_certificate_key"))
    if len(shown) != len(keys) or not shown:
        yield f"{file}: needs as many ssl_certificate_key as ssl_certificate, and one at least"
    for place, key in zip(shown, keys):
        yield from of_certificate(Path(place), Path(key), datetime.datetime.now(datetime.timezone.utc))


def of_certificate(place: Path, key: Path, now: datetime.datetime) -> Iterator[str]:
    try:
        first = re.search(r"-----BEGIN CERTIFICATE-----.*?-----END CERTIFICATE-----", place.read_text(errors="replace"),
                          re.DOTALL)
        end = certificate.end_of(ssl.PEM_cert_to_DER_cert(first[0])) if first else None
    except OSError as fault:
        yield f"{place} {why(fault)}"
        return
    except (Fault, ValueError):
        end = None
    if end is None:
        yield f"{place} has no certificate that can be read"
        return
    if end <= now + datetime.timedelta(days=SOON):
        yield (f"the certificate {place} {'ended' if end <= now else 'ends'} on {end:%Y-%m-%d}; renew it, "
               "and reload nginx")
    try:
        key.read_bytes()
        ssl.SSLContext(ssl.PROTOCOL_TLS_SERVER).load_cert_chain(place, key, password="")
    except ssl.SSLError:
        yield f"{key} is not the key of {place}"
    except OSError as fault:
        yield f"{key} {why(fault)}"


# The command

def findings(folder: Path, nginx: Path, gate: Path) -> Iterator[str]:
    env, roles, users = folder / "acd.env", folder / "roles", folder / "users"
    judges: tuple[tuple[Path, Callable[[], Iterator[str]]], ...] = (
        (env, lambda: of_settings(env)), (roles, lambda: of_logins(roles, users)),
        (gate, lambda: of_own(gate, roles, users)),
        (folder / "board.json", lambda: of_board(folder / "board.json")),
        (folder / "webhook.env", lambda: of_webhook(folder / "webhook.env")), (nginx, lambda: of_nginx(nginx, env)))
    for file, judge in judges:
        try:
            yield from judge()
        except OSError as fault:
            yield f"{fault.filename or file} {why(fault)}"


def parser() -> command.Parser:
    found = command.Parser("Judges acd.env, roles, users, board.json, and nginx's ports and certificate. "
                           "It starts nothing, and prints a line for each fault and each warning.")
    found.add_argument("--folder", type=Path, default=settings.FILE.parent, metavar="FOLDER",
                       help=f"where the first four are; {settings.FILE.parent} unless given")
    found.add_argument("--gate", type=Path, default=gate_state.FOLDER, metavar="FOLDER",
                       help=f"where the logins are that the office gave by its page; {gate_state.FOLDER} unless given")
    found.add_argument("--nginx", type=Path, default=Path("/etc/nginx"), metavar="FOLDER",
                       help="where nginx's configuration is; /etc/nginx unless given")
    return found


def do(options: argparse.Namespace) -> int:
    """Its status."""
    found = list(findings(options.folder, options.nginx, options.gate))
    for line in found:
        command.say(line)
    if all(line.startswith(WARNING) for line in found):
        command.say("no fault was found in acd.env, roles, users, board.json and nginx's configuration")
        return 0
    return command.FAILED


def main(words: list[str]) -> None:
    command.run(lambda given: parser().parse_args(given), do, words)
