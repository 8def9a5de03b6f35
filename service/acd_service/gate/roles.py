"""The files of roles and users: each login's rights, and the hash of its password. Unproved."""
import re
from collections.abc import Callable, Iterable
from pathlib import Path
from typing import Generic, NamedTuple, TypeVar

from acd_service.command import report
from acd_service.gate.passwords import FORMS

ROLES = {"supervisor", "lead", "agent", "office", "exchange", "follow", "rules", "admin"}
MEMBERS = {
    "agent": r"[0-9]{1,9}", "stations": r"[0-9]{1,15}(,[0-9]{1,15})*", "groups": r"[0-9]{1,15}(,[0-9]{1,15})*",
    "reads": "none|own|all"
}
# what a line of a role has to have, and may have besides `reads`
NEEDS = {"agent": {"agent"}, "lead": {"groups"}}
MAY_HAVE = {"agent": {"agent", "stations", "groups"}, "lead": {"groups"}}
# requesters of acd-tick and acd-plan
RESERVED = ("clock", "plan")
NO_KEYS = ("it only reads: to ask for services a login is 1 to 15 of a-z, 0-9 and hyphen, and neither clock nor plan, "
           "nor begins with clock- or plan-")
Content = TypeVar("Content")


def refuses_nobody(login: str, role: "Role | None" = None) -> str | None:
    """Why a line of this login doesn't count; None where it does."""


class Watched(Generic[Content]):
    """The content of a file, read again when the file changes. A file that can't be read counts as empty, or, where it
    `keeps`, as what it was. One that `may_lack` is empty before it is there."""

    def __init__(self, file: Path | str, read: Callable[[Path, list[str]], dict[str, Content]],
                 keeps: bool = False, may_lack: bool = False) -> None:
        self.file, self.read, self.keeps, self.may_lack = Path(file), read, keeps, may_lack
        self.stamp: tuple[int, int, int] | None = None
        self.said: dict[str, Content] = {}
        self.fault: str | None = None

    def now(self) -> dict[str, Content]:
        try:
            found = self.file.stat()
            stamp = found.st_mtime_ns, found.st_size, found.st_ino
            if stamp != self.stamp:
                lines = self.file.read_bytes().removeprefix(b"\xef\xbb\xbf").decode("utf-8", "replace").split("\n")
                self.said, self.stamp, self.fault = self.read(self.file, lines), stamp, None
        except OSError as fault:
            is_lacking = self.may_lack and isinstance(fault, FileNotFoundError)
            if fault.strerror != self.fault and not is_lacking:
                report(f"{self.file} can't be read: {fault.strerror}")
            if self.said and not self.keeps:
                self.said = {}
            self.stamp, self.fault = None, fault.strerror
        return self.said


class Role(NamedTuple):
    """The rights of a login; None is no limit."""
    name: str | None = None
    agent: str | None = None
    stations: frozenset[str] | None = None
    groups: frozenset[str] | None = None
    reads: str | None = None

    @property
    def reading(self) -> str:
        if self.reads:
            return self.reads
        return {"agent": "own", "follow": "none"}.get(self.name or "", "all")

    @property
    def reads_requests(self) -> bool:
        return self.name == "follow" or (self.name == "office" and self.reading == "all")

    @property
    def asks(self) -> bool:
        """Whether it may ask for any service."""
        return self.name in ("lead", "agent", "office", "exchange", "rules", "admin")


NOTHING = Role("nothing")


def numbers_of(value: str | None) -> frozenset[str] | None:
    return None if value is None else frozenset(value.split(","))


def role_of(words: Iterable[str]) -> Role:
    """The role by the words after a login; ValueError says why they give none."""
    names: list[str] = []
    members: dict[str, str] = {}
    for word in re.sub(" agent (?=[0-9])", " agent agent=", " ".join(["", *words])).split():
        member, equals, value = word.partition("=")
        if not equals:
            names.append(word)
        elif member in members or not re.fullmatch(MEMBERS.get(member, "(?!)"), value):
            hint = f" (separate {member} by commas)" if member in ("stations", "groups") else ""
            raise ValueError(f'cannot read "{word}"{hint}')
        else:
            members[member] = value
    if len(names) != 1 or names[0] not in ROLES:
        raise ValueError(f"its role is {' '.join(names) or 'missing'}")
    has, needs = members.keys() - {"reads"}, NEEDS.get(names[0], set())
    if not needs <= has or has - MAY_HAVE.get(names[0], set()):
        raise ValueError("an agent has a number, and with it stations and groups, a lead has groups, and nobody else "
                         "has any of these")
    if members.get("reads") == "own" and names[0] != "agent":
        raise ValueError("an agent alone reads its own")
    if "reads" in members and names[0] == "follow":
        raise ValueError("a follow reads /requests, and nothing else of the desk")
    return Role(names[0], members.get("agent"), numbers_of(members.get("stations")), numbers_of(members.get("groups")),
                members.get("reads"))


def roles_of(file: Path, lines: list[str],
             refusal: Callable[[str, Role], str | None] = refuses_nobody) -> dict[str, Role]:
    """The role of each login that has a line; `refusal` says why one doesn't count."""
    found: dict[str, Role] = {}
    for number, line in enumerate(lines, 1):
        login, *words = line.partition("#")[0].split() or [""]
        if not login:
            continue
        try:
            role = role_of(words)
            if why := refusal(login, role):
                raise ValueError(why)
            if found.get(login, role) != role:
                raise ValueError("another line of it says something else")
        except ValueError as fault:
            role = NOTHING
            report(f"{file}, line {number}: {login} is refused: {fault}")
        if role.asks and not has_keys(login):
            report(f"{file}, line {number}: {login}: {NO_KEYS}")
        found[login] = role
    return found


def hashes_of(file: Path, lines: list[str],
              refusal: Callable[[str], str | None] = refuses_nobody) -> dict[str, str]:
    """The hash of each login's password; `refusal` says why one doesn't count."""
    found: dict[str, str] = {}
    for number, line in enumerate(lines, 1):
        login, colon, rest = line.rstrip("\r").partition(":")
        hashed = rest.partition(":")[0]
        if not line.strip() or line.startswith("#"):
            continue
        if not colon or not login or not login.isprintable() or " " in login or "\ufffd" in login:
            report(f"{file}, line {number}: it isn't LOGIN:HASH")
        elif not FORMS.identify(hashed):
            report(f"{file}, line {number}: {login} has no hash of htpasswd, by bcrypt, say")
        elif why := refusal(login):
            report(f"{file}, line {number}: {login} is refused: {why}")
        else:
            found.setdefault(login, hashed)
    return found


def has_keys(login: str) -> bool:
    """Whether the login can have requesters; those that begin with a name of RESERVED belong to nobody."""
    is_reserved = any(login == name or login.startswith(f"{name}-") for name in RESERVED)
    return bool(re.fullmatch(r"[a-z0-9-]{1,15}", login)) and not is_reserved
