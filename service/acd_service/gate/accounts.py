"""Logins, roles and names: those of root's files, and below them those that the office gives by its page. Unproved.

Root's files come first, and the gate never writes them. Its own are beside its sessions, in the same form. A line of
them counts only where its login is none of root's files and can be told from all of these by its requesters, and where
its role is one that an office may give. So whoever writes these files, the gate itself if it were broken, gives
nobody a right that root didn't mean an office to give, and takes nothing from root's logins."""
import asyncio
import json
import os
from collections.abc import Callable, Iterable
from functools import partial
from pathlib import Path
from typing import Any, Generic, NamedTuple, TypeVar

from acd_service import put
from acd_service.command import report
from acd_service.gate.judging import owner
from acd_service.gate.roles import NO_KEYS, Role, Watched, has_keys, hashes_of, roles_of
from acd_service.spelling import KINDS, Names, is_shown, shown

# the roles that the office's page gives; root's file alone gives the others
GIVEN = ("agent", "lead", "supervisor")
# the files, and the mark of a password that its login didn't choose, as a third field of its line
USERS, ROLES, NAMES, FIRST = "users", "roles", "names.json", "first"
# logins, and names of a kind
MOST = 5000
# no roles and no hashes
NOBODYS: tuple[dict[str, Role], dict[str, str]] = {}, {}
Content = TypeVar("Content")


def names_of(file: Path, lines: list[str]) -> dict[str, dict[str, str]]:
    """The names of a file in the form of board.json's member `names`; what isn't of that form is left out."""
    text = "\n".join(lines)
    try:
        said = json.loads(text) if text.strip() else {}
    except ValueError:
        said = None
    if not isinstance(said, dict):
        report(f"{file} has no names: it must be a JSON object")
        return {}
    return {kind: {number: name for number, name in found.items() if isinstance(name, str) and is_shown(name)}
            for kind in KINDS if isinstance(found := said.get(kind), dict)}


class Below(Generic[Content]):
    """The content of root's file with the gate's own below it, as `now` has both."""

    def __init__(self, file: Path, now: Callable[[], dict[str, Content]]) -> None:
        self.file, self.now = file, now


class Account(NamedTuple):
    """A login that the office gave; `first` says that its password is one that it was given."""
    login: str
    role: Role | None
    first: bool


class Accounts:
    """`folder` is that of the gate's own files; without it there are root's alone."""

    def __init__(self, roles: Path | str, users: Path | str, folder: Path | str | None = None) -> None:
        self.folder = Path(folder) if folder else None
        self.roots_roles, self.roots_users = Watched(roles, roles_of, keeps=True), Watched(users, hashes_of)
        own = self.folder or Path(os.devnull)
        self.own_roles = Watched(own / ROLES, partial(roles_of, refusal=self.refusal), may_lack=True)
        self.own_users = Watched(own / USERS, self.read_users, may_lack=True)
        self.own_names = Watched(own / NAMES, names_of, may_lack=True)
        self.roles = Below(self.roots_roles.file, lambda: self.both()[0])
        self.users = Below(self.roots_users.file, lambda: self.both()[1])
        self.firsts: set[str] = set()
        # root's by which the own files were read, and the four by which both were made
        self.roots: tuple[dict[str, Role], dict[str, str]] = {}, {}
        self.made_of: tuple[object, ...] = ()
        self.made: tuple[dict[str, Role], dict[str, str]] = {}, {}
        # both, as they were at the last look of this turn
        self.seen, self.has_looked = NOBODYS, False

    def both(self) -> tuple[dict[str, Role], dict[str, str]]:
        """The role and the hash of each login. It looks at the files once in a turn of the loop, however many ask:
        whatever comes of a write into them is done in a later one."""
        try:
            loop = asyncio.get_running_loop()
        except RuntimeError:  # a thread of its own
            return self.look()
        if not self.has_looked:
            self.seen, self.has_looked = self.look(), True
            loop.call_soon(self.look_again)
        return self.seen

    def look_again(self) -> None:
        self.has_looked = False

    def look(self) -> tuple[dict[str, Role], dict[str, str]]:
        roots = self.roots_roles.now(), self.roots_users.now()
        if self.folder is None:
            return roots
        if any(one is not other for one, other in zip(roots, self.roots)):
            # what the own files may say depends on root's: they are judged anew
            self.roots, self.own_roles.stamp, self.own_users.stamp = roots, None, None
        own = (self.own_roles.now(), self.own_users.now()) if self.knows_roots() else NOBODYS
        of = (*roots, *own)
        if len(of) != len(self.made_of) or any(one is not other for one, other in zip(of, self.made_of)):
            self.made_of, self.made = of, ({**own[0], **roots[0]}, {**own[1], **roots[1]})
        return self.made

    def knows_roots(self) -> bool:
        """Whether it knows which logins are root's. Else none of the own counts."""
        return self.roots_users.stamp is not None and (self.roots_roles.stamp is not None or bool(self.roots[0]))

    def names(self) -> Names:
        return self.own_names.now() if self.folder is not None else {}

    def shown(self, snapshot: dict[str, Any]) -> dict[str, Any]:
        """A snapshot of the desk with the names that pages show."""
        for kind, member in (("groups", "device"), ("agents", "agent")):
            named = self.names().get(kind, {})
            for one in snapshot[kind] if named else ():
                one["name"] = shown(one["name"], named.get(one[member]))
        return snapshot

    def refusal(self, login: str, role: Role | None = None) -> str | None:
        """Why a login, or this role of it, isn't the office's to give."""
        if not has_keys(login):
            return NO_KEYS
        roots = owner(login, self.roots[0].keys() | self.roots[1].keys())
        if roots is not None:
            return f"{roots} is a login of {self.roots_roles.file} or {self.roots_users.file}, which come first"
        if role is not None and role.name not in GIVEN:
            return f"the role {role.name} is given by {self.roots_roles.file} alone"
        return None

    def read_users(self, file: Path, lines: list[str]) -> dict[str, str]:
        found = hashes_of(file, lines, self.refusal)
        fields = (line.rstrip("\r").split(":") for line in lines)
        self.firsts = {given[0] for given in fields if given[2:] == [FIRST]} & found.keys()
        return found

    def own(self) -> dict[str, Account]:
        """The logins that the office gave."""
        self.both()
        if self.folder is None or not self.knows_roots():
            return {}
        roles, users = self.own_roles.said, self.own_users.said
        return {login: Account(login, roles.get(login), login in self.firsts) for login in sorted(users)}

    def is_own(self, login: str) -> bool:
        """Whether the office gave this login its password."""
        return login in self.both()[1] and login not in self.roots[1] and self.folder is not None

    def is_first(self, login: str) -> bool:
        return self.is_own(login) and login in self.firsts


# Writing. All of it blocks.

def role_line(login: str, role: Role) -> str:
    members = [("agent", role.agent), ("stations", in_commas(role.stations)), ("groups", in_commas(role.groups))]
    return " ".join([login, str(role.name), *(f"{name}={value}" for name, value in members if value)])


def in_commas(numbers: Iterable[str] | None) -> str | None:
    return None if numbers is None else ",".join(sorted(numbers, key=lambda one: (len(one), one)))


def lines_of(file: Path) -> list[str]:
    try:
        return file.read_text("utf-8", "replace").splitlines()
    except FileNotFoundError:
        return []


def without(lines: Iterable[str], login: str) -> list[str]:
    """A file's lines but for those of a login."""
    return [line for line in lines if login not in (line.partition(":")[0], *line.partition("#")[0].split()[:1])]


def put_lines(file: Path, lines: Iterable[str]) -> None:
    put.put(file, "".join(f"{line}\n" for line in lines))


def give_role(folder: Path, login: str, role: Role) -> None:
    put_lines(folder / ROLES, [*without(lines_of(folder / ROLES), login), role_line(login, role)])


def give_password(folder: Path, login: str, hashed: str, is_first: bool) -> None:
    line = f"{login}:{hashed}" + (f":{FIRST}" if is_first else "")
    put_lines(folder / USERS, [*without(lines_of(folder / USERS), login), line])


def end_login(folder: Path, login: str) -> None:
    """First the password goes: a role alone lets nobody in."""
    for name in (USERS, ROLES):
        put_lines(folder / name, without(lines_of(folder / name), login))


def give_name(folder: Path, kind: str, number: str, name: str | None) -> None:
    """A name of another script than the desk's; None takes it away."""
    found = names_of(folder / NAMES, lines_of(folder / NAMES))
    named = {other: one for other, one in found.get(kind, {}).items() if other != number}
    found[kind] = {**named, **({number: name} if name is not None else {})}
    put.put(folder / NAMES, json.dumps(found, ensure_ascii=False, indent=1) + "\n")
