"""What there is to run: checks of the proof's shape, lint, types, unit tests and trials, each with the packages that it needs."""
from __future__ import annotations

import ast
import functools
import importlib.util
import subprocess
from collections.abc import Iterator, Sequence
from pathlib import Path
from typing import NamedTuple

from . import counts, packages
from .jobs import PYTHON, TOP, Job

UNIT = "tests/unit"
PLAIN = TOP / "tests/runner/plain.py"
# what unit tests need: a folder of them can't be left out by .ci/run
UNIT_PACKAGES = {"client": (), "exchange": (), "gate": ("python3-aiohttp", "python3-bcrypt", "python3-passlib"), "node": ("python3-aiohttp",), "pages": (), "runner": (),
                 "service": ("python3-bcrypt", "python3-passlib")}
HELPERS = ("python3-pytest", "python3-pytest-timeout", "python3-yaml")      # without the first two unittest takes their place, without the last one case is skipped
NGINX = ("nginx-light", "openssl", "python3-aiohttp", "python3-bcrypt", "python3-passlib")
SPACES = ("iproute2", "openssl", "strace", "util-linux")
LONGEST = 4 * 3600      # seconds that a trial may take
# flake8, which takes a sixth of its time to look for garbage among trees that it needs: without that half a gigabyte
LINT = "import gc; from flake8.main.cli import main; gc.disable(); raise SystemExit(main())"
TOGETHER = 16           # so many files of unit tests at most are run by one process, whose start costs as much as the tests of a file


class Part(NamedTuple):
    """A trial, or a part of one; `cases` are files of cases, or FILE:CLASS. A mark says what it needs of a machine."""
    script: str
    words: tuple[str, ...]
    cases: tuple[str, ...]
    packages: tuple[str, ...] = ()
    marks: tuple[str, ...] = ()
    takes_program: bool = True

    @property
    def places(self) -> tuple[str, ...]:
        return tuple(f"tests/trials/{place}" for place in self.cases)


# what a trial needs of its machine, by the mark that it has
MARKS = {
    "booted": ("root", "debootstrap", "systemd-container", "util-linux", "openssl", "packages in out/"),
    "browser": ("chromium", "chromium-driver", "nodejs", "node-typescript"),
    "etcd": ("root", "etcd-client", "etcd-server", "curl", "openssl"),
    "root": ("root",),
    "alone": ("root", "name spaces", "tracing", "room in /dev/shm"),
    "loop devices": ("loop devices",),
    "traced": ("tracing",),
    "sip": ("root", "sip-tester", "kamailio", "kamailio-tls-modules", "nftables", "curl"),
}
# of the process itself; the greatest comes first, so that it ends with the others
OF_THE_PROGRAM = {
    "sizes": Part("try-sizes", (), ("try-sizes",)),
    "serving": Part("try-serving", (), ("try-serving",)),
    "order": Part("try-order", (), ("try-order",)),
    "runs": Part("try-runs", (), ("try-runs",)),
    "scenes": Part("try-scenes", (), ("try-scenes",)),
    "books stopped": Part("try-books", ("--only", "stopped"), ("books/stops.py",), ("strace",), ("traced",)),
    "texts": Part("try-texts", (), ("try-texts",)),
    "books": Part("try-books", ("--only", "rows"), ("try-books",)),
    "statuses": Part("try-statuses", (), ("try-statuses",)),
    "untouched": Part("try-untouched", (), ("try-untouched",)),
    "logs": Part("try-logs", (), ("try-logs",)),
    "docs": Part("try-docs", (), ("try-docs",), ("curl",)),
}
# of what stands around it: the parts that are done in seconds
OF_THE_SERVICE = {
    **{f"gate {part}": Part("try-gate", ("--only", part), (f"gate/{file}",), NGINX) for part, file in (("streamed", "streamed.py"), ("days", "days.py"), ("mine", "mine.py:Mine"))},
    "gate": Part("try-gate", ("--only", "answers,sessions,leads,reads,executed"), ("gate/answers.py", "gate/sessions.py", "gate/leads.py", "gate/mine.py:Reads", "gate/executed.py"), NGINX),
    "trail": Part("try-trail", ("--only", "story,archives,faults,pages"), tuple(f"try-trail:{case}" for case in ("Story", "Archives", "Bad", "OfPages"))),
    "trail served": Part("try-trail", ("--only", "served"), ("try-trail:Served",), NGINX),
    "rules": Part("try-rules", ("--only", "days"), ("rules/drawn_days.py",)),
    "figures": Part("try-figures", ("--days", "4"), ("try-figures",)),
    "certificates": Part("try-certificates", (), ("try-certificates",), ("openssl",)),
    "follow cases": Part("try-follow", ("--only", "cases"), ("follow/cases.py:Cases",), SPACES, ("alone",)),
    "copies": Part("try-copies", ("--some", "--only", "copies,again"), ("copies/copying.py", "copies/again.py"), ("strace", "util-linux"), ("alone",)),
}
# what takes long, or needs what few machines have: `./test --trials` runs them one after the other
BY_HAND = {
    "api": Part("try-api", (), ("try-api",), ("curl", "golang-go", "libjson-validator-perl", "node-typescript", "nodejs", "python3-jsonschema", "python3-yaml")),
    "board": Part("try-board", (), (), (*NGINX, "curl"), ("browser",)),
    "copies whole": Part("try-copies", (), ("copies/copying.py", "copies/again.py", "copies/halts.py", "copies/restores.py", "copies/kills.py"), ("strace", "util-linux"), ("root",)),
    "cuts": Part("try-cuts", (), ("cuts/commands.py",), ("strace", "util-linux"), ("alone", "loop devices")),
    "dashboard": Part("try-dashboard", (), ("try-dashboard",), (*NGINX, "prometheus")),
    "edges": Part("try-edges", (), ("machine/sockets.py", "machine/watched.py", "machine/upgraded.py", "machine/users.py", "machine/units.py", "machine/second.py"), (), ("booted", "browser"), False),
    "exchange": Part("try-exchange", (), ("try-exchange",), NGINX, ("sip",)),
    "figures whole": Part("try-figures", ("--days", "1000"), ("try-figures",)),
    "files": Part("try-files", (), ("try-files",)),
    "flood": Part("try-flood", ("--seconds", "8", "--floods", "4"), ("flood/doors.py",), (*NGINX, "apache2-utils", "python3-h2"), ("root",)),
    "follow whole": Part("try-follow", (), ("follow/cases.py", "follow/kills.py", "follow/runs.py"), SPACES, ("root",)),
    "gate whole": Part("try-gate", (), ("try-gate", "gate/followed.py", "gate/older.py", "gate/alike.py", "gate/waits.py", "gate/pushed.py", "gate/monitor.py", "gate/many.py"), (*NGINX, "python3-h2", "python3-prometheus-client")),
    "http": Part("try-http", (), ("try-http",), (*NGINX, "apache2-utils", "curl", "sqlite3")),
    "node": Part("try-node", (), ("node/carried.py", "node/day.py", "node/hostile.py", "node/values.py"), (), ("etcd",)),
    "office": Part("try-office", (), tuple(f"office/{name}.py" for name in ("starting", "damage", "clock", "copies", "pruned", "plans", "program", "byhand", "hour", "clone")), (), ("booted",), False),
    "package": Part("try-package", (), ("try-package",), ("debootstrap", "iproute2", "lintian", "util-linux"), ("root",), False),
    "prune": Part("try-prune", (), ("try-prune",)),
    "ready": Part("try-ready", (), tuple(f"ready/{name}.py" for name in ("cuts", "logs", "notices", "settings", "starts", "stops")), (), ("root",)),
    "records": Part("try-records", (), ("try-records", "records/calls.py", "records/changes.py"), ("curl", "openssl")),
    "release": Part("try-release", (), ("try-release",), ("binutils",), (), False),
    "rules nodes": Part("try-rules", ("--only", "nodes"), ("try-rules:Nodes",), (), ("etcd",)),
    "rules whole": Part("try-rules", ("--days", "1000", "--only", "days,process,served"), ("rules/drawn_days.py", "try-rules:Process", "try-rules:Served"), NGINX),
    "standby": Part("try-standby", (), ("try-standby",), (*NGINX, *SPACES, "curl", "gcc"), ("root",)),
    "stops": Part("try-stops", (), ("try-stops",)),
    "ticks": Part("try-ticks", (), ("try-ticks",)),
    "trail day": Part("try-trail", ("--only", "day"), ("try-trail:Day",)),
    "years": Part("try-years", (), tuple(f"years/{name}.py" for name in ("audits", "cases", "chains", "cuts", "exports", "figures", "forgets", "kills", "service", "stops", "year")),
                  ("strace", "util-linux"), ("root",)),
    "webhook": Part("try-webhook", (), ("try-webhook",), NGINX),
}


def python_files() -> list[str]:
    """Every file of Python that git keeps, by its ending or its head."""
    listed = subprocess.run(["git", "ls-files", "-z", "--cached", "--others", "--exclude-standard"], cwd=TOP, stdout=subprocess.PIPE, check=True, text=True).stdout
    return [name for name in listed.split("\0") if name and is_python(TOP / name)]


def is_python(file: Path) -> bool:
    if file.is_symlink() or not file.is_file():
        return False
    if file.suffix:
        return file.suffix == ".py"
    with open(file, "rb") as content:
        head = content.readline(100)
    return head.startswith(b"#!") and b"python3" in head


def lint() -> list[Job]:
    return [Job("lint", (PYTHON, "-c", LINT, "--jobs", "1", *python_files()), counts.of_status, ("flake8",))]


def types() -> list[Job]:
    return [Job("types", (PYTHON, "-m", "mypy"), counts.of_status, ("mypy", "python3-aiohttp"))]


def case_names(place: str) -> Iterator[str]:
    """The cases of a file, or with FILE:CLASS those of a class of it, as `Class.method`."""
    file, _, of = place.partition(":")
    for found in ast.walk(ast.parse((TOP / file).read_text())):
        if isinstance(found, ast.ClassDef) and of in ("", found.name):
            yield from (f"{found.name}.{each.name}" for each in found.body if isinstance(each, ast.FunctionDef | ast.AsyncFunctionDef) and each.name.startswith(("test_", "try_")))


def cases_in(places: tuple[str, ...]) -> int:
    return sum(1 for place in places for _ in case_names(place))


def unit_files() -> list[Path]:
    return [file for folder in UNIT_PACKAGES for file in sorted((TOP / UNIT / folder).rglob("test_*.py"))]


def has_pytest() -> bool:
    return importlib.util.find_spec("pytest") is not None


def name_of(file: Path) -> str:
    return str(file.relative_to(TOP)) if file.is_relative_to(TOP) else file.name


def unit_job(name: str, files: Sequence[Path], program: Path, by_pytest: bool, needed: tuple[str, ...] = (), variables: dict[str, str] | None = None) -> Job:
    run = ("-m", "pytest", "-q", "-p", "no:cacheprovider", "--continue-on-collection-errors", "--junit-xml={place}") if by_pytest else (str(PLAIN), "--note", "{place}")
    places = tuple(map(str, files))
    return Job(name, (PYTHON, *run, *places), counts.of_pytest if by_pytest else counts.of_unittest, needed, functools.partial(cases_in, places),
               variables={"ACD": str(program), **(variables or {})})


def groups_of(files: list[Path]) -> Iterator[tuple[str, list[Path]]]:
    """The files of each folder in groups of about one size, each with a name."""
    for folder in UNIT_PACKAGES:
        inside = [file for file in files if file.is_relative_to(TOP / UNIT / folder)]
        many = -(-len(inside) // TOGETHER)
        for number in range(many):
            group = inside[number::many]
            yield name_of(group[0]) if len(group) == 1 else f"{UNIT}/{folder}{f' {number + 1} of {many}' if many > 1 else ''}", group


def unit(program: Path, words: Sequence[str] = (), variables: dict[str, str] | None = None) -> list[Job]:
    """The files of unit tests that have one of these words in their name, or all where there is none."""
    by_pytest = has_pytest()
    files = [file for file in unit_files() if not words or any(word in name_of(file) for word in words)]
    return [unit_job(name, group, program, by_pytest, UNIT_PACKAGES[group[0].relative_to(TOP / UNIT).parts[0]], variables) for name, group in groups_of(files)]


def trials(program: Path, of: dict[str, Part]) -> list[Job]:
    """The trials that the gate runs. Their folders are in memory where there is room, so that none waits for a disk."""
    variables = {"TMPDIR": "/dev/shm"} if packages.has_room_in_memory() else {}
    return [trial(name, part, program, variables) for name, part in of.items()]


def trial(name: str, part: Part, program: Path, variables: dict[str, str]) -> Job:
    words = (PYTHON, f"tests/trials/{part.script}", *([str(program)] if part.takes_program else []), *part.words)
    needed = {package for mark in part.marks for package in MARKS[mark]} | set(part.packages)
    return Job(f"trial {name}", words, counts.of_trial, tuple(sorted(needed)), functools.partial(cases_in, part.places), LONGEST, variables)
