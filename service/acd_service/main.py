"""The one command, `acdctl`, and the names that its parts had before, which are links to it."""
import importlib
import os
import sys
import syslog
import time
from pathlib import Path
from typing import NamedTuple, NoReturn

from acd_service import VERSION, command

DAY = 86400
# the journal's socket, and where each user may note something until the next start of the machine
JOURNAL, STAMPS = "/dev/log", "/run/lock"


class Command(NamedTuple):
    """A module with its `main`, and what `--help` says of it."""
    module: str
    about: str


class Former(NamedTuple):
    """The module with its `main`, and the words that do the same now."""
    module: str
    now: str


COMMANDS = {
    "calls": Command("calls", "print each call, leg of a call, agent's day or group's quarter of an hour as CSV"),
    "certificate": Command("certificate", "tell when the certificate ends that a port shows"),
    "check": Command("check", "judge settings, roles, logins, names, and nginx's ports and certificate"),
    "copy": Command("copy", "copy the desk's file, audit the copy, and clear old copies away"),
    "export": Command("export", "print all events of a file and its archives as CSV"),
    "follow": Command("follow", "keep a copy of a desk that runs elsewhere"),
    "forget": Command("forget", "make a caller's number unknown in the archives"),
    "gate": Command("gate.main", "judge logins for the proxy, and let each ask for no more than its role may"),
    "local": Command("local", "keep this machine's other users from the desk's ports"),
    "node": Command("node.main", "feed this machine's desk from a log that several machines share"),
    "plan": Command("plan", "print the desk's plan, or change it to another one"),
    "prune": Command("prune", "take old requests out of the desk's file, once an archive has them"),
    "ready": Command("ready", "look whether the desk can be served, and serve it"),
    "records": Command("records", "write files of the days that are over: calls, agents and groups"),
    "restore": Command("restore", "put a copy of the desk's file back, or take that back"),
    "rules": Command("rules.main", "move callers who wait where a group is closed, or its queue has an end"),
    "status": Command("status", "print how the desk is, and what runs beside it"),
    "tick": Command("tick", "send the desk its ticks"),
    "trail": Command("trail", "print who asked the desk for what, when, and with which result"),
    "webhook": Command("webhook.main", "send alarms to a program elsewhere, as they begin and end"),
}
# commands of before 1.17, which go with the old names: no page has them, nor --help
FORMER = {"carry": Former("prune", "acdctl prune")}
# commands of before 1.15
OLD = {f"acd-{name}": name for name in ("calls", "carry", "certificate", "copy", "export", "follow", "forget", "gate",
                                        "local", "node", "plan", "ready", "tick", "trail")}


def usage() -> str:
    width = max(map(len, COMMANDS))
    lines = [f"  {name:{width}}  {each.about}" for name, each in COMMANDS.items()]
    return "\n".join(["usage: acdctl COMMAND [OPTION ..]", "", "Commands:", *lines, "", "Options:",
                      f"  {'--help':{width}}  print this, and after a command what it takes",
                      f"  {'--version':{width}}  print the version"])


def module_of(name: str) -> str:
    return COMMANDS[name].module if name in COMMANDS else FORMER[name].module


def words_now(called: str) -> str:
    """The words that do by now what an old name did."""
    name = OLD.get(called, called.removeprefix("acdctl "))
    return FORMER[name].now if name in FORMER else f"acdctl {name}"


def run(name: str, called: str, words: list[str]) -> NoReturn:
    command.call_it(called, called in OLD)
    sys.exit(importlib.import_module(f"acd_service.{module_of(name)}").main(words))


def is_first_of_the_day(old: str) -> bool:
    """Whether this user hasn't used the old name within a day; where no file can be made, as in a unit, each use counts
    as the first one."""
    try:
        file = os.open(f"{STAMPS}/{old}.{os.geteuid()}.told", os.O_WRONLY | os.O_CREAT | os.O_NOFOLLOW, 0o600)
    except OSError:
        return True
    try:
        found = os.fstat(file)
        if found.st_size and 0 <= time.time() - found.st_mtime < DAY:
            return False
        os.pwrite(file, b"\n", 0)
        return True
    except OSError:
        return True
    finally:
        os.close(file)


def tell_new_words(old: str) -> None:
    """Once a day, in the journal alone: scripts read what the command prints."""
    if os.path.exists(JOURNAL) and is_first_of_the_day(old):
        syslog.openlog(old)
        syslog.syslog(syslog.LOG_NOTICE, f"'{old}' is '{words_now(old)}' now, and may go in a later version")
        syslog.closelog()


def main(argv: list[str]) -> NoReturn:
    called, words = Path(argv[0]).name, argv[1:]
    if called in OLD:
        tell_new_words(called)
        run(OLD[called], called, words)
    if words and words[0] in FORMER:
        tell_new_words(f"acdctl {words[0]}")
    if words and words[0] in (*COMMANDS, *FORMER):
        run(words[0], f"acdctl {words[0]}", words[1:])
    if words in (["--help"], ["-h"]):
        print(usage())
        sys.exit(0)
    if words == ["--version"]:
        print(f"acdctl {VERSION}")
        sys.exit(0)
    command.report(f"there is no command '{words[0]}': acdctl --help names all" if words
                   else "which command? acdctl --help names all")
    sys.exit(2)
