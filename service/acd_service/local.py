"""Keeps this machine's other users from the ports of the desk, by a table of nftables of its own. The kernel knows
whose a socket is: a connection of anybody but root, the users of the desk's services and the group acd-local is reset,
and nobody else answers at these ports either. Tested, not proved.

The kernel sees of a process its user and its first group alone, so the group's members are looked up as the table is
loaded."""
import argparse
import contextlib
import grp
import os
import pwd
import re
import shutil
import signal
import subprocess
import time
from collections.abc import Iterable
from pathlib import Path
from typing import Any, NoReturn

from acd_service import command, settings
from acd_service.command import Fault

USERS = ("root", "acd", "acd-gate", "acd-exchange", "www-data", "etcd")
GROUP = "acd-local"
ACCOUNTS = ("/etc/passwd", "/etc/group")
EVERY = 3       # seconds
NONE = "table inet acd\ndelete table inet acd\n"
# A connection is judged only where it begins: a reset in the middle of one reaches its user and not the desk, which
# would wait for that user without an end. A socket that nobody has any more is let through.
CHAIN = """table inet acd {{
    chain output {{
        type filter hook output priority filter; policy accept;
        oifname "lo" tcp dport {{ {ports} }} tcp flags & (syn | ack) == syn {others} counter reject with tcp reset
        oifname "lo" tcp sport {{ {ports} }} {others} counter drop
    }}
}}
"""


def ports_in(text: str) -> list[int]:
    words = text.replace(",", " ").split()
    for word in words:
        if not re.fullmatch("[1-9][0-9]{0,4}", word) or int(word) > 65535:
            raise Fault(f"the port '{word}' isn't a whole number from 1 to 65535", status=command.REFUSED)
    return [int(word) for word in words]


def parser() -> command.Parser:
    found = command.Parser("Keeps this machine's other users from the ports of the desk, by a table of nftables. "
                           "Without --remove and --find it loads the table, or loads it anew.")
    found.add_argument("--ports", metavar="P,P..", default="8080,8081,2379,2380",
                       help="the ports; %(default)s unless given")
    for name, do, about in (
            ("--watch", watch, "load it again if the accounts change or the table is gone, and end if acd.env changes"),
            ("--remove", remove, "take the table away"),
            ("--find", None, "tell by the status whether there is a port to keep, and nft, which loads the table")):
        found.add_argument(name, dest="do", action="store_const", const=do, default=load, help=about)
    return found


# The table

def set_of(numbers: Iterable[int]) -> str:
    """A set, as nft reads it."""
    return ",".join(map(str, sorted(set(numbers))))


def let_through() -> str:
    """What nft judges of a socket that is somebody else's: not of the users that there are, nor of the group and its
    members."""
    numbers, members, of_group = [], [], ""
    with contextlib.suppress(KeyError):
        group = grp.getgrnam(GROUP)
        members, of_group = group.gr_mem, f" meta skgid != {group.gr_gid}"
    for user in (*USERS, *members):
        with contextlib.suppress(KeyError):
            numbers.append(pwd.getpwnam(user).pw_uid)
    return f"meta skuid != {{ {set_of(numbers)} }}{of_group}"


def nft(*words: str, **how: Any) -> bool:
    """Whether nft is there, and did what it was told."""
    try:
        return subprocess.run(("nft", *words), text=True, **how).returncode == 0
    except FileNotFoundError:
        return False


def load(ports: list[int]) -> None:
    """In one step, so there is no moment without the table, and no other table is touched."""
    rules = NONE + CHAIN.format(ports=set_of(ports), others=let_through())
    if not nft("-f", "-", input=rules):
        raise Fault("every user of this machine may reach the desk's ports: nft didn't load the table")


def remove(ports: list[int]) -> None:
    if not nft("-f", "-", input=NONE):
        raise Fault("nft didn't take the table away")


def is_there() -> bool:
    """Whether the table is."""
    return nft("list", "table", "inet", "acd", stdout=subprocess.DEVNULL, stderr=subprocess.DEVNULL)


# Changes

def written(*files: str | Path) -> list[tuple[int, int, int]]:
    """When and where files were written last; what changes while they are read changes this, too."""
    found = []
    for file in files:
        with contextlib.suppress(OSError):
            at = os.stat(file)
            found.append((at.st_ino, at.st_size, at.st_ctime_ns))
    return found


def started() -> int:
    """The second in which this process was started: systemd read the unit's settings just before."""
    ticks = int(Path("/proc/self/stat").read_text().rpartition(")")[2].split()[19])
    return int(time.time() - time.clock_gettime(time.CLOCK_BOOTTIME) + ticks / os.sysconf("SC_CLK_TCK"))


def is_late() -> bool:
    """Whether the settings were written since this process was started, so that its ports may be older; a moment that
    is yet to come says nothing."""
    return any(started() <= at // 1_000_000_000 <= int(time.time()) for _, _, at in written(settings.FILE))


def watch(ports: list[int]) -> None:
    """The unit is started again where the settings change, since they give the ports."""
    began, seen = written(settings.FILE), None
    is_changed = is_late()
    while not is_changed:
        now = written(*ACCOUNTS)
        if now != seen or not is_there():
            load(ports)
            seen = now
        time.sleep(EVERY)
        is_changed = written(settings.FILE) != began
    command.say(f"{settings.FILE} has changed: the ports are looked up anew")


def read(words: list[str]) -> argparse.Namespace:
    options, others = parser().parse_known_args(words)
    if others:
        raise Fault(f"no such option: {others[0]}", status=command.REFUSED)
    return options


def find(is_needed: bool) -> int:
    """The status: whether the table is to be loaded. One of before, with ports that nobody has any more, is taken
    away."""
    if not is_needed and shutil.which("nft") and is_there():
        remove([])
    return 0 if is_needed else command.FAILED


def act(options: argparse.Namespace) -> int:
    is_needed = bool(options.ports.strip(", "))
    if is_needed and not shutil.which("nft"):
        raise Fault("every user of this machine reaches the desk's ports, and may ask for everything: there is no nft "
                    "(install nftables)")
    # a port that is none is a fault of the unit, which only its other commands tell
    if options.do is None:
        return find(is_needed)
    if not is_needed and options.do is not remove:
        raise Fault("there is no port to keep", status=command.REFUSED)
    options.do(ports_in(options.ports))
    return 0


def main(words: list[str]) -> NoReturn:
    signal.signal(signal.SIGINT, signal.SIG_DFL)
    command.run(read, act, words)
