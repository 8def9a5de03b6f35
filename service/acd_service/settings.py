"""The settings in /etc/acd/acd.env and the files beside it: their names, and their values. Tested, not proved."""
import argparse
import difflib
import os
import re
from collections.abc import Iterable
from pathlib import Path

FILE = Path("/etc/acd/acd.env")
PREFIX = "ACD_"
# those of all shipped programs and units, since a file may be read by several of them
NAMES = ("ACD_CARRY_DAYS", "ACD_CLOCK", "ACD_COPIES", "ACD_COPY_FOLDER", "ACD_FILE", "ACD_FOLLOW",
         "ACD_FOLLOW_OPTIONS", "ACD_GATE_PORT", "ACD_GATE_SOCKET", "ACD_HALT", "ACD_LOCAL_PORTS", "ACD_NODE_CA",
         "ACD_NODE_CERT", "ACD_NODE_ETCD", "ACD_NODE_ETCD_PASSWORD", "ACD_NODE_ETCD_USER", "ACD_NODE_FOLDER",
         "ACD_NODE_GONE", "ACD_NODE_KEY", "ACD_NODE_LINE", "ACD_NODE_MACHINES", "ACD_NODE_NAME",
         "ACD_NODE_UPKEEP_USER", "ACD_PASSWORD", "ACD_PATIENCE", "ACD_PORT", "ACD_PURGE_DESK", "ACD_RULES",
         "ACD_RULES_OPTIONS", "ACD_SOCKET", "ACD_STEP", "ACD_TLS_HOST", "ACD_TLS_PORT", "ACD_WEBHOOK",
         "ACD_WEBHOOK_CALLERS", "ACD_WEBHOOK_DESK", "ACD_WEBHOOK_OPTIONS")
# those that only earlier versions had
EARLIER = ("ACD_CONNECTIONS",)
# what a setting is where nobody says otherwise; the folder of copies is then beside the file, and desk and gate listen
# at their sockets, since they have no port
DEFAULTS = {"ACD_FILE": "/var/lib/acd/desk.db", "ACD_SOCKET": "/run/acd/desk.sock",
            "ACD_GATE_SOCKET": "/run/acd-gate/gate.sock", "ACD_PORT": "", "ACD_GATE_PORT": "", "ACD_COPIES": "7",
            "ACD_HALT": "20", "ACD_STEP": "10", "ACD_PATIENCE": "30", "ACD_CARRY_DAYS": "2",
            "ACD_TLS_HOST": "127.0.0.1", "ACD_TLS_PORT": "8443", "ACD_LOCAL_PORTS": ""}


def others(names: Iterable[str]) -> list[str]:
    """Of these names those that look like a setting's, and are none: no version had them."""
    return sorted(name for name in names if name.startswith(PREFIX) and name not in (*NAMES, *EARLIER))


def earlier(names: Iterable[str]) -> list[str]:
    return sorted(name for name in names if name in EARLIER)


def nearest(name: str) -> str:
    return difflib.get_close_matches(name, NAMES, 1, 0)[0]


def written(file: Path | None = None) -> dict[str, str]:
    """What the administrator wrote for the units; quotes around a value don't belong to it, as with systemd. Nothing
    where the file can't be read."""
    try:
        lines = (file or FILE).read_text(errors="replace").splitlines()
    except OSError:
        return {}
    found = (line.split("=", 1) for line in lines if "=" in line and not line.startswith(("#", ";")))
    return {name.strip(): re.sub(r"""^(["'])(.*)\1$""", r"\2", value.strip()) for name, value in found}


def current() -> dict[str, str]:
    """The settings that count here: those of the environment, as a unit has them, before those of the file, and those
    before the defaults."""
    given = {**written(), **{name: value for name, value in os.environ.items() if name in NAMES}}
    return {**DEFAULTS, **{name: value for name, value in given.items() if value}}


def address(port: object, path: str) -> str:
    """The address of a desk that listens on a port of the loopback address, or on a socket, where there is no port."""
    return f"http://127.0.0.1:{port}" if port else f"unix:{path}"


def place(port: object, path: str) -> str:
    """The same in words."""
    return f"port {port}" if port else path


def desk_file() -> str:
    return current()["ACD_FILE"]


def add_file(parser: argparse.ArgumentParser, about: str = "the desk's file", metavar: str = "F") -> None:
    """The option --file, with one default in all commands."""
    parser.add_argument("--file", metavar=metavar, default=desk_file(),
                        help=f"{about}; that of ACD_FILE, else {DEFAULTS['ACD_FILE']}")
