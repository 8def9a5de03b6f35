"""Cases over a Debian that is booted: the packages under trial, a container for each class, and the command line of a trial that has such cases."""
import json
import os
import re
import shutil
import sys
import tempfile
from pathlib import Path

from base import make_base, unpack
from container import Container
from trial import TOP, Trial, command, missing

# of each such trial; debootstrap follows no virtual packages: python3-cffi-backend is what python3-bcrypt means by one
INCLUDED = ("adduser", "curl", "dbus", "iproute2", "nftables", "procps", "python3", "python3-aiohttp", "python3-bcrypt", "python3-cffi-backend", "python3-icalendar", "python3-passlib", "systemd", "systemd-sysv")
NEEDED = ("debootstrap", "nsenter", "systemd-nspawn", "tar")
# where desk and gate are: at their sockets, as they are installed, or at the ports of before, which an upgrade keeps; each as curl is told it
AT_SOCKETS = {"desk": ("--unix-socket", "/run/acd/desk.sock", "http://desk"), "gate": ("--unix-socket", "/run/acd-gate/gate.sock", "http://gate")}
AT_PORTS = {"desk": ("http://127.0.0.1:8080",), "gate": ("http://127.0.0.1:8081",)}
PORTS = "ACD_PORT=8080\nACD_GATE_PORT=8081\nACD_LOCAL_PORTS=2379,2380\n"


class Booted(Trial):
    """Each class has a container of its own, in which `packages` are installed. `included` are packages of Debian that it has for these cases alone; `said` is what dpkg said."""

    included, packages, container, said, places = (), (), None, "", AT_SOCKETS

    @classmethod
    def setUpClass(cls):
        super().setUpClass()
        unpack(make_base(cls.options.folder, ",".join(sorted({*INCLUDED, *cls.included}))), cls.folder / "root")
        cls.container = Container(cls.folder / "root", cls.options.folder / f"{cls.__name__.lower()}.log")
        cls.addClassCleanup(cls.container.end)
        cls.said = install(cls.container, cls.packages)
        cls.prepare()

    @classmethod
    def prepare(cls):
        """Makes the container ready for the cases."""

    @classmethod
    def keep_ports(cls):
        """As an upgrade of a package of before leaves it."""
        settings = cls.container.inside("/etc/acd/acd.env")
        settings.write_text(settings.read_text() + PORTS)
        cls.container.run("systemctl", "restart", "acd-local", "acd", "acd-gate")
        cls.places = AT_PORTS

    @classmethod
    def at(cls, path, of="desk"):
        """A path of the desk or of the gate, as curl is told it."""
        *words, address = cls.places[of]
        return [*words, f"{address}{path}"]

    def expect_in(self, what, found, wanted):
        self.see(what, re.search(wanted, found), f"no '{wanted}' in {found!r}")

    def ran(self, *words, **how):
        return self.container.run(*words, **how)

    def done(self, *words):
        """A command that has to work; what it prints."""
        status, said = self.ran(*words)
        self.expect(f"{' '.join(map(str, words))} ({said[-400:]})", status, 0)
        return said

    def eventually(self, look, wanted, seconds=15):
        """What is seen once it is what is wanted, or at the end of the time."""
        end = "end"
        for _ in range(seconds * 5):
            end = look()
            if end == wanted:
                break
            self.ran("sleep", "0.2")
        return end

    def curl(self, address, *more, user=None, group=None):
        """The status of HTTP; 0 where there was no connection, none that was answered, or no such user. An address is a text, or curl's words. A group is the first one, as by `sg`."""
        address = [address] if isinstance(address, str) else address
        words = ["curl", "-s", "-o", "/dev/null", "-w", "%{http_code}", "--max-time", "3", "--noproxy", "*", *more, *address]
        if group:
            words, user = ["setpriv", "--reuid", user, "--regid", group, "--clear-groups", *words], None
        said = self.ran(*words, user=user)[1]
        return int(said) if said.isdigit() else 0

    def service(self, requester, invoke, service, of="desk", fields=(), **members):
        """The reply of the desk or of the gate, asked by root."""
        body = json.dumps({"requester": requester, "invoke": invoke, "service": service, **members})
        said = self.ran("curl", "-s", "--max-time", "5", *fields, "-d", body, *self.at("/csta", of))[1]
        return json.loads(said) if said else {}

    def read(self, path, of="desk"):
        return self.ran("curl", "-s", "--max-time", "5", *self.at(path, of))[1]

    def journal(self, unit):
        return self.ran("journalctl", "--no-pager", "-o", "cat", "-u", unit)[1]


def install(container, packages):
    """What dpkg says as it installs the packages."""
    said = ""
    for package in packages:
        shutil.copy(package, container.inside("/root"))
        status, more = container.run("dpkg", "--install", f"/root/{package.name}")
        if status:
            raise ValueError(f"dpkg says\n{more}")
        said += more
    return said


def packages_by(package, exchange):
    """The package that is named, or the one of out/, and that of the exchange beside it; or what is wrong with them."""
    made = [package] if package else sorted((TOP / "out").glob("acd_*.deb"))
    if len(made) != 1:
        return (), f"there are {len(made)} packages, and not one"
    if not made[0].is_file():
        return (), f"there is no package {made[0]}"
    beside = sorted(made[0].parent.glob("acd-exchange_*.deb")) if exchange else []
    return (*made, *beside), f"beside it are {len(beside)} packages of the exchange, and not one" if exchange and len(beside) != 1 else None


def chosen(document, tool, parts, needed=(), exchange=False):
    """The options of the command line. From here on there are the packages, and the folder is where all is made."""
    parser = command(document, parts, "package")
    parser.set_defaults(package=None, program=None)
    parser.add_argument("--folder", type=Path, default=Path(f"/var/tmp/{tool}"))
    options = parser.parse_args()
    lacking = missing(sorted({*NEEDED, *needed}))
    Booted.packages, fault = packages_by(options.package, exchange)
    fault = (f"the parts are {', '.join(parts)}" if not set(options.only) <= set(parts) else f"there is no {', '.join(lacking)} here" if lacking
             else "it has to be run by root" if os.geteuid() else fault)
    if fault:
        sys.exit(f"tests/trials/{tool}: {fault}")
    options.folder.mkdir(parents=True, exist_ok=True)
    tempfile.tempdir = str(options.folder)
    return options
