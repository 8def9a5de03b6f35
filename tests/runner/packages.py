"""The Debian packages that tests need: which of them are missing, and how to get them."""
import functools
import importlib
import importlib.util
import os
import shutil
import subprocess
import sys
from collections.abc import Callable, Iterable
from pathlib import Path

TOP = Path(__file__).resolve().parents[2]
# of each package a program, a module of Python or a file, by which it is known
KNOWN_BY = {
    "apache2-utils": "htpasswd",
    "binutils": "nm",
    "chromium": "chromium",
    "chromium-driver": "chromedriver",
    "curl": "curl",
    "debootstrap": "debootstrap",
    "etcd-client": "etcdctl",
    "etcd-server": "etcd",
    "flake8": "flake8",
    "gcc": "gcc",
    "golang-go": "go",
    "iproute2": "ip",
    "kamailio": "kamailio",
    "kamailio-tls-modules": "/usr/lib/x86_64-linux-gnu/kamailio/modules/tls.so",
    "libjson-validator-perl": "/usr/share/perl5/JSON/Validator.pm",
    "lintian": "lintian",
    "mypy": "mypy",
    "nftables": "nft",
    "nginx-light": "nginx",
    "node-typescript": "tsc",
    "nodejs": "node",
    "openssl": "openssl",
    "prometheus": "prometheus",
    "python3-aiohttp": "aiohttp",
    "python3-bcrypt": "bcrypt",
    "python3-coverage": "coverage",
    "python3-h2": "h2",
    "python3-jsonschema": "jsonschema",
    "python3-passlib": "passlib",
    "python3-prometheus-client": "prometheus_client",
    "python3-pytest": "pytest",
    "python3-pytest-timeout": "pytest_timeout",
    "python3-yaml": "yaml",
    "sip-tester": "sipp",
    "sqlite3": "sqlite3",
    "strace": "strace",
    "systemd-container": "systemd-nspawn",
    "util-linux": "unshare",
}
ROOM = 1 << 30      # bytes in memory that folders of trials may take
LONGEST = 900       # seconds that apt-get may take
APT = ("timeout", "--kill-after=10", str(LONGEST), "apt-get", "-q", "-o", "DPkg::Lock::Timeout=120", "-o", "Acquire::Retries=1", "-o", "Acquire::http::Timeout=30")


@functools.cache
def does(*words: str) -> bool:
    """Whether a command can be run here, and succeeds."""
    try:
        return subprocess.run(words, stdin=subprocess.DEVNULL, stdout=subprocess.DEVNULL, stderr=subprocess.DEVNULL, timeout=60, check=False).returncode == 0
    except (OSError, subprocess.TimeoutExpired):
        return False


def has_room_in_memory() -> bool:
    try:
        room = os.statvfs("/dev/shm")
    except OSError:
        return False
    return room.f_bavail * room.f_frsize > ROOM


# what a machine may lack beside packages, and whether it is there
CONDITIONS: dict[str, Callable[[], bool]] = {
    "root": lambda: os.geteuid() == 0,
    "name spaces": lambda: does("unshare", "--mount", "--net", "--pid", "--fork", "--mount-proc", "mount", "-t", "tmpfs", "trial", "/mnt"),
    "loop devices": lambda: Path("/dev/loop-control").exists(),
    "tracing": lambda: does("strace", "-f", "-qq", "-o", "/dev/null", "true"),
    "room in /dev/shm": has_room_in_memory,
    "packages in out/": lambda: any((TOP / "out").glob("acd_*.deb")),
}


def is_there(package: str) -> bool:
    if package in CONDITIONS:
        return CONDITIONS[package]()
    known_by = KNOWN_BY[package]
    if known_by.startswith("/"):
        return Path(known_by).exists()
    if package.startswith("python3-"):
        return importlib.util.find_spec(known_by) is not None
    return shutil.which(known_by, path=f"{os.environ.get('PATH', '')}:/usr/sbin:/sbin") is not None


def missing(packages: Iterable[str]) -> list[str]:
    return sorted(package for package in set(packages) if not is_there(package))


def line_for(packages: Iterable[str]) -> str:
    """The line that gets these packages."""
    return f"apt-get install --no-install-recommends {' '.join(packages)}"


def run_apt(*words: str) -> bool:
    """Without questions, and without an end that nobody waits for."""
    environment = {**os.environ, "DEBIAN_FRONTEND": "noninteractive"}
    done = subprocess.run([*APT, *words], env=environment, stdin=subprocess.DEVNULL, stdout=sys.stderr, check=False)
    return done.returncode == 0


def install(packages: list[str], first: Iterable[str]) -> None:
    """Gets these packages, and by a call of its own those that come first: these don't depend on whether the others can be had."""
    if os.geteuid():
        print("./test: --install needs root", flush=True)
        return
    run_apt("update")
    for group in (set(packages) & set(first), set(packages) - set(first)):
        if group:
            run_apt("install", "-y", "--no-install-recommends", *sorted(group))
    importlib.invalidate_caches()
