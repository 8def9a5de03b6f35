"""Commands of acdctl, each in a process of its own. It is forked off one that has their modules already, since the start of Python costs more than most of them do."""
import atexit
import json
import os
import subprocess
import tempfile
import threading
from pathlib import Path

from .desks import Done

PYTHON = "/usr/bin/python3"
TOP = Path(__file__).resolve().parents[3]
FORKS = Path(__file__).with_name("forks.py")
# of each thread the process that forks, and of which folder its modules are
SERVERS = {}


def forked(script, *words, given="", cwd=None, env=None, start_new_session=False):
    """As `ran` does, for a program of `service/bin`, or of the folder that `shipped` makes."""
    server = server_of(Path(script))
    with tempfile.TemporaryDirectory() as folder:
        streams = [f"{folder}/{name}" for name in ("given", "output", "faults")]
        Path(streams[0]).write_bytes(given if isinstance(given, bytes) else given.encode())
        asked = {"words": [*map(str, (script, *words))], "cwd": str(cwd or os.getcwd()), "env": dict(os.environ if env is None else env), "streams": streams, "session": start_new_session}
        server.stdin.write(f"{json.dumps(asked)}\n")
        server.stdin.flush()
        status = int(server.stdout.readline())
        return Done(status, *(Path(stream).read_bytes().decode() for stream in streams[1:]))


def server_of(script):
    beside = script.resolve().parent
    paths = (beside,) if (beside / "acd_service").is_dir() else (TOP / "service", TOP / "client")
    of, server = SERVERS.get(threading.get_ident(), ((), None))
    if of != paths:
        end(server)
        server = subprocess.Popen([PYTHON, FORKS, *paths], stdin=subprocess.PIPE, stdout=subprocess.PIPE, encoding="utf-8")
        SERVERS[threading.get_ident()] = paths, server
    return server


def end(server):
    if server:
        server.stdin.close()
        server.stdout.close()
        server.wait()


@atexit.register
def end_all():
    for _, server in SERVERS.values():
        end(server)
    SERVERS.clear()
