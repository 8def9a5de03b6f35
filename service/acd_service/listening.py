"""Where desk and gate listen: sockets at a path of the file system, and ports. Tested, not proved."""
import contextlib
import errno
import os
import shlex
import socket
import stat

from acd_service import command, settings
from acd_service.command import Fault, to_mend
from acd_service.restoring import name_of

# connections that wait until they are taken: as many as the system allows
BACKLOG = 1 << 16
# the kernel's most bytes of a path, without the zero at its end
LONGEST = 107


def is_listened_at(path: str) -> bool:
    """Whether somebody listens at the socket that is at this path."""
    with socket.socket(socket.AF_UNIX) as tried:
        tried.settimeout(5)
        try:
            tried.connect(path)
        except ConnectionRefusedError:
            return False
        except OSError:
            pass
    return True


def listening_at(path: str) -> socket.socket:
    """A socket at which this process listens, for its user and its group; until then its folder must keep others out.
    What a process that has ended left there is made anew, as the desk does; anything else stays, and is an OSError."""
    with contextlib.suppress(FileNotFoundError):
        found = os.lstat(path)
        if stat.S_ISSOCK(found.st_mode) and found.st_uid == os.geteuid() and not is_listened_at(path):
            os.unlink(path)
    made = socket.socket(socket.AF_UNIX)
    try:
        made.bind(path)
        os.chmod(path, 0o660)
        made.listen(BACKLOG)
    except OSError:
        made.close()
        raise
    return made


# What a desk is started for

def look_at_port(port: int) -> None:
    with socket.socket() as tried:
        tried.setsockopt(socket.SOL_SOCKET, socket.SO_REUSEADDR, 1)
        try:
            tried.bind(("127.0.0.1", port))
        except OSError as fault:
            if fault.errno == errno.EADDRINUSE:
                raise to_mend(f"port {port} is taken: end who listens there (ss -ltnp sport = :{port}), "
                              f"or name another port, ACD_PORT in {settings.FILE}") from None
            if fault.errno == errno.EACCES:
                raise to_mend(f"the user {name_of(os.geteuid())} may not use port {port}: choose 1024 or higher, "
                              f"ACD_PORT in {settings.FILE}") from None
            raise Fault(f"port {port}: {fault.strerror}", status=command.FAILED) from None


def look_at_socket(path: str) -> None:
    """The desk makes its own one anew where nobody listens; anything else is in its way."""
    folder, otherwise = os.path.dirname(path), f"or name another socket, ACD_SOCKET in {settings.FILE}"
    if not path.startswith("/") or len(os.fsencode(path)) > LONGEST:
        raise to_mend(f"'{path}' is no path of a socket, which begins with / and has {LONGEST} bytes at most: "
                      f"mend ACD_SOCKET in {settings.FILE}")
    if not os.path.isdir(folder):
        raise to_mend(f"the folder {folder} isn't there: make it (systemd-tmpfiles --create acd.conf), {otherwise}")
    if not os.access(folder, os.W_OK | os.X_OK, effective_ids=True):
        raise to_mend(f"the user {name_of(os.geteuid())} may not write in {folder}: give it to this user "
                      f"(chown {name_of(os.geteuid())} {shlex.quote(folder)}), {otherwise}")
    if not os.path.lexists(path):
        return
    found = os.lstat(path)
    if not stat.S_ISSOCK(found.st_mode) or found.st_uid != os.geteuid():
        raise to_mend(f"{path} is there, and is no socket of the user {name_of(os.geteuid())}: move it away, "
                      f"{otherwise}")
    if is_listened_at(path):
        raise to_mend(f"{path} is taken: end who listens there (ss -lxp src unix:{shlex.quote(path)}), {otherwise}")


def look_at(port: int | None, path: str) -> None:
    """A Fault that says what to do, where the desk can't listen on this port, or, without one, on the socket at this
    path."""
    if port:
        look_at_port(port)
    else:
        look_at_socket(path)
