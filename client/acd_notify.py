"""Tells systemd how a service of Type=notify is, as sd_notify(3) describes it. Tested, not proved."""
import os
import socket


def tell(state: str) -> None:
    """Without systemd nobody is told; a message that can't be sent leaves the service as it is."""
    address = os.environ.get("NOTIFY_SOCKET", "")
    if not address:
        return
    try:
        with socket.socket(socket.AF_UNIX, socket.SOCK_DGRAM) as out:
            # one without a name in the file system
            out.connect("\0" + address[1:] if address.startswith("@") else address)
            out.send(state.encode())
    except OSError:
        pass


def ready() -> None:
    """The service has started."""
    tell("READY=1")
