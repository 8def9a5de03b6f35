"""Puts a small file in its place: whole or not at all, and on the disk before it returns. Tested, not proved.

A reader finds the old file or the new one, also after a power cut: the content goes to the disk before the name does,
and the name before this returns."""
import contextlib
import fcntl
import os
import time
from collections.abc import Iterator
from pathlib import Path
from typing import TextIO


@contextlib.contextmanager
def alone(folder: Path, patience: float | None = None) -> Iterator[None]:
    """Nobody else changes or copies the files as long as this lasts; whoever doesn't give way for so long is passed
    over."""
    opened = os.open(folder, os.O_RDONLY | os.O_DIRECTORY)
    end = time.monotonic() + (patience or 0)
    try:
        while True:
            try:
                fcntl.flock(opened, fcntl.LOCK_EX | (fcntl.LOCK_NB if patience is not None else 0))
                break
            except BlockingIOError:
                if time.monotonic() > end:
                    break
                time.sleep(0.1)
        yield
    finally:
        os.close(opened)


def sync_folder(folder: Path) -> None:
    """The names in it are on the disk, once this returns."""
    opened_folder = os.open(folder, os.O_RDONLY)
    try:
        os.fsync(opened_folder)
    finally:
        os.close(opened_folder)


def opened(path: Path, mode: int) -> TextIO:
    """A new file beside a path, to be written; whatever the umask, it has this mode. Remains of a try that was killed
    make room for it."""
    def opener(name: str, flags: int) -> int:
        new = os.open(name, flags, 0o600)
        os.fchmod(new, mode)
        return new

    new = path.with_name(f".{path.name}.new")
    new.unlink(missing_ok=True)
    return open(new, "x", encoding="utf-8", newline="", opener=opener)


def settle(stream: TextIO, path: Path) -> None:
    """Gives the file that was written the path's name."""
    stream.flush()
    os.fsync(stream.fileno())
    os.replace(stream.name, path)
    sync_folder(path.parent)


def put(path: Path, text: str, mode: int = 0o600, owner: tuple[int, int] | None = None) -> None:
    """Writes a file in one step; root may write it for its owner, a user and a group. Where that fails nothing is left
    of it."""
    put_bytes(path, text.encode(), mode, owner)


def put_bytes(path: Path, data: bytes, mode: int = 0o600, owner: tuple[int, int] | None = None) -> None:
    """The same, with bytes."""
    stream = opened(path, mode)
    try:
        with stream:
            stream.buffer.write(data)
            if owner:
                os.fchown(stream.fileno(), *owner)
            settle(stream, path)
    except BaseException:
        Path(stream.name).unlink(missing_ok=True)
        raise
