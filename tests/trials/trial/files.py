"""A desk's file with its log."""
import shutil
import tempfile
from pathlib import Path

import tables


def log_of(file):
    return Path(f"{file}-wal")


def copied(file, folder):
    """The file with its log, in a folder."""
    made = Path(folder) / file.name
    for source, target in ((file, made), (log_of(file), log_of(made))):
        target.unlink(missing_ok=True)
        if source.exists():
            shutil.copy(source, target)
    return made


def held(file):
    """All rows, read out of a copy, since SQLite plays the log into the file."""
    with tempfile.TemporaryDirectory() as folder:
        return tables.held(copied(file, folder))
