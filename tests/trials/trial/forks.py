#!/usr/bin/python3
"""Forks off the commands of acdctl, one for each line of its input, which says what a started program has of its own; it says how each ended. The arguments are the folders of the modules."""
import gc
import importlib
import json
import os
import sys
import time

MODULES = ("copy", "follow", "forget", "prune", "trail")


def serve(paths):
    """It returns in each child what that is to be, and nothing at the end of its input."""
    sys.path[:1] = paths
    for name in MODULES:
        importlib.import_module(f"acd_service.{name}")
    gc.freeze()     # no child looks for garbage in what it has from here
    for line in sys.stdin:
        child = os.fork()
        if child == 0:
            return json.loads(line)
        print(os.waitstatus_to_exitcode(os.waitpid(child, 0)[1]), flush=True)
    return None


def become(asked):
    """A command with folder, variables and streams of its own."""
    if asked["session"]:
        os.setsid()
    os.environ.clear()
    os.environ.update(asked["env"])
    time.tzset()
    os.chdir(asked["cwd"])
    for number, stream in enumerate(asked["streams"]):
        file = os.open(stream, os.O_WRONLY | os.O_CREAT if number else os.O_RDONLY)
        os.dup2(file, number)
        os.close(file)
    sys.stdin = open(0, encoding="utf-8", closefd=False)
    sys.stdout = open(1, "w", encoding="utf-8", closefd=False)
    sys.stderr = open(2, "w", buffering=1, encoding="utf-8", errors="backslashreplace", closefd=False)
    sys.argv = asked["words"]
    importlib.import_module("acd_service.main").main(sys.argv)


if __name__ == "__main__":
    work = serve(sys.argv[1:])
    if work is not None:
        become(work)
