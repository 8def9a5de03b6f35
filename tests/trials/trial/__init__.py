"""What the trials stand on: cases of unittest whose checks are counted, a desk that is started and ended, a connection to it, and the requests of an office. From here on a trial
finds the modules of the folder that has its name, and those of tests/."""
import sys
from pathlib import Path

from .connections import ANY, Connection, Reply, bytes_back, connected, free_port, free_ports, is_refused, until, until_listening
from .counting import TOP, Trial, command, main, missing, planted
from .desks import Desk, Done, Lines, at_a_terminal, growths_in, limited, ran, refusing, running
from .forked import forked
from .requests import Plan, Requests, compact, line, lines

__all__ = ["ANY", "TOP", "Connection", "Desk", "Done", "Lines", "Plan", "Reply", "Requests", "Trial", "at_a_terminal", "bytes_back", "command", "compact", "connected", "forked", "free_port", "free_ports",
           "growths_in", "is_refused", "limited", "line", "lines", "main", "missing", "planted", "ran", "refusing", "running", "until", "until_listening"]

sys.path[:0] = [str(TOP / "tests/trials" / Path(sys.argv[0]).name.removeprefix("try-")), str(TOP / "tests")]
