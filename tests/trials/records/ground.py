"""What the trials of acd-calls and acd-plan stand on: the two scripts, of which one may have a fault, and how they are run."""
import os

from shipped import SERVICE
from trial import Trial, lines, ran


class Records(Trial):
    scripts = {name: SERVICE / "bin" / name for name in ("acd-calls", "acd-plan")}

    @classmethod
    def ran(cls, words, given="", zone="UTC", password=None):
        """One with a fault may go on. It has no terminal."""
        settings = {**os.environ, "TZ": zone, **({"ACD_PASSWORD": password} if password is not None else {})}
        return ran(*words, given=given, env=settings, start_new_session=True)

    @classmethod
    def feed(cls, file, requests, moment=5):
        """The answers of a desk over the file, in lines."""
        return cls.acd("lines", "--file", file, given=requests if isinstance(requests, str) else lines(requests, moment)).output.splitlines()
