"""A clock of a trial's own, for a Python process whose PYTHONPATH has this folder: it stands in the file MOMENT, and a sleep moves it on. When it has slept for
LASTS seconds in all the process ends.

PATIENCE, if it is set, are the seconds that a timer takes at most. JUMPS has pairs BEGIN:SECONDS: from that time on the clock that is shown is so far ahead of the time that passes."""
import os
import signal
import time

if "MOMENT" in os.environ:
    slept, jumps = 0.0, [tuple(map(int, each.split(":"))) for each in os.environ.get("JUMPS", "").split()]

    def passed():
        with open(os.environ["MOMENT"]) as file:
            return float(file.read())

    def shown():
        now = passed()
        return now + next((seconds for begin, seconds in reversed(jumps) if begin <= now), 0)

    def sleep(seconds):
        global slept
        now, slept = passed() + seconds, slept + seconds
        with open(os.environ["MOMENT"], "w") as file:
            file.write(str(now))
        if slept >= float(os.environ["LASTS"]):
            os._exit(0)

    def limit(which, seconds, timer=signal.setitimer):
        return timer(which, min(seconds, float(os.environ["PATIENCE"])))

    time.time, time.sleep = shown, sleep
    if "PATIENCE" in os.environ:
        signal.setitimer = limit
