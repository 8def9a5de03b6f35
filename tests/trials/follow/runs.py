"""Random runs: a desk under load and who follows it, each killed at random, copies that are put back, restarts. At each stop the copy is the desk's file
row for row, or acd-follow said why it isn't."""
import contextlib
import os
import random
import signal
import tempfile
import time
from collections import Counter
from pathlib import Path

from ground import Follower, Ground, Load, Served, endless_day, is_beginning, last_of, state_in
from trial.files import copied, held

DIFFERS, KILLED = 3, -signal.SIGKILL
SEEN = Counter()


class Run:
    def __init__(self, trial, seed):
        self.trial, self.chance, self.what = trial, random.Random(seed), f"run {seed}"
        self.folder = Path(tempfile.mkdtemp(dir=trial.folder))
        self.desk = Served(trial, self.folder / "desk.db").start()
        self.load = Load(self.desk.port, endless_day(seed), self.chance)
        self.file, self.follower, self.saved = self.folder / "g/copy.db", None, None
        # the requests of each history that ended by a copy that was put back
        self.histories = []
        self.file.parent.mkdir()
        self.follow()

    def expect(self, what, has, wanted=True):
        self.trial.expect(f"{self.what}, {what}", has, wanted)

    def follow(self):
        self.follower = Follower(self.trial, self.desk.address, self.file, "--desk", self.trial.program)

    # what happens

    def kill_follower(self):
        self.ended(*self.follower.end(signal.SIGKILL))

    def end_follower(self):
        self.ended(*self.follower.end())

    def kill_its_desk(self):
        with contextlib.suppress(ProcessLookupError, TypeError):
            os.kill(self.follower.desk(), signal.SIGKILL)

    def kill_desk(self):
        self.desk.kill()
        time.sleep(self.chance.choice([0, 0.2]))
        self.desk.start()

    def save_copy(self):
        self.desk.kill()
        folder = self.folder / "saved"
        folder.mkdir(exist_ok=True)
        self.saved = copied(self.desk.file, folder)
        self.desk.start()

    def put_copy_back(self):
        if self.saved is None:
            return
        self.desk.kill()
        self.histories.append(held(self.desk.file)["kept"])
        copied(self.saved, self.folder)
        self.desk.start()

    # what is so at a stop

    def ended(self, status, said):
        """That it ended well, by its own account; or why not."""
        SEEN[f"ended with {status}"] += 1
        if status == KILLED or status == -signal.SIGTERM and not said:
            # the other one where it hadn't begun yet
            return
        state = state_in(said)
        if state:
            self.expect(f"what it has by its own account ({status}): {said}", state[0], last_of(self.file))
        if status == DIFFERS:
            self.is_of_before(said)
        else:
            self.expect(f"it ended by a signal: {said}", status, 0)

    def is_of_before(self, said):
        """It has what was answered before a copy was put back, and nothing of what was answered since; from here on it is made anew."""
        has = held(self.file)["kept"]
        self.expect(f"it stopped where it is no beginning of the desk's any more: {said}", not is_beginning(has, self.desk.rows()["kept"]))
        self.expect("it is a beginning of what was before", any(is_beginning(has, history) for history in self.histories))
        for part in self.file.parent.iterdir():
            part.unlink()

    def all(self):
        happens = [self.kill_follower, self.end_follower, self.kill_its_desk, self.kill_desk, self.save_copy, self.put_copy_back]
        for _ in range(self.chance.randrange(3, 9)):
            time.sleep(self.chance.uniform(0, 0.6))
            one = self.chance.choice(happens)
            SEEN[one.__name__] += 1
            one()
            if self.follower.has_ended():
                if one.__name__ not in ("kill_follower", "end_follower"):
                    self.ended(*self.follower.end())
                self.follow()
        self.load.stop()
        self.ended(*self.follower.end())
        self.catch_up()

    def catch_up(self):
        for _ in range(2):
            status, said, told = self.trial.once(self.desk.address, self.file, "--desk", self.trial.program)
            if status != DIFFERS:
                break
            self.ended(status, told + said)
        self.expect(f"it catches up: {said}{told}", status, 0)
        if not status:
            SEEN["requests"] += self.trial.judge(self.what, self.file, self.desk)


class Runs(Ground):
    def try_runs(self):
        first, count = self.options.first, self.options.runs
        for seed in range(first, first + count):
            run = Run(self, seed)
            try:
                run.all()
            finally:
                run.load.stop()
                self.doCleanups()
            if (seed - first) % 50 == 49:
                self.tell(f"{seed - first + 1} runs")
        print(f"    {count} runs: {', '.join(f'{what} {number}' for what, number in sorted(SEEN.items()))}", flush=True)
