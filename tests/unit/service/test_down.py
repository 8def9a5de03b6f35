"""Of unit: a desk's unit that is stopped and kept down, and started again by whoever runs the second half, whenever the first was broken off."""
import unittest
from unittest import mock

import service_ground as ground
from acd_service import unit
from acd_service.restoring import Fault


class Systemd:
    """A unit of systemd that has a condition: what is asked of it, and what it is then."""

    def __init__(self, folder, state, refused=False, starts=False):
        self.folder, self.state, self.refused, self.asked, self.starts = folder, state, refused, [], starts

    def __call__(self, *words):
        self.asked.append(words)
        if words[:3] == ("show", "--value", "--property=ActiveState"):
            found = self.state
            # one that is being stopped may be about to be started again
            self.state = {"deactivating": "inactive"}.get(found, "active" if self.starts and not (self.folder / "down").exists() else found)
            return found
        if words[0] == "show":
            return f"ConditionResult={'no' if self.refused else 'yes'}\nConditionTimestampMonotonic={5 if self.refused else 0}"
        self.state = {"stop": "inactive", "start": "active"}[words[0]]
        return ""

    def verbs(self):
        return [words[0] for words in self.asked if words[0] != "show"]


class Down(ground.Case):
    def setUp(self):
        super().setUp()
        self.run = self.folder / "run"
        self.enterContext(mock.patch.multiple(unit, FOLDER=self.run, DOWN=self.run / "down", START=self.run / "start", PAUSE=0.001))

    def systemd(self, *how, **more):
        one = Systemd(self.run, *how, **more)
        self.enterContext(mock.patch.object(unit, "systemctl", one))
        return one

    def files(self):
        return sorted(one.name for one in self.run.iterdir()) if self.run.exists() else None

    def test_one_that_was_up(self):
        for state in ("active", "activating", "reloading"):
            systemd = self.systemd(state)
            unit.stop()
            self.assertEqual((systemd.state, self.files()), ("inactive", ["down", "start"]))
            unit.start()
            self.assertEqual((systemd.state, systemd.asked[-1], self.files()), ("active", ("start", "--no-block", "acd.service"), None))
            before = len(systemd.asked)
            unit.start()
            self.assertEqual(len(systemd.asked), before)

    def test_one_that_was_down(self):
        for state in ("inactive", "failed", "deactivating"):
            systemd = self.systemd(state)
            unit.stop()
            self.assertEqual(self.files(), ["down"])
            unit.start()
            self.assertEqual((systemd.verbs(), self.files()), (["stop"], None))

    def test_one_that_somebody_asked_for_meanwhile(self):
        systemd = self.systemd("inactive")
        unit.stop()
        systemd.refused = True
        unit.start()
        self.assertEqual((systemd.verbs(), self.files()), (["stop", "start"], None))

    def test_one_that_somebody_started_just_then(self):
        """After the look, and before anything kept it down."""
        systemd = self.systemd("inactive", starts=True)
        unit.stop()
        self.assertEqual((systemd.state, self.files()), ("inactive", ["down", "start"]))

    def test_both_files_are_there_before_it_is_stopped(self):
        """And `start` until it is started: whichever is killed, the second one does the rest."""
        systemd = self.systemd("active")
        with mock.patch.object(unit, "systemctl", lambda *words: systemd(*words) if words[0] == "show" else self.fail_at(words)), self.assertRaises(KeyboardInterrupt):
            unit.stop()
        self.assertEqual(self.files(), ["down", "start"])
        with mock.patch.object(unit, "systemctl", lambda *words: systemd(*words) if words[0] == "show" else self.fail_at(words)), self.assertRaises(KeyboardInterrupt):
            unit.start()
        self.assertEqual(self.files(), ["start"])
        unit.start()
        self.assertEqual((systemd.state, self.files()), ("active", None))

    def fail_at(self, words):
        raise KeyboardInterrupt

    def test_one_that_does_not_end(self):
        with mock.patch.object(unit, "systemctl", lambda *_: "deactivating"), mock.patch.object(unit, "PATIENCE", 0.01):
            self.assertFalse(unit.is_up())


class Systemctl(ground.Case):
    def test_what_it_says(self):
        self.program("systemctl", 'echo " $* "')
        self.assertEqual(unit.systemctl("stop", "acd.service"), "stop acd.service")
        self.program("systemctl", "echo 'no\n such unit' >&2; exit 5")
        with self.assertRaisesRegex(Fault, "^systemctl stop acd.service: no such unit$"):
            unit.systemctl("stop", "acd.service")
        self.program("systemctl", "exit 4")
        with self.assertRaisesRegex(Fault, "^systemctl stop acd.service: status 4$"):
            unit.systemctl("stop", "acd.service")


if __name__ == "__main__":
    unittest.main()
