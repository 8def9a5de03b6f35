"""Cases of settings that are mistyped, of folders that aren't the desk's, and of copies that nobody makes any more."""
import os
import re
import shutil
import time
from pathlib import Path
from unittest import mock

from ground import MEND, Ready
from trial import TOP, free_port

NOBODY = 65534


class Settings(Ready):
    def asked(self, *, file, **names):
        return self.ready("--serve", "--file", file, "--port", free_port(), variables={**self.variables, **names})

    def try_mistyped_name(self):
        file = self.new()
        for name, nearest in (("ACD_FLIE", "ACD_FILE"), ("ACD_PORTS", "ACD_PORT"), ("ACD_COPY_FOLDERS", "ACD_COPY_FOLDER"), ("ACD_NODE_MACHINE", "ACD_NODE_MACHINES")):
            status, out, said = self.asked(file=file, **{name: "/srv/desk.db"})
            self.expect(f"{name}: {said}", (status, out, said.count("\n"), f"no setting is called {name}: {nearest}" in said), (MEND, "", 1, True))
        self.expect("nothing was begun", sorted(one.name for one in file.parent.iterdir()), ["desk.db", "desk.db-wal"])

    def try_earlier_name(self):
        """One of an earlier version is passed over: here up to the fault that ends the start."""
        status, _, said = self.asked(file=self.folder / "none.db", ACD_CONNECTIONS="64", ACD_GATE_PORT="8081")
        self.expect(said, (status, said.count("\n"), said.startswith("acd-ready: ACD_CONNECTIONS is a setting of an earlier version, and is passed over")), (MEND, 2, True))

    def try_all_names(self):
        """Each name that a shipped file has is known."""
        module, found = self.module("settings"), set()
        for folder in ("board", "client", "docs", "exchange", "packaging", "service"):
            for file in (TOP / folder).rglob("*"):
                if file.is_file() and file.suffix not in (".png", ".pyc"):
                    found |= set(re.findall(r"\bACD_[A-Z][A-Z_]*[A-Z]\b", file.read_text(errors="replace")))
        self.expect("names that aren't known", sorted(found - {*module.NAMES, *module.EARLIER}), [])
        self.see("there are some", len(found) > 20, found)

    # folders

    def told(self, call):
        """The fault that a call tells to a user who isn't root, and may look into none of these folders."""
        ours, theirs = os.pipe()
        if not os.fork():
            try:
                if os.geteuid() == 0:
                    os.setgroups([])
                    os.setresuid(NOBODY, NOBODY, NOBODY)
                call()
                os.write(theirs, b"nothing")
            except Exception as fault:
                os.write(theirs, f"{getattr(fault, 'status', '')} {fault}".encode())
            finally:
                os._exit(0)
        os.close(theirs)
        os.wait()
        with os.fdopen(ours) as said:
            return said.read()

    def try_folders(self):
        """Nobody is advised to give away a folder that has something in it, or a home."""
        ready, free = self.module(), Path("/dev/shm") / f"ready-{os.getpid()}"
        shutil.rmtree(free, ignore_errors=True)
        self.addCleanup(shutil.rmtree, free, ignore_errors=True)
        for name in ("empty", "others", "ours", "home/joe"):
            (free / name).mkdir(parents=True)
        free.chmod(0o755)
        for name in ("others", "ours"):
            (free / name / "keep").touch()
        (free / "home").chmod(0)
        ready.OURS, ready.HOMES = free / "ours", [free / "home"]
        for name, look, given in (("empty", ready.look_at_writing, True), ("others", ready.look_at_writing, False), ("ours", ready.look_at_writing, True),
                                  ("home/joe", ready.look_into, False), ("home", ready.look_into, False)):
            (free / name).chmod(0o555) if "home" not in name else None
            said = self.told(lambda look=look, name=name: look(free / name))
            self.expect(f"{name}: {said}", (said.startswith(f"{MEND} "), "(chown" in said, f"move the file under {free / 'ours'}" in said, "no unit sees a home" in said),
                        (True, given, not given, name.startswith("home")))
        (free / "others").chmod(0)
        said = self.told(lambda: ready.look_into(free / "others"))
        self.expect(f"a folder that can't be looked into: {said}", ("(chown" in said, "move the file" in said), (False, True))

    # copies

    def try_copies(self):
        """A timer of copies that has been off for a week is told, where the folder of the desk is older."""
        ready, file, told = self.module(), self.new(), []
        ready.report = told.append
        now = time.time()

        def look(days, active, *copies):
            told.clear()
            shutil.rmtree(file.parent / "copies", ignore_errors=True)
            for name in copies:
                (file.parent / "copies" / name).mkdir(parents=True)
                shutil.copy(file, file.parent / "copies" / name)
            ready.is_active = lambda _: active
            with mock.patch("time.time", lambda: now + days * 86400):
                ready.look_at_copies(file)
            return [line.partition(":")[0] for line in told]

        def named(days):
            return time.strftime("%Y-%m-%dT%H%M%SZ", time.gmtime(now + days * 86400))

        line = f"no good copy in {file.parent / 'copies'} is younger than a week"
        self.expect("a new desk", look(6, False), [])
        self.expect("a week without a copy", look(8, False), [line])
        self.expect("with a timer that is active", look(8, True), [])
        self.expect("a copy of this week", look(30, False, named(24)), [])
        self.expect("a copy of the week before", look(30, False, named(22)), [line])
        self.expect("no good one of this week", look(30, False, f"{named(29)}-unsound"), [line])

    def try_timer(self):
        """systemd is asked for the timer, which has the unit's own name."""
        ready, found = self.module(), self.folder / "timer"
        found.mkdir()
        for status in (0, 3):
            (found / "systemctl").write_text(f"#!/bin/sh\n[ \"$*\" = 'is-active --quiet acd-copy.timer' ] || exit 1\nexit {status}\n")
            (found / "systemctl").chmod(0o755)
            with mock.patch.dict(os.environ, self.finding(found)):
                self.expect(f"its status is {status}", ready.is_active(ready.timer()), status == 0)
        ready.held.unit = lambda _: "acd-north"
        self.expect("a second help line's", ready.timer(), "acd-copy-north.timer")
