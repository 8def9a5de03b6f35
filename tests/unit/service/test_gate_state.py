"""Of the gate's own files in copies and restores: what a copy has, what comes back, with which owner, and what isn't read."""
import contextlib
import io
import json
import os
import signal
import sys
import threading
import time
import unittest
from pathlib import Path
from unittest import mock

import service_ground as ground
from acd_service import copy, gate_state, office, put, settings
from service_ground import moments_out, said

MOMENT = "2026-11-28T100000Z"
FILES = {"users": "anna:$2b$08$x:first\n", "roles": "anna agent agent=7\n", "names.json": '{"agents":{"7":"Jürgen"}}\n', "acts": '{"number":1}\n'}
# as which a test gives root's folders away: the gate's user and the desk's
GATE, DESK = (61001, 61011), (61002, 61012)


class Own(ground.Case):
    def setUp(self):
        super().setUp()
        self.copies, self.own = self.folder / "copies", self.folder / "gate-own"
        self.own.mkdir(mode=0o700)
        self.enterContext(mock.patch.object(copy, "NGINX", self.folder / "nginx"))
        self.enterContext(mock.patch.object(settings, "FILE", self.folder / "acd.env"))
        self.enterContext(mock.patch.object(gate_state, "PATIENCE", 0.2))

    def put(self, folder=None, **more):
        for name, text in {**FILES, **{name.replace("_", "."): text for name, text in more.items()}}.items():
            (folder or self.own).joinpath(name).write_text(text)

    def there(self, folder=None):
        return {file.name: file.read_text() for file in sorted((folder or self.own).iterdir())}


class Copies(Own):
    def made(self, *more, status=0):
        done = said("copy", "--file", self.file, "--folder", self.copies, *more)
        self.assertEqual(done.status, status, done)
        return Path(done.out.split()[-1]), done

    def test_a_copy_has_them(self):
        self.killed(ground.PLAN)
        self.put()
        (self.own / "sessions").write_text("nobody needs them\n")
        folder, done = self.made("--own", self.own)
        self.assertEqual((self.there(folder / "gate"), done.faults), (FILES, ""))
        self.assertEqual([os.stat(folder / "gate").st_mode & 0o777, *(file.stat().st_mode & 0o777 for file in (folder / "gate").iterdir())], [0o700] + [0o600] * 4)

    def test_without_any(self):
        self.killed(ground.PLAN)
        self.assertFalse((self.made()[0] / "gate").exists())
        self.assertFalse((self.made("--own", self.own)[0] / "gate").exists())

    def test_where_they_cant_be_read(self):
        self.killed(ground.PLAN)
        folder, done = self.made("--own", self.folder / "nowhere", status=1)
        self.assertIn("the copy lacks the logins and names that the office gave: ", done.faults)
        self.assertTrue((folder / "desk.db").exists())

    def test_what_the_gate_would_not_have_written(self):
        """A broken gate's links, pipes and huge files are read by nobody."""
        self.put()
        elsewhere = self.folder / "elsewhere"
        elsewhere.write_text("of another user\n")
        for spoil in (lambda file: file.symlink_to(elsewhere), os.mkfifo, lambda file: file.mkdir(), lambda file: file.touch() or os.truncate(file, gate_state.LARGEST + 1)):
            (self.own / "users").unlink() if (self.own / "users").exists() or (self.own / "users").is_symlink() else None
            spoil(self.own / "users")
            with self.assertRaises((OSError, gate_state.Fault)):
                gate_state.read(self.own)
            (self.own / "users").rmdir() if (self.own / "users").is_dir() else (self.own / "users").unlink()

    def test_who_never_gives_way(self):
        self.put()
        begun = time.monotonic()
        with put.alone(self.own):
            self.assertEqual(gate_state.read(self.own), FILES)
        self.assertGreater(time.monotonic() - begun, 0.2)

    def test_one_after_the_other(self):
        found = []

        def come():
            with put.alone(self.own):
                found.append((self.own / "done").exists())

        other = threading.Thread(target=come)
        with put.alone(self.own):
            other.start()
            time.sleep(0.1)
            (self.own / "done").touch()
        other.join(10)
        self.assertEqual(found, [True])

    def test_what_a_child_tells(self):
        """The files, or why there are none."""
        def fails():
            raise OSError(13, "Permission denied", "/x")

        def refuses():
            raise gate_state.Fault("it is none")

        self.assertEqual([gate_state.tried(work) for work in (lambda: FILES, fails, refuses)], [{"files": FILES}, {"fault": "/x: Permission denied"}, {"fault": "it is none"}])

    @unittest.skipUnless(os.geteuid() == 0, "only root hands them over")
    def test_handed_over_by_root(self):
        """Read as the gate's user, written as the desk's."""
        os.chmod(self.folder, 0o755)
        self.put()
        into = self.folder / "run"
        into.mkdir(mode=0o700)
        for folder, owner in ((self.own, GATE), (into, DESK)):
            os.chown(folder, *owner)
        for file in self.own.iterdir():
            os.chown(file, *GATE)
        self.assertEqual(said("copy", "--own", self.own, "--hand-over", into), (0, "", ""))
        self.assertEqual((self.there(into / "gate"), {(file.stat().st_uid, file.stat().st_gid) for file in (into / "gate").iterdir()}), (FILES, {DESK}))
        # what the gate's user may not read root doesn't read for it
        os.chown(self.own / "users", 0, 0)
        os.chmod(self.own / "users", 0o600)
        done = said("copy", "--own", self.own, "--hand-over", into)
        self.assertEqual((done.status, f"{self.own}: {self.own}/users: Permission denied" in done.faults), (1, True), done)
        self.assertEqual(said("copy", "--own", self.folder / "none", "--hand-over", into), (0, "", ""))
        self.assertEqual(self.there(into / "gate"), {"acts": FILES["acts"]})


class Restores(Own):
    def setUp(self):
        super().setUp()
        self.killed(ground.PLAN + ground.arrives(1))
        self.words = ("restore", "--file", self.file, "--folder", self.copies)
        folder = self.copies / MOMENT
        folder.mkdir(parents=True)
        ground.lines(folder / "desk.db", ground.PLAN)
        Path(f"{folder / 'desk.db'}-wal").unlink(missing_ok=True)
        (folder / "gate").mkdir()
        self.put(folder / "gate")

    now = {"users": "ben:$2b$08$y\n", "roles": "ben lead groups=100\n", "acts": '{"number":1}\n{"number":2}\n'}

    def lay(self):
        for name, text in self.now.items():
            (self.own / name).write_text(text)
            (self.own / name).chmod(0o600)

    def test_there_and_back(self):
        self.lay()
        done = said(*self.words, "--own", self.own, MOMENT)
        self.assertEqual((done.status, done.faults), (0, ""))
        self.assertTrue(done.out.endswith(f"Put the logins and names that the office gave into {self.own}\n"), done.out)
        # no act is lost
        self.assertEqual(self.there(), {**FILES, "acts": self.now["acts"]})
        put_away, = self.home.glob("put-away-*")
        self.assertEqual(self.there(put_away / "gate"), self.now)
        done = said(*self.words, "--own", self.own, "--undo")
        self.assertEqual((done.status, done.faults, self.there()), (0, "", self.now))
        taken, = self.home.glob("taken-back-*")
        self.assertEqual(self.there(taken / "gate"), {**FILES, "acts": self.now["acts"]})

    def test_onto_a_new_machine(self):
        self.assertEqual(said(*self.words, "--own", self.own, MOMENT).status, 0)
        self.assertEqual((self.there(), {file.stat().st_mode & 0o777 for file in self.own.iterdir()}), (FILES, {0o600}))

    def test_a_copy_without_them(self):
        self.lay()
        for file in (self.copies / MOMENT / "gate").iterdir():
            file.unlink()
        (self.copies / MOMENT / "gate").rmdir()
        done = said(*self.words, "--own", self.own, MOMENT)
        self.assertEqual((done.status, self.there(), "Put the" in done.out), (0, self.now, False))

    def test_without_their_folder(self):
        done = said(*self.words, MOMENT)
        self.assertEqual((done.status, "the logins and names that the office gave are as before: root puts them back" in done.faults), (0, True), done)

    def test_one_that_is_refused_touches_nothing(self):
        self.lay()
        self.assertEqual(said(*self.words, "--own", self.own, "2026-01-01T000000Z").status, 1)
        self.assertEqual(self.there(), self.now)

    @unittest.skipUnless(os.geteuid() == 0, "only root puts back what belongs to others")
    def test_owners(self):
        """By root, the desk's files come back as the desk's user's, and the gate's as the gate's."""
        os.chmod(self.folder, 0o755)
        self.lay()
        for folder, owner in ((self.home, DESK), (self.copies, DESK), (self.own, GATE)):
            for path in (folder, *folder.rglob("*")):
                os.chown(path, *owner)
        child = os.fork()
        if not child:
            done = said(*self.words, "--own", self.own, MOMENT)
            os.write(2, b"" if done.status == 0 else str(done).encode())
            os._exit(done.status)
        self.assertEqual(os.waitstatus_to_exitcode(os.waitpid(child, 0)[1]), 0)
        self.assertEqual(self.there(), {**FILES, "acts": self.now["acts"]})
        self.assertEqual({(file.stat().st_uid, file.stat().st_gid, file.stat().st_mode & 0o777) for file in self.own.iterdir()}, {(*GATE, 0o600)})
        put_away, = self.home.glob("put-away-*")
        self.assertEqual({(file.stat().st_uid, file.stat().st_gid) for file in put_away.rglob("*")}, {DESK})
        self.assertEqual(ground.rows(self.file, "SELECT count(*) FROM kept")[0][0], 3)


@unittest.skipUnless(os.geteuid() == 0, "only root puts back what belongs to others")
class ByOwner(Own):
    """Root's part of a restore, around one that a child does as the desk's user."""
    def setUp(self):
        super().setUp()
        os.chmod(self.folder, 0o755)
        os.chown(self.own, *GATE)
        handlers = [signal.getsignal(one) for one in ground.SIGNALS]
        self.addCleanup(lambda: [signal.signal(one, was) for one, was in zip(ground.SIGNALS, handlers)])

    def beside(self, work):
        """The status, and what was printed."""
        parent = os.getpid()
        with contextlib.redirect_stdout(io.StringIO()) as printed, self.assertRaises(SystemExit) as end:
            try:
                gate_state.beside(self.own, work, lambda: print("after"))
            finally:
                if os.getpid() != parent:
                    os._exit(sys.exc_info()[0] is not None)
        return end.exception.code, printed.getvalue()

    def test_done(self):
        self.assertEqual(self.beside(lambda now: FILES), (0, f"Put the logins and names that the office gave into {self.own}\nafter\n"))
        self.assertEqual((self.there(), {(file.stat().st_uid, file.stat().st_gid) for file in self.own.iterdir()}), (FILES, {GATE}))
        self.assertEqual(self.beside(lambda now: None), (0, "after\n"))

    def test_refused(self):
        def refuses(now):
            raise gate_state.Fault("no copy")

        self.assertEqual(self.beside(refuses), (1, ""))
        self.assertEqual(self.there(), {})

    def test_killed(self):
        with self.assertRaisesRegex(gate_state.Fault, r"\Asignal 9 ended it; the same command again ends what it began\Z"):
            gate_state.beside(self.own, lambda now: os.kill(os.getpid(), signal.SIGKILL), lambda: None)
        self.assertEqual(self.there(), {})


class Names(Own):
    def test_names_of_a_copy_and_of_the_office(self):
        (self.folder / "gate").mkdir()
        (self.folder / "gate/names.json").write_text(json.dumps({"agents": {"7": "Jürgen", "8": "Zoë", "9": "Änne"}, "groups": {"100": "Störung"}}))
        names = {"groups": {"100": "Stoerung"}, "agents": {"7": "Juergen", "8": "Other", "9": "Aenne"}}
        office.put_names(names, self.folder / "desk.db", office.Office({"groups": {}, "agents": {"9": "Root's own"}}))
        self.assertEqual(names, {"groups": {"100": "Störung"}, "agents": {"7": "Jürgen", "8": "Other", "9": "Root's own"}})

    def test_names_of_the_machine(self):
        self.put()
        with mock.patch.object(gate_state, "FOLDER", self.own):
            self.assertEqual(office.given_names(None), {"agents": {"7": "Jürgen"}, "groups": {}})
            self.assertEqual(office.given_names(settings.desk_file())["agents"], {"7": "Jürgen"})
            self.assertEqual(office.given_names("/elsewhere/desk.db"), {})
            (self.own / "names.json").write_text("[]")
            self.assertEqual(office.given_names(None), {})
        self.assertEqual(moments_out(""), "")


del Own

if __name__ == "__main__":
    unittest.main()
