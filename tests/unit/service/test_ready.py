"""Of a start: what is looked at before a desk is served, what is said of it and with which status; what a stop notes; and how a new file is made."""
import errno
import os
import shutil
import socket
import struct
import subprocess
import sys
import time
import types
import unittest
from pathlib import Path
from unittest import mock

import acd_notify
import service_ground as ground
from acd_service import held, pair, ready, settings
from service_ground import moments_out, said

ROOT = os.geteuid() == 0
# statuses of docs/REFERENCE.md: somebody has to mend something first, another time it may be otherwise, the command line is refused
MEND, AGAIN, WORDS = 64, 1, 2


class Starts(ground.Case):
    def setUp(self):
        super().setUp()
        self.port = ground.free_port()
        # a start looks at the names of all variables
        for name in [name for name in os.environ if name.startswith("ACD_")]:
            del os.environ[name]
        self.became = self.enterContext(mock.patch.object(os, "execvp"))
        self.enterContext(mock.patch.object(ready, "PAUSE", 0.01))
        self.me = ready.name_of(os.geteuid())

    def serve(self, *more):
        return said("ready", "--serve", "--file", self.file, "--port", self.port, *more)

    def starts(self, faults=""):
        """It becomes the desk, and says this."""
        done = self.serve()
        self.assertEqual((done.status, done.out, moments_out(done.faults)), (0, "", faults), done)
        self.became.assert_called_once_with("acd", ["acd", "serve", "--file", str(self.file), "--port", str(self.port), "--endless"])
        self.became.reset_mock()

    def stays(self, pattern, status=MEND):
        """It says why in a line, becomes no desk, and leaves the files as they are."""
        before = ground.snapshot(self.home) if self.home.is_dir() else {}
        self.refused(("ready", "--serve", "--file", self.file, "--port", self.port), status, pattern)
        self.became.assert_not_called()
        self.assertEqual(ground.snapshot(self.home) if self.home.is_dir() else {}, before)

    def damaged(self, *offsets):
        """A killed desk's log with frames that are spoilt."""
        self.killed(ground.PLAN + "".join(ground.arrives(invoke) for invoke in range(1, 6)))
        log = pair.log_of(self.file)
        data = bytearray(log.read_bytes())
        page = struct.unpack_from(">I", data, 8)[0]
        for frame, inside in offsets:
            data[32 + (frame - 1) * (24 + page) + inside] ^= 1
        log.write_bytes(data)
        return log, page


class Served(Starts):
    def test_a_desk(self):
        self.desk()
        self.starts()
        self.assertEqual(pair.read_note(self.file), pair.pair(self.file))
        before = os.stat(pair.note_of(self.file)).st_ino
        self.starts()
        self.assertEqual(os.stat(pair.note_of(self.file)).st_ino, before)

    def test_the_process_is_the_desk(self):
        """And systemd is told as it answers."""
        self.desk()
        with socket.socket(socket.AF_UNIX, socket.SOCK_DGRAM) as told:
            told.bind(str(self.folder / "notify"))
            told.settimeout(60)
            words = [sys.executable, ground.SERVICE / "bin/acdctl", "ready", "--serve", "--file", self.file, "--port", str(self.port)]
            with subprocess.Popen(words, env={**os.environ, "NOTIFY_SOCKET": str(self.folder / "notify")}, stdout=subprocess.DEVNULL, stderr=subprocess.PIPE) as desk:
                try:
                    self.assertEqual(told.recv(100), b"READY=1")
                    self.assertEqual((held.is_desk(desk.pid), held.holders(self.file)), (True, [desk.pid]))
                    while not pair.last_opening(self.file):
                        time.sleep(0.05)
                    self.assertEqual(pair.last_opening(self.file).kept, 3)
                finally:
                    desk.kill()
                self.assertEqual(desk.stderr.read(), b"")

    def test_a_desk_that_ticks(self):
        """And gives silent clients up."""
        self.desk()
        self.assertEqual(self.serve("--tick", "10", "--patience", "30").status, 0)
        self.became.assert_called_once_with("acd", ["acd", "serve", "--file", str(self.file), "--port", str(self.port), "--endless", "--tick", "10", "--patience", "30"])

    def test_a_slow_opening_is_told(self):
        """Of a desk that is played, and takes a little more than five seconds."""
        self.desk()
        (self.folder / "slow").mkdir()
        played = self.folder / "slow/acd"
        played.write_text(f"#!{sys.executable}\nimport socket, sys, time\ntime.sleep(5.2)\nlistener = socket.create_server(('127.0.0.1', {self.port}))\n"
                          "while True:\n    asks = listener.accept()[0]\n    asks.recv(4096)\n    asks.sendall(b'HTTP/1.1 404 Not Found\\r\\n\\r\\n')\n    asks.close()\n")
        played.chmod(0o755)
        words = [sys.executable, ground.SERVICE / "bin/acdctl", "ready", "--serve", "--file", self.file, "--port", str(self.port)]
        with socket.socket(socket.AF_UNIX, socket.SOCK_DGRAM) as told:
            told.bind(str(self.folder / "notify"))
            told.settimeout(60)
            variables = {**os.environ, "NOTIFY_SOCKET": str(self.folder / "notify"), "PATH": f"{self.folder}/slow:{os.environ['PATH']}"}
            with subprocess.Popen(words, env=variables, stdout=subprocess.DEVNULL, stderr=subprocess.PIPE, text=True) as desk:
                try:
                    self.assertEqual(told.recv(100), b"READY=1")
                    line = desk.stderr.readline()
                finally:
                    desk.kill()
        self.assertRegex(line, r"\Aacdctl ready: the desk took \d+ s to open its file: the more requests it has, the longer it takes \(PRUNING\.md\)\n\Z")

    def test_without_the_program(self):
        self.desk()
        self.became.side_effect = FileNotFoundError
        done = self.serve()
        self.assertEqual((done.status, done.faults), (MEND, "acdctl ready: there is no program acd in the PATH: install it\n"))

    def test_systemd_is_told(self):
        with mock.patch.dict(os.environ):
            acd_notify.ready()
            os.environ["NOTIFY_SOCKET"] = str(self.folder / "none")
            acd_notify.ready()
            with socket.socket(socket.AF_UNIX, socket.SOCK_DGRAM) as told:
                told.bind(f"\0acd-test-{os.getpid()}")
                told.settimeout(10)
                os.environ["NOTIFY_SOCKET"] = f"@acd-test-{os.getpid()}"
                acd_notify.ready()
                self.assertEqual(told.recv(100), b"READY=1")


class Settings(Starts):
    def test_a_name_that_is_none(self):
        self.desk()
        os.environ["ACD_FIEL"] = "x"
        self.stays("no setting is called ACD_FIEL: ACD_FILE is the nearest that there is; mend it in /etc/acd/acd.env")

    def test_one_of_an_earlier_version(self):
        self.desk()
        os.environ["ACD_CONNECTIONS"] = "9"
        self.starts("acdctl ready: ACD_CONNECTIONS is a setting of an earlier version, and is ignored: remove it from /etc/acd/acd.env\n")

    def test_names(self):
        """Those of the settings' file that ships are settings, and of others only what looks like one."""
        shipped = {line.lstrip("#").partition("=")[0] for line in (ground.SERVICE / "settings/acd.env").read_text().splitlines() if line.lstrip("#").startswith("ACD_") and "=" in line}
        self.assertTrue(shipped)
        self.assertEqual((settings.others(shipped), settings.earlier(shipped)), ([], []))
        self.assertEqual(settings.others(["PATH", "ACD", "ACDX", "ACD_", "ACD_PORTS", "ACD_CONNECTIONS"]), ["ACD_", "ACD_PORTS"])
        self.assertEqual((settings.earlier(["ACD_CONNECTIONS", "ACD_PORT"]), settings.nearest("ACD_PORTS")), (["ACD_CONNECTIONS"], "ACD_PORT"))


class Places(Starts):
    def test_no_name(self):
        self.file = ""
        self.refused(("ready", "--serve", "--file", ""), WORDS, "the file has no name")

    def test_no_folder(self):
        self.home.rmdir()
        self.stays(f"the folder {self.home} isn't there for the user {self.me}: is ACD_FILE in /etc/acd/acd.env spelt right")

    def test_a_folder_that_is_closed(self):
        self.desk()
        for asked, told in ((os.X_OK, f"the user {self.me} may not look into {self.home}: "), (os.W_OK, f"the user {self.me} may not write in {self.home}: "),
                            (os.R_OK | os.W_OK, f"the user {self.me} may not read and write {self.file}: chmod 600 {self.file}")):
            with mock.patch.object(os, "access", lambda _, mode, **__: mode != asked):
                self.stays(told)
        with mock.patch.object(Path, "is_dir", side_effect=PermissionError):
            with self.assertRaisesRegex(ready.Fault, f"the user {self.me} may not look into what is above {self.home}: "):
                ready.look_into(self.home)

    def test_what_is_to_be_done_about_a_folder(self):
        """Others may need one that has something in it."""
        with mock.patch.multiple(ready, HOMES=[self.folder / "home"], OURS=self.folder / "ours"):
            self.assertEqual(ready.advice(self.folder / "home/ana"), f"no unit sees a home: move the file under {self.folder}/ours, and name it there, ACD_FILE in /etc/acd/acd.env")
            self.assertEqual(ready.advice(self.home), f"give it to this user (chown {self.me} {self.home})")
            (self.home / "x").touch()
            self.assertEqual(ready.advice(self.home), f"others may need it, so move the file under {self.folder}/ours, or into an empty folder, and name it there, ACD_FILE in /etc/acd/acd.env")
            self.assertEqual(ready.advice(self.folder / "ours/north"), f"give it to this user (chown {self.me} {self.folder}/ours/north)")

    def test_a_disk_that_is_read_only(self):
        self.desk()
        with mock.patch.object(os, "statvfs", lambda _: types.SimpleNamespace(f_flag=os.ST_RDONLY)):
            self.stays(rf"{self.home} is read-only: .*ReadWritePaths={self.home}")

    def test_no_file(self):
        self.stays(f"{self.file} isn't there: .*--make --file {self.file}")
        pair.log_of(self.file).write_bytes(b"x")
        self.stays(f"{self.file} isn't there, but its log {self.file}-wal is there: .*don't remove it: it may hold answered requests")
        self.file.touch()
        pair.log_of(self.file).write_bytes(b"x" * 42)
        self.stays(f"{self.file} has no bytes, but its log {self.file}-wal is there")

    def test_what_is_no_file(self):
        self.file.mkdir()
        self.stays(f"{self.file} is no file: move it away, or name another file")
        self.file.rmdir()
        self.desk()
        os.link(self.file, self.home / "second")
        self.stays(f"{self.file} has 2 names: remove all but this one")
        (self.home / "second").unlink()
        if ROOT:
            os.chown(self.file, 1, 1)
            self.stays(f"{self.file} is the user daemon's and not root's: chown root {self.file}")

    def test_a_restore_that_was_broken_off(self):
        os.symlink("/dev/null/the restore of M isn't ended: so", self.file)
        self.stays("the restore of M isn't ended: so")

    def test_by_a_link(self):
        """What is looked at is the file; the desk is served by the name that was given."""
        self.desk()
        self.file.rename(self.folder / "elsewhere.db")
        self.file.symlink_to(self.folder / "elsewhere.db")
        self.starts()
        self.assertTrue(pair.note_of(self.folder / "elsewhere.db").exists())


class Ports(Starts):
    def test_one_that_is_taken(self):
        self.desk()
        with socket.create_server(("127.0.0.1", self.port)):
            self.stays(f"port {self.port} is taken: end who listens there .*, or name another port, ACD_PORT in /etc/acd/acd.env")

    def test_others(self):
        self.desk()
        for number, told, status in ((errno.EACCES, f"the user {self.me} may not use port {self.port}: choose 1024 or higher", MEND),
                                     (errno.ENOBUFS, f"port {self.port}: No buffer space available", AGAIN)):
            with mock.patch.object(socket.socket, "bind", side_effect=OSError(number, os.strerror(number))):
                self.stays(told, status)

    def test_a_port_that_a_desk_has_just_left(self):
        self.desk()
        _, address = self.serves()
        self.port = int(address.rpartition(":")[2])
        with socket.create_connection(("127.0.0.1", self.port)):
            self.stays(f"port {self.port} is taken")


class Sockets(Starts):
    def setUp(self):
        super().setUp()
        self.run = self.folder / "run"
        self.run.mkdir()
        self.path = self.run / "desk.sock"
        self.desk()

    def serve(self, *more):
        return said("ready", "--serve", "--file", self.file, "--port", "", "--socket", self.path, *more)

    def stays(self, pattern, status=MEND):
        before = ground.snapshot(self.home)
        self.refused(("ready", "--serve", "--file", self.file, "--socket", self.path), status, pattern)
        self.became.assert_not_called()
        self.assertEqual(ground.snapshot(self.home), before)

    def starts(self):
        self.assertEqual(self.serve(), (0, "", ""))
        self.became.assert_called_once_with("acd", ["acd", "serve", "--file", str(self.file), "--socket", str(self.path), "--endless"])
        self.became.reset_mock()

    def test_one_that_is_free(self):
        self.starts()
        with socket.socket(socket.AF_UNIX) as left:
            left.bind(str(self.path))
        self.starts()
        self.assertTrue(self.path.is_socket())

    def test_one_that_is_taken(self):
        with socket.socket(socket.AF_UNIX) as taken:
            taken.bind(str(self.path))
            taken.listen()
            self.stays(f"{self.path} is taken: end who listens there .ss -lxp src unix:{self.path}., or name another socket, ACD_SOCKET in /etc/acd/acd.env")

    def test_what_is_no_socket(self):
        told = f"{self.path} is there, and is no socket of the user {self.me}: move it away, or name another socket"
        for make in (Path.touch, Path.mkdir, lambda path: path.symlink_to("nowhere")):
            make(self.path)
            self.stays(told)
            self.path.rmdir() if self.path.is_dir() else self.path.unlink()
        if ROOT:
            with socket.socket(socket.AF_UNIX) as theirs:
                theirs.bind(str(self.path))
            os.chown(self.path, 1, 1)
            self.stays(told)

    def test_its_folder(self):
        with mock.patch.object(os, "access", lambda path, *_, **__: path != str(self.run)):
            self.stays(f"the user {self.me} may not write in {self.run}: give it to this user .chown {self.me} {self.run}., or name another socket")
        self.run.rmdir()
        self.stays(f"the folder {self.run} isn't there: make it .systemd-tmpfiles --create acd.conf., or name another socket")

    def test_what_is_no_path(self):
        for path in ("run/desk.sock", "/run/" + "x" * 103):
            self.path = path
            self.stays(f"'{path}' is no path of a socket, which begins with / and has 107 bytes at most: mend ACD_SOCKET in /etc/acd/acd.env")


class Pairs(Starts):
    """A file and a log that don't belong together."""

    def test_of_two_moments(self):
        self.killed(ground.PLAN)
        pair.remember(self.file)
        self.file.rename(self.folder / "before")
        shutil.copy(self.folder / "before", self.file)
        self.stays(f"{self.file} and its log {self.file}-wal weren't here together: .*or remove {self.file}-pair")

    def test_a_log_that_was_removed(self):
        """What a killed desk answered was in it."""
        self.killed(ground.PLAN)
        self.assertEqual(said("ready", "--stopped", "--file", self.file).status, 0)
        size = pair.log_of(self.file).stat().st_size
        pair.log_of(self.file).unlink()
        self.stays(rf"the log {self.file}-wal is gone, which had {size} bytes as the desk ended, .*there is no good copy in {self.home}/copies, .*remove {self.file}-pair")
        (self.home / "copies/2026-11-28T100000Z").mkdir(parents=True)
        (self.home / "copies/2026-11-28T100000Z/desk.db").touch()
        self.stays("the newest good copy is 2026-11-28T100000Z")

    def test_a_log_that_is_gone_behind_a_power_cut(self):
        self.killed(ground.PLAN)
        pair.remember(self.file)
        pair.log_of(self.file).unlink()
        self.starts(f"acdctl ready: the log {self.file}-wal of the last start is gone, and no stop noted what it left: unless sqlite3 or acd wrote it into {self.file}, "
                    "answered requests are lost ('The desk does not start' in WHEN-WRONG.md)\n")
        self.starts()

    def test_a_note_that_cannot_be_written(self):
        """One that isn't true any more goes."""
        self.desk()
        pair.note_of(self.file).write_text("file 1 1\nlog none\n")
        with mock.patch.object(pair, "remember", side_effect=OSError(28, "No space left on device")):
            self.starts()
        self.assertFalse(pair.note_of(self.file).exists())


class Damage(Starts):
    def test_a_damaged_log(self):
        """Both files are kept as they were, once, and the start goes on."""
        log, page = self.damaged((2, 30))
        before = {name: content for name, content in ground.snapshot(self.home).items() if name in ("desk.db", "desk.db-wal")}
        offset = 32 + 24 + page
        line = (f"acdctl ready: the log {log} is damaged from its frame 2 on (byte {offset}), and answered requests from there on are missing; both files, as they were, are in "
                f"{self.home}/damaged-X ('The desk does not start' in WHEN-WRONG.md)\n")
        with mock.patch.object(ready, "empty"):
            self.starts(line)
            kept, = self.home.glob("damaged-*")
            self.assertEqual((ground.snapshot(kept), kept.stat().st_mode & 0o777), (before, 0o700))
            self.starts(line)
            self.assertEqual(list(self.home.glob("damaged-*")), [kept])
        self.starts(line)
        self.assertFalse(pair.holds_something(log))
        self.starts()

    def test_a_head_that_cannot_be_read(self):
        self.damaged((1, -16))
        with mock.patch.object(ready, "empty"):
            done = self.serve()
        self.assertEqual(done.status, 0)
        self.assertIn("-wal can't be read (its head is damaged), and the answered requests that it may have held are missing; both files, as they were, are in ", done.faults)

    def test_a_torn_commit_is_nothing_to_tell(self):
        log, page = self.damaged()
        data = bytearray(log.read_bytes())
        last = max(at for at in range(32, len(data), 24 + page) if data[at + 8:at + 16] == data[16:24])
        data[last + 30] ^= 1
        log.write_bytes(data)
        self.starts()
        self.assertFalse(pair.holds_something(log))
        self.assertEqual(ground.rows(self.file, "SELECT count(*) FROM kept"), [(7,)])

    def test_one_that_is_written_meanwhile(self):
        """Two looks differ: somebody writes it, and the desk will say so."""
        log, _ = self.damaged((2, 30))
        with mock.patch.object(time, "sleep", lambda _: log.write_bytes(log.read_bytes() + b"x")), mock.patch.object(ready, "empty") as emptied:
            self.starts()
        emptied.assert_not_called()

    def test_a_disk_without_room(self):
        self.damaged((2, 30))
        for program in ("cp", "sync"):
            self.program(program, "echo no room >&2; exit 1")
            self.stays(f"the log {self.file}-wal is damaged, and can't be kept as it is before the desk opens it: no room", AGAIN)
            (self.bin / program).unlink()

    def test_remains_are_cleared_away(self):
        (self.home / ".damaged-x").mkdir()
        self.damaged((2, 30))
        self.assertEqual(self.serve().status, 0)
        self.assertEqual(list(self.home.glob(".damaged-*")), [])


class Copies(Starts):
    def setUp(self):
        super().setUp()
        self.desk()
        self.enterContext(mock.patch.object(ready.pair, "identity", lambda path: "1 1.5" if path == self.home else "2 2.5"))

    def lay(self, age):
        name = time.strftime("%Y-%m-%dT%H%M%SZ", time.gmtime(time.time() - age))
        (self.home / "copies" / name).mkdir(parents=True)
        (self.home / "copies" / name / "desk.db").touch()

    def test_none_of_the_last_week(self):
        self.program("systemctl", "exit 3")
        line = (f"acdctl ready: no good copy in {self.home}/copies is younger than a week: is acd-copy.timer active? (systemctl enable --now acd-copy.timer)\n")
        self.starts(line)
        self.lay(7 * 86400 + 60)
        self.starts(line)
        self.lay(7 * 86400 - 60)
        self.starts()

    def test_where_the_timer_is_active(self):
        self.program("systemctl", 'echo "$*" > "$0.asked"; exit 0')
        self.starts()
        self.assertEqual((self.bin / "systemctl.asked").read_text(), "is-active --quiet acd-copy.timer\n")
        with mock.patch.object(held, "unit", lambda _: "acd-north"):
            self.assertEqual(ready.timer(), "acd-copy-north.timer")

    def test_a_young_folder(self):
        with mock.patch.object(ready.pair, "identity", lambda path: f"1 {time.time() - 100}"):
            self.starts()

    def test_without_systemd(self):
        with mock.patch.object(subprocess, "run", side_effect=FileNotFoundError):
            self.assertFalse(ready.is_active("acd-copy.timer"))


class Stopped(Starts):
    def stopped(self):
        return said("ready", "--stopped", "--file", self.file)

    def test_behind_a_clean_stop(self):
        """Nothing is in the log by then, and the note says so."""
        self.killed(ground.PLAN)
        with mock.patch.dict(os.environ, SERVICE_RESULT="success"):
            self.assertEqual(self.stopped(), (0, "", ""))
        self.assertFalse(pair.holds_something(pair.log_of(self.file)))
        found = os.stat(self.file)
        self.assertRegex(pair.note_of(self.file).read_text(), rf"(?m)^left {found.st_size} {found.st_mtime_ns} \d+$")
        self.assertEqual(ground.rows(self.file, "SELECT count(*) FROM kept"), [(3,)])

    def test_behind_another_end(self):
        self.killed(ground.PLAN)
        before = pair.log_of(self.file).read_bytes()
        with mock.patch.dict(os.environ, SERVICE_RESULT="signal"):
            self.assertEqual(self.stopped(), (0, "", ""))
        self.assertEqual(pair.log_of(self.file).read_bytes(), before)
        self.assertTrue(pair.read_note(self.file)["left"].endswith(f" {len(before)}"))

    def test_where_a_start_would_tell_it(self):
        self.assertEqual(self.stopped(), (0, "", ""))
        self.assertEqual(list(self.home.iterdir()), [])

    def test_a_damaged_log_behind_a_clean_stop(self):
        self.damaged((2, 30))
        self.program("cp", "exit 1")
        with mock.patch.dict(os.environ, SERVICE_RESULT="success"):
            done = self.stopped()
        self.assertEqual((done.status, done.faults.count("\n")), (0, 1))
        self.assertIn("is damaged, and can't be kept", done.faults)
        self.assertIn("left", pair.read_note(self.file))

    def test_a_program_that_takes_too_long(self):
        self.program("acd", "exec sleep 10")
        begin = time.monotonic()
        ready.empty(self.file, 0.1)
        self.assertLess(time.monotonic() - begin, 9)


class Made(Starts):
    def make(self):
        return said("ready", "--make", "--file", self.file)

    def test_a_new_desk(self):
        pair.note_of(self.file).write_text("of a file before")
        self.assertEqual(self.make(), (0, f"made {self.file}\n", ""))
        self.assertEqual((ground.rows(self.file, "SELECT count(*) FROM kept"), self.file.stat().st_mode & 0o777, pair.note_of(self.file).exists()), ([(0,)], 0o600, False))
        self.assertEqual([one.name for one in self.home.iterdir()], ["desk.db"])
        before = ground.snapshot(self.home)
        self.assertEqual(self.make(), (0, f"{self.file} is there already\n", ""))
        self.assertEqual(ground.snapshot(self.home), before)

    def test_as_the_folders_owner(self):
        if not ROOT:
            self.skipTest("only root becomes another user")
        os.chown(self.home, 1, 1)
        self.folder.chmod(0o755)
        became = []
        with mock.patch.multiple(os, initgroups=lambda *who: became.append(who), setgid=became.append, setuid=became.append):
            self.assertEqual(self.make().status, 0)
        self.assertEqual(became, [("daemon", 1), 1, 1])

    def test_a_lone_log(self):
        pair.log_of(self.file).write_bytes(b"x")
        self.refused(("ready", "--make", "--file", self.file), MEND, f"{self.file} isn't there, but its log {self.file}-wal is there")

    def test_a_program_that_fails(self):
        (self.home / ".new-desk-x").mkdir()
        self.program("acd", "echo acd: store fault >&2; exit 1")
        self.refused(("ready", "--make", "--file", self.file), AGAIN, f"{self.file} isn't made: acd: store fault")
        self.assertEqual(list(self.home.iterdir()), [])
        (self.bin / "acd").unlink()
        with mock.patch.dict(os.environ, PATH=str(self.folder)):
            self.refused(("ready", "--make", "--file", self.file), AGAIN, "acd: No such file or directory")


class Words(ground.Case):
    def test_command_lines(self):
        for words in ((), ("--serve", "--make"), ("--serve", "--port", "0"), ("--serve", "--port", "65536"), ("--serve", "--port", "080808"),
                      ("--serve", "--port", "x"), ("--serve", "--tick", "0"), ("--serve", "--patience", "3601"), ("--serve", "x"), ("--none",)):
            self.refused(("ready", *words), WORDS, "")
        done = said("ready", "--help")
        self.assertEqual((done.status, done.faults), (0, ""))
        for word in ("--serve", "--stopped", "--make", "--file", "--port", "--socket", "--tick", "--patience"):
            self.assertIn(word, done.out)


if __name__ == "__main__":
    unittest.main()
