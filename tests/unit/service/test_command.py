"""Tests of what the commands share: faults, words, lines, settings, ends."""
import contextlib
import io
import os
import socket
import sqlite3
import subprocess
import sys
import tempfile
import unittest
from pathlib import Path
from unittest import mock

TOP = Path(__file__).resolve().parents[3]
sys.path.append(str(TOP / "service"))
from acd_service import VERSION, command, settings  # noqa: E402
from acd_service.command import ERROR, Fault, Parser  # noqa: E402


class Named(unittest.TestCase):
    """By a name, which is that of before again at the end."""

    def setUp(self):
        before = command.name, command.is_old
        self.addCleanup(lambda: command.call_it(*before))
        command.call_it("acdctl copy")

    def said(self, work, *words):
        """The status by which it ends, and what is printed on the two streams."""
        with contextlib.redirect_stdout(io.StringIO()) as out, contextlib.redirect_stderr(io.StringIO()) as faults:
            try:
                work(*words)
                status = None
            except SystemExit as end:
                status = end.code
        return status, out.getvalue(), faults.getvalue()


class Ends(Named):
    def ended(self, do, words=()):
        return self.said(command.run, lambda given: mock.Mock(file="/desk.db", words=given), do, list(words))

    def test_the_status_is_what_the_work_returned(self):
        for returned, status in ((None, 0), (0, 0), (1, 1), (3, 3)):
            self.assertEqual(self.ended(lambda options: returned), (status, "", ""))

    def test_the_words_are_read_and_handed_on(self):
        self.assertEqual(self.ended(lambda options: command.say(options.words), ["a", "b"]), (0, "['a', 'b']\n", ""))

    def raising(self, fault):
        def do(options):
            raise fault
        return self.ended(do)

    def test_a_fault_is_told_in_its_lines_and_has_its_status(self):
        self.assertEqual(self.raising(Fault("one", "two", status=64)), (64, "", "acdctl copy: one\nacdctl copy: two\n"))
        self.assertEqual(self.raising(Fault("one")), (1, "", "acdctl copy: one\n"))

    def test_a_fault_of_the_system_names_its_file(self):
        self.assertEqual(self.raising(FileNotFoundError(2, "No such file or directory", "/none")), (1, "", "acdctl copy: /none: No such file or directory\n"))
        self.assertEqual(self.raising(OSError(28, "No space left on device")), (1, "", "acdctl copy: /desk.db: No space left on device\n"))

    def test_some_old_names_tell_it_as_they_did(self):
        command.call_it("acd-plan", by_old_name=True)
        self.assertEqual(self.raising(FileNotFoundError(2, "No such file or directory", "/none")), (1, "", "acd-plan: [Errno 2] No such file or directory: '/none'\n"))

    def test_a_fault_of_sqlite(self):
        self.assertEqual(self.raising(sqlite3.DatabaseError("file is not a database")), (1, "", "acdctl copy: file is not a database\n"))

    def test_a_signal_ends_it_with_1_and_what_is_begun_is_undone(self):
        program = ("import os, signal, sys; from acd_service import command\ncommand.end_on_signals()\n"
                   "try: os.kill(os.getpid(), int(sys.argv[1])); signal.pause()\nfinally: print('undone')")
        for number in command.ENDING:
            done = subprocess.run([sys.executable, "-c", program, str(int(number))], cwd=TOP / "service", capture_output=True, text=True, timeout=60)
            self.assertEqual((done.returncode, done.stdout), (1, "undone\n"))

    def test_nobody_reads_the_rest(self):
        program = "from acd_service import command\nwith command.while_somebody_reads():\n    for n in range(10**6): print(n)"
        done = subprocess.run(f"'{sys.executable}' -c '{program}' | head -1; echo ${{PIPESTATUS[0]}}", shell=True, executable="/bin/bash", cwd=TOP / "service", capture_output=True, text=True, timeout=60)
        self.assertEqual((done.stdout, done.stderr), ("0\n0\n", ""))


class Words(Named):
    def parser(self, **how):
        found = Parser("Does what it does; acdctl copy helps.", **how)
        found.add_argument("--keep", metavar="N", help="acdctl restore MOMENT undoes it")
        return found

    def test_one_form_and_one_status(self):
        for words in (["--none"], ["--kee", "1"], ["x"], ["--keep"]):
            with self.subTest(words):
                status, out, faults = self.said(command.run, self.parser().parse_args, lambda options: 0, words)
                self.assertEqual((status, out, faults.count("\n"), faults.startswith("acdctl copy: ")), (2, "", 1, True))

    def test_an_old_name_refuses_as_it_did(self):
        command.call_it("acd-trail", by_old_name=True)
        status, out, faults = self.said(lambda: self.parser(printed_usage=True).parse_args(["--none"]))
        self.assertEqual((status, out, faults.splitlines()[0].startswith("usage: acd-trail "), faults.splitlines()[-1]),
                         (2, "", True, "acd-trail: error: unrecognized arguments: --none"))

    def test_an_old_name_takes_beginnings_where_it_did(self):
        command.call_it("acd-plan", by_old_name=True)
        self.assertEqual(self.parser(took_beginnings=True).parse_args(["--kee", "1"]).keep, "1")
        with self.assertRaises(Fault):
            self.parser().parse_args(["--kee", "1"])

    def test_help_and_version(self):
        status, out, faults = self.said(self.parser().parse_args, ["--help"])
        self.assertEqual((status, faults, out.startswith("usage: acdctl copy ")), (0, "", True))
        self.assertEqual(self.said(self.parser().parse_args, ["--version"]), (0, f"acdctl copy {VERSION}\n", ""))

    def test_the_help_of_an_old_name_has_its_words(self):
        command.call_it("acd-copy", by_old_name=True)
        out = self.said(self.parser().parse_args, ["--help"])[1]
        self.assertIn("acd-copy --restore MOMENT undoes it", out)
        self.assertNotIn("acdctl", out)

    def test_whole_numbers(self):
        read = command.whole_number(2, 3600)
        self.assertEqual([read(text) for text in ("2", "10", "3600")], [2, 10, 3600])
        for text in ("1", "3601", "", "-3", "+3", "03", "3.0", "5s", "٣", " 3", "3\n"):
            with self.subTest(text), self.assertRaises(Exception) as caught:
                read(text)
            self.assertEqual(str(caught.exception), f"'{text}' isn't a whole number from 2 to 3600")


class Lines(Named):
    def test_old_names_say_the_old_words(self):
        for new, old in (("acdctl restore --undo brings them back", "acd-copy --undo brings them back"), ("(acdctl restore MOMENT)", "(acd-copy --restore MOMENT)"),
                         ("acdctl ready --make --file F", "acd-ready --make --file F"), ("by acdctl copy, or", "by acd-copy, or"),
                         ("acdctl status says more", "acdctl status says more"), ("acdctl copying", "acdctl copying"),
                         ("why; it is in /c/unsound, and all older copies are kept", "why; it lies in /c/unsound, and the older copies are all kept"),
                         ("place 7 of the log has no entry; ignored (3 such since the start)", "what stands at place 7 of the log is no entry, and is passed over (3 such since the start)"),
                         ("only the user acd prunes F: runuser -u acd -- acdctl prune", "only the user acd prunes F: runuser -u acd -- acd-carry")):
            command.call_it("acdctl copy")
            self.assertEqual(command.spoken(new), new)
            command.call_it("acd-copy", by_old_name=True)
            self.assertEqual(command.spoken(new), old)

    def test_the_journal_alone_gets_priorities(self):
        ours, theirs = socket.socketpair(socket.AF_UNIX, socket.SOCK_STREAM)
        with ours, theirs, ours.makefile("r") as read, theirs.makefile("w") as stream:
            found = os.fstat(theirs.fileno())
            for variables, line in (({}, "acdctl copy: it is full\n"), ({"JOURNAL_STREAM": f"{found.st_dev}:{found.st_ino}"}, "<3>acdctl copy: it is full\n"),
                                    ({"JOURNAL_STREAM": f"{found.st_dev}:{found.st_ino + 1}"}, "acdctl copy: it is full\n"), ({"JOURNAL_STREAM": "x"}, "acdctl copy: it is full\n")):
                with mock.patch.dict(os.environ, variables):
                    command.report("it is full", ERROR, stream)
                self.assertEqual(read.readline(), line)

    def test_a_stream_without_a_descriptor_is_no_journal(self):
        with mock.patch.dict(os.environ, {"JOURNAL_STREAM": "1:2"}):
            self.assertFalse(command.is_journal(io.StringIO()))


class Settings(unittest.TestCase):
    def read(self, text, **variables):
        with tempfile.TemporaryDirectory() as folder, mock.patch.object(settings, "FILE", Path(folder) / "acd.env"), mock.patch.dict(os.environ, variables, clear=True):
            if text is not None:
                settings.FILE.write_bytes(text)
            return settings.current()

    def test_without_a_file(self):
        self.assertEqual(self.read(None), settings.DEFAULTS)

    def test_of_the_file_as_systemd_reads_it(self):
        found = self.read(b"# ACD_FILE=/no\n;ACD_PORT=1\r\nACD_FILE=\"/srv/desk.db\"\r\nACD_COPY_FOLDER='/srv/c c'\nACD_STEP=\nACD_HALT = 5\nnothing\n\xff\n")
        self.assertEqual(found, {**settings.DEFAULTS, "ACD_FILE": "/srv/desk.db", "ACD_COPY_FOLDER": "/srv/c c", "ACD_HALT": "5"})

    def test_the_environment_comes_first(self):
        found = self.read(b"ACD_FILE=/srv/desk.db\nACD_PORT=8090\n", ACD_FILE="/north/desk.db", ACD_OTHER="x", HOME="/root")
        self.assertEqual(found, {**settings.DEFAULTS, "ACD_FILE": "/north/desk.db", "ACD_PORT": "8090"})

    def test_defaults_are_those_of_the_example(self):
        shown = dict(line.split("=", 1) for line in (TOP / "service/settings/acd.env").read_text().splitlines() if line.startswith("ACD_"))
        self.assertEqual(shown.pop("ACD_COPY_FOLDER"), "/var/lib/acd/copies")
        # a new installation keeps seven days; an older file that doesn't say it keeps two, as before
        self.assertEqual((shown.pop("ACD_CARRY_DAYS"), settings.DEFAULTS["ACD_CARRY_DAYS"]), ("7", "2"))
        self.assertEqual({name: value for name, value in settings.DEFAULTS.items() if value and name != "ACD_CARRY_DAYS"}, shown)

    def test_one_default_of_the_file_in_all_commands(self):
        from acd_service import copy, forget, ready, restore, tick
        with tempfile.TemporaryDirectory() as folder, mock.patch.object(settings, "FILE", Path(folder) / "acd.env"), mock.patch.dict(os.environ, clear=True):
            for wanted in ("/var/lib/acd/desk.db", f"{folder}/other.db"):
                found = [copy.read([]).file, restore.read(["--undo"]).file, forget.read_words(["--confirm"]).file, ready.read(["--make"]).file, tick.read([]).file]
                self.assertEqual(list(map(str, found)), [wanted] * 5)
                settings.FILE.write_text(f"ACD_FILE={folder}/other.db\n")


if __name__ == "__main__":
    unittest.main()
