"""acdctl: its commands, its old names, and what is told of these."""
import contextlib
import io
import os
import re
import shutil
import subprocess
import sys
import tempfile
import unittest
from pathlib import Path
from unittest import mock

TOP = Path(__file__).resolve().parents[3]
SERVICE = TOP / "service"
sys.path.append(str(SERVICE))
from acd_service import VERSION, main  # noqa: E402
import service_ground as ground  # noqa: E402

# the commands of 1.14, and that of 1.15 which came before acdctl
OLD = {"acd-calls", "acd-carry", "acd-copy", "acd-export", "acd-follow", "acd-forget", "acd-gate", "acd-local", "acd-node", "acd-plan", "acd-ready", "acd-tick", "acd-trail", "acd-certificate"}


def said(*words, **how):
    """The status, and what is printed on the two streams."""
    done = subprocess.run([*map(str, words)], stdin=subprocess.DEVNULL, capture_output=True, text=True, timeout=600, **how)
    return done.returncode, done.stdout, done.stderr


class CommandsTest(unittest.TestCase):
    def test_help_names_each_command_and_each_answers(self):
        status, out, faults = said(SERVICE / "bin/acdctl", "--help")
        self.assertEqual((status, faults), (0, ""))
        named = re.findall(r"^  ([a-z]+)  ", out, re.MULTILINE)
        self.assertEqual(named, sorted(main.COMMANDS))
        for name in named:
            with self.subTest(name):
                status, out, faults = ground.said(name, "--help")
                self.assertEqual((status, faults), (0, ""))
                self.assertIn(f"acdctl {name}", out)
                self.assertNotIn(f"acd-{name} ", out)

    def test_the_version_is_that_of_the_changelog(self):
        heading, = re.findall(r"\A# acd (\S+) ", (TOP / "CHANGELOG.md").read_text())
        described, = re.findall(r"(?m)^  version: '(\S+)'$", (TOP / "docs/openapi.yaml").read_text())
        self.assertEqual((VERSION, described, said(SERVICE / "bin/acdctl", "--version")), (heading, heading, (0, f"acdctl {heading}\n", "")))

    def test_a_word_that_is_no_command(self):
        for words in ([], ["none"], ["-copy"], ["acd-copy"], ["--version", "x"]):
            with self.subTest(words):
                status, out, faults = said(SERVICE / "bin/acdctl", *words)
                self.assertEqual((status, out, faults.count("\n"), faults.startswith("acdctl: ")), (2, "", 1, True))

    def test_as_it_is_installed_by_a_link_of_a_link_from_elsewhere(self):
        with tempfile.TemporaryDirectory() as folder:
            installed, links = Path(folder) / "share", (Path(folder) / "acd-copy", Path(folder) / "other/acd-copy")
            shutil.copytree(SERVICE / "acd_service", installed / "acd_service")
            for file in (SERVICE / "acdctl", *(TOP / "client").glob("acd_*.py")):
                shutil.copy(file, installed)
            links[0].symlink_to("share/acdctl")
            links[1].parent.mkdir()
            links[1].symlink_to("../acd-copy")
            for link in links:
                self.assertEqual(said(link, "--file", "/none", cwd="/"), (1, "", "acd-copy: there is no file /none\n"))
            self.assertEqual(said(installed / "acdctl", "copy", "--file", "/none", cwd="/"), (1, "", "acdctl copy: there is no file /none\n"))


class RecordsTest(unittest.TestCase):
    def test_records_are_what_the_old_words_write(self):
        with tempfile.TemporaryDirectory() as folder:
            (Path(folder) / "new").mkdir()
            (Path(folder) / "old").mkdir()
            (Path(folder) / "copies/1970-01-04T000000Z").mkdir(parents=True)
            file = Path(folder) / "copies/1970-01-04T000000Z/desk.db"
            requests = '"service":"addGroup","device":"100","name":"A","ring":5,"wrap":5', '"service":"arriveCall","caller":"0301234567","called":"100"'
            lines = "".join(f'100000 {{"requester":"x","invoke":{invoke},{request}}}\n' for invoke, request in enumerate(requests, 1))
            subprocess.run([os.environ.get("ACD", TOP / "release/acd"), "lines", "--file", file], input=lines, capture_output=True, text=True, check=True)
            done = [said(*words, "--copies", f"{folder}/copies") for words in ((SERVICE / "bin/acdctl", "records", f"{folder}/new"), (SERVICE / "bin/acd-calls", "--days", f"{folder}/old"))]
            written = [{str(one.relative_to(f"{folder}/{name}")): one.read_bytes() for one in Path(folder, name).rglob("*.csv")} for name in ("new", "old")]
        self.assertEqual(done[0], done[1])
        self.assertRegex(done[0][1], r"\A[1-9]\d* files written\n\Z")
        self.assertEqual(written[0], written[1])


class OldNamesTest(unittest.TestCase):
    def test_each_says_its_own_name(self):
        """Each is the same program, which goes by its own name."""
        programs = {program.name: program.read_bytes() for program in (SERVICE / "bin").glob("acd*")}
        self.assertEqual((set(programs) - {"acdctl"}, set(main.OLD)), (OLD, OLD))
        self.assertEqual((len(set(programs.values())), said(SERVICE / "bin/acd-copy", "--help")), (1, (0, ground.said("--help", by="acd-copy").out, "")))
        for name in sorted(OLD):
            with self.subTest(name):
                status, out, faults = ground.said("--help", by=name)
                self.assertEqual((status, faults), (0, ""))
                self.assertIn(name, out)
                self.assertNotIn("acdctl", out)

    def told(self, uses, age=None):
        """How often the journal is told, of so many uses; the first of them was `age` seconds ago."""
        with tempfile.TemporaryDirectory() as folder, mock.patch.object(main, "STAMPS", folder), mock.patch.object(main, "JOURNAL", folder), \
                mock.patch("syslog.syslog") as tells, contextlib.redirect_stderr(io.StringIO()) as faults, contextlib.redirect_stdout(io.StringIO()) as out:
            for _ in range(uses):
                main.tell_new_words("acd-copy")
                if age is not None:
                    stamp, = Path(folder).iterdir()
                    os.utime(stamp, (os.stat(stamp).st_mtime - age,) * 2)
            self.assertEqual((out.getvalue(), faults.getvalue()), ("", ""))
            return [call.args[1] for call in tells.call_args_list]

    def test_the_new_words_are_told_once_a_day(self):
        line, = self.told(3)
        self.assertIn("'acdctl copy'", line)
        self.assertEqual(len(self.told(2, age=main.DAY - 60)), 1)
        self.assertEqual(len(self.told(2, age=main.DAY + 60)), 2)

    def test_what_commands_of_before_are_now(self):
        for old, now in (("acd-carry", "acdctl prune"), ("acdctl carry", "acdctl prune"), ("acd-export", "acdctl export")):
            with mock.patch.object(main, "STAMPS", "/none"), mock.patch.object(main, "JOURNAL", "/"), mock.patch("syslog.syslog") as tells:
                main.tell_new_words(old)
            self.assertIn(f"'{old}' is '{now}' now", tells.call_args.args[1])

    def test_where_nothing_can_be_noted_each_use_is_told(self):
        with mock.patch.object(main, "STAMPS", "/none"), mock.patch.object(main, "JOURNAL", "/"), mock.patch("syslog.syslog") as tells:
            main.tell_new_words("acd-tick")
            main.tell_new_words("acd-tick")
        self.assertEqual(tells.call_count, 2)

    def test_a_link_in_the_place_of_the_note_is_not_followed(self):
        with tempfile.TemporaryDirectory() as folder, mock.patch.object(main, "STAMPS", folder):
            other = Path(folder) / "other"
            (Path(folder) / f"acd-copy.{os.geteuid()}.told").symlink_to(other)
            self.assertTrue(main.is_first_of_the_day("acd-copy"))
            self.assertFalse(other.exists())

    def test_without_a_journal_nothing_is_noted(self):
        with tempfile.TemporaryDirectory() as folder, mock.patch.object(main, "STAMPS", folder), mock.patch.object(main, "JOURNAL", "/none"):
            main.tell_new_words("acd-copy")
            self.assertEqual(list(Path(folder).iterdir()), [])


class ShippedTest(unittest.TestCase):
    """What ships finds its modules by lying beside them, and runs by Debian's Python."""

    def shipped(self):
        folders = (SERVICE / "acd_service").rglob("*.py"), (TOP / "exchange/bridge").rglob("*.py"), (TOP / "client").glob("*.py")
        programs = (SERVICE / "acdctl", TOP / "exchange/acd-exchange", TOP / "packaging/acd/keep-reads")
        return sorted({*programs, *(file for files in folders for file in files)})

    def test_no_module_is_looked_for_by_a_trick(self):
        found = [f"{file.relative_to(TOP)}: {word}" for file in self.shipped() for word in ("sys.path", "dont_write_bytecode", "SourceFileLoader", "spec_from_") if word in file.read_text()]
        self.assertEqual(found, [])

    def test_programs_are_run_by_the_python_of_debian(self):
        heads = {file.read_text().partition("\n")[0] for file in self.shipped() if file.read_text().startswith("#!")}
        self.assertEqual(heads, {"#!/usr/bin/python3"})


if __name__ == "__main__":
    unittest.main()
