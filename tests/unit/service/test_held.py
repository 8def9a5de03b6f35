"""Of held: the processes that have a file open, and what is said of one that was removed or moved from under a desk."""
import os
import shutil
import subprocess
import unittest
from pathlib import Path
from unittest import mock

import service_ground as ground
from acd_service import held


class Places(ground.Case):
    def test_links(self):
        """They are followed, in each part of a path; one that leads nowhere is itself the place."""
        self.desk()
        (self.folder / "folder").symlink_to(self.home)
        (self.folder / "link").symlink_to("folder/desk.db")
        (self.folder / "lost").symlink_to(self.home / "none")
        (self.folder / "round").symlink_to("round")
        for path, found in ((self.folder / "link", self.file), (self.folder / "folder/desk.db", self.file), (self.folder / "lost", self.folder / "lost"),
                            (self.folder / "round", self.folder / "round"),
                            (self.folder / "folder/none", self.home / "none"), (self.home / "../desk/./desk.db", self.file)):
            self.assertEqual(held.place(path), found)

    def test_which_file(self):
        self.desk()
        found = os.stat(self.file)
        self.assertEqual(held.which(self.file), (found.st_dev, found.st_ino))
        for path in (self.home / "none", self.file / "below"):
            self.assertIsNone(held.which(path))


class Processes(ground.Case):
    def test_who_has_it_open(self):
        """To read and write it: not who reads it alone."""
        self.desk()
        with open(self.file, "rb"):
            self.assertEqual(held.holders(self.file), [])
            with open(self.file, "rb+"):
                self.assertEqual(held.holders(self.file), [os.getpid()])
        self.assertEqual((held.holders(self.home / "none"), held.opened(999_999_999)), ([], []))

    def test_a_desk(self):
        self.desk()
        desk, _ = self.serves()
        self.assertEqual((held.is_desk(desk.pid), held.is_desk(os.getpid()), held.is_desk(999_999_999)), (True, False, False))
        self.assertEqual((held.desks(self.file), held.desks(self.home / "none"), held.named(desk.pid)), ([desk.pid], [], self.file))
        self.assertEqual(held.printable(desk.pid), f"acd serve --file {self.file}")
        has = held.opened(desk.pid)
        self.assertEqual(([Path(one.name) for one in has if one.is_database()], held.user_of(desk.pid)), ([self.file], os.geteuid()))
        with mock.patch.object(held, "users_of", lambda _: {54321}):
            self.assertEqual(held.desks(self.file), [])

    def test_words(self):
        for words, named, shown in ((["acd", "serve"], None, "acd serve"), (["acd", "--file=desk.db"], self.file, "acd --file=desk.db"),
                                    (["acd", "--file", "../desk/desk.db"], self.file, "acd --file ../desk/desk.db"),
                                    (["acd", "a\nb", "c d", "e", "f"], None, "acd 'a\\nb' c d e"), (["acd", "--file"], None, "acd --file")):
            folder = self.folder / "proc/7"
            shutil.rmtree(folder.parent, ignore_errors=True)
            folder.mkdir(parents=True)
            (folder / "cmdline").write_bytes("".join(f"{word}\0" for word in words).encode())
            (folder / "cwd").symlink_to(self.home)
            with mock.patch.object(held, "PROCESSES", folder.parent), self.subTest(words):
                self.assertEqual((held.named(7), held.printable(7)), (named, shown))
                self.assertEqual((held.words(8), held.named(8), held.user_of(8)), ([], None, None))
                (folder / "cwd").unlink()
                self.assertIsNone(held.named(7))

    def test_whose_word_counts(self):
        """Root's, this user's and the owner's of the file, or of its folder where there is none."""
        owners = {self.file: 7, self.home: 8}
        with mock.patch.object(os, "geteuid", lambda: 1000), mock.patch.object(os, "lstat", lambda path: mock.Mock(st_uid=owners[path])):
            for is_there, owner in ((False, 8), (True, 7)):
                with mock.patch.object(os.path, "lexists", lambda _: is_there):
                    self.assertEqual(held.users_of(self.file), {0, 1000, owner})
        with mock.patch.object(os.path, "lexists", side_effect=PermissionError):
            self.assertEqual(held.users_of(self.file), {0, os.geteuid()})


class Moved(ground.Case):
    def setUp(self):
        super().setUp()
        self.desk(ground.PLAN + ground.arrives(1))
        self.process, _ = self.serves()
        self.log = Path(f"{self.file}-wal")

    def told(self):
        return held.moved(self.process.pid, self.file)

    def test_as_it_was(self):
        self.assertIsNone(self.told())
        self.assertIsNone(held.moved(999_999_999, self.file))

    def test_a_file_that_was_removed(self):
        self.file.unlink()
        self.assertTrue(self.told().startswith(f"the file {self.file} was removed from under the desk, process {self.process.pid}: what it answered is lost where it is stopped"))
        self.file.write_bytes(b"another")
        self.assertTrue(self.told().startswith(f"the file {self.file} was removed from under the desk"))

    def test_a_file_that_was_moved(self):
        self.file.rename(self.home / "old.db")
        self.assertEqual(self.told(), f"the file {self.file} was moved to {self.home}/old.db under the desk, process {self.process.pid}: what it answers goes there")

    def test_a_log(self):
        self.log.rename(self.home / "old-wal")
        self.assertEqual(self.told(), f"the log {self.file}-wal was moved to {self.home}/old-wal under the desk, process {self.process.pid}: what it answers goes there")
        (self.home / "old-wal").unlink()
        self.assertTrue(self.told().startswith(f"the log {self.file}-wal was removed from under the desk"))

    def test_one_that_ends_just_then(self):
        """Of two looks the second finds another one."""
        looks = iter([("log", "x"), None])
        with mock.patch.object(held, "look", lambda *_: next(looks)):
            self.assertIsNone(self.told())
        with mock.patch.object(held, "look", side_effect=OSError):
            self.assertIsNone(self.told())

    def test_a_folder_that_this_process_does_not_see(self):
        """It is looked at by the desk's own root."""
        which = held.which
        with mock.patch.object(held, "which", side_effect=lambda path: which(path) if str(path).startswith("/proc/") else (_ for _ in ()).throw(PermissionError())):
            self.assertEqual(held.seen(self.process.pid, self.file), which(self.file))


class Units(ground.Case):
    def of(self, text, main="0"):
        folder = self.folder / "proc/7"
        folder.mkdir(parents=True, exist_ok=True)
        (folder / "cgroup").write_text(text)
        self.program("systemctl", f'[ "$*" = "show --value --property=MainPID other" ] && echo {main}')
        with mock.patch.object(held, "PROCESSES", folder.parent):
            return held.unit(7), held.stopping(7)

    def test_how_one_is_stopped(self):
        for text, main, unit in (("0::/system.slice/acd.service\n", "0", "acd"), ("0::/system.slice/acd-north.service\n", "0", "acd-north"), ("0::/user.slice/session-1.scope\n", "0", None),
                                 ("0::/system.slice/other.service\n", "7", "other"), ("0::/system.slice/other.service\n", "8", None), ("", "0", None)):
            with self.subTest(text, main=main):
                self.assertEqual(self.of(text, main), (unit, f"systemctl stop {unit}" if unit else "kill 7"))
        with mock.patch.object(subprocess, "run", side_effect=FileNotFoundError):
            self.assertEqual(self.of("0::/system.slice/other.service\n")[0], None)
        self.assertIsNone(held.unit(999_999_999))


if __name__ == "__main__":
    unittest.main()
