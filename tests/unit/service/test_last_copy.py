"""Of the line that a copy leaves for who can't look into the folder of copies."""
import calendar
import contextlib
import io
import tempfile
import time
import unittest
from pathlib import Path
from unittest import mock

import service_ground as ground
from acd_service import audit, command, copy, last_copy, settings
from acd_service.last_copy import VERDICTS, LastCopy
from service_ground import said


class Line(unittest.TestCase):
    def setUp(self):
        self.file = Path(self.enterContext(tempfile.TemporaryDirectory())) / "copy"

    def test_what_is_left_is_read(self):
        for last in (LastCopy(1795436491, "sound", 1795436491), LastCopy(1795436491, "failed", None), *(LastCopy(5, verdict, 4) for verdict in VERDICTS)):
            last_copy.leave(self.file, last)
            self.assertEqual(last_copy.read(self.file), last)
        self.assertEqual(self.file.stat().st_mode & 0o777, 0o644)

    def test_the_line(self):
        last_copy.leave(self.file, LastCopy(1795436491, "unsound", None))
        self.assertEqual(self.file.read_text(), "1795436491 unsound -\n")

    def test_what_is_none(self):
        self.assertIsNone(last_copy.read(self.file))
        for text in ("", "5 sound", "5 sound 4 3", "x sound 4", "5 well 4", "5 sound x"):
            self.file.write_text(text)
            self.assertIsNone(last_copy.read(self.file), text)
        self.file.write_bytes(b"\xff")
        self.assertIsNone(last_copy.read(self.file))

    def test_without_a_folder_for_it(self):
        """A machine without the gate's package has none, and misses none."""
        with contextlib.redirect_stderr(io.StringIO()) as faults:
            last_copy.leave(self.file / "none/copy", LastCopy(5, "sound", 5))
        self.assertEqual(faults.getvalue(), "")

    def test_one_that_can_not_be_written(self):
        with mock.patch.object(command, "name", "acdctl copy"), mock.patch.object(last_copy.put, "put", side_effect=PermissionError(13, "Permission denied")), \
             contextlib.redirect_stderr(io.StringIO()) as faults:
            last_copy.leave(self.file, LastCopy(5, "sound", 5))
        self.assertEqual(faults.getvalue(), f"acdctl copy: {self.file} can't be written: Permission denied\n")


class OfACopy(ground.Case):
    def setUp(self):
        super().setUp()
        self.copies, self.line = self.folder / "copies", self.folder / "run/copy"
        self.line.parent.mkdir()
        self.enterContext(mock.patch.object(copy, "NGINX", self.folder / "nginx"))
        self.enterContext(mock.patch.object(settings, "FILE", self.folder / "acd.env"))

    def told(self):
        """The verdict of a copy, and the name of the good one that the line names."""
        begun = int(time.time())
        said("copy", "--file", self.file, "--folder", self.copies, "--tell", self.line)
        last = last_copy.read(self.line)
        self.assertTrue(begun <= last.moment <= time.time())
        return last.verdict, last.good and time.strftime(copy.MOMENT, time.gmtime(last.good))

    def newest(self):
        return max(one.name for one in self.copies.glob("2*Z"))

    def test_without_a_file(self):
        self.assertEqual(self.told(), ("failed", None))

    def test_good_ones(self):
        self.desk(ground.PLAN + ground.arrives(1))
        self.assertEqual(self.told(), ("sound", self.newest()))
        with mock.patch.object(audit, "audited", lambda *_: audit.Finding(audit.AGAIN, "sound up to request 3", 4)):
            self.assertEqual(self.told(), ("again", self.newest()))

    def test_one_that_is_not_good(self):
        """The last good one stays the last good one."""
        self.desk(ground.PLAN + ground.arrives(1))
        earlier = "2026-11-20T100000Z"
        (self.copies / earlier).mkdir(parents=True)
        for verdict, wanted in ((audit.UNAUDITED, "unaudited"), (audit.EARLY, "early")):
            with mock.patch.object(audit, "audited", lambda *_: audit.Finding(verdict, "so")):
                self.assertEqual(self.told(), (wanted, earlier))
        self.assertEqual(last_copy.read(self.line).good, calendar.timegm((2026, 11, 20, 10, 0, 0)))
        (self.copies / "executed").write_text("".join(f"{name} {value}\n" for name, value in
                                                      {"executed": 99, "device": self.file.stat().st_dev, "inode": copy.identity(self.file)}.items()))
        self.assertEqual(self.told(), ("fewer", earlier))
        ground.changed(self.file, "UPDATE agents SET name = 'Bea'")
        self.assertEqual(self.told(), ("unsound", earlier))

    def test_unless_it_is_wanted_nothing_is_left(self):
        self.desk(ground.PLAN)
        said("copy", "--file", self.file, "--folder", self.copies)
        self.assertFalse(self.line.exists())


if __name__ == "__main__":
    unittest.main()
