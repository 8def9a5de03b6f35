"""Of audit: the verdict on a copy, by what the program says of it, and that a copy which isn't good keeps its log."""
import shutil
import struct
import unittest
from pathlib import Path

import service_ground as ground
from acd_service import audit, pair

SENT_AGAIN = ground.arrives(1, "0301234", 300100)


def commits_of(log):
    """The offsets of the frames that end a commit, by SQLite's description of a log."""
    data = log.read_bytes()
    page = struct.unpack_from(">I", data, 8)[0]
    return [at for at in range(32, len(data), 24 + page) if data[at + 4:at + 8] != bytes(4) and data[at + 8:at + 16] == data[16:24]]


def spoil(path, offset):
    data = bytearray(path.read_bytes())
    data[offset] ^= 1
    path.write_bytes(data)


class Audits(ground.Case):
    def test_a_sound_file(self):
        self.desk(ground.PLAN + ground.arrives(1))
        found = audit.audited(self.file)
        self.assertEqual((found, found.is_good()), (audit.Finding(audit.SOUND, "sound; executed 4", 4), True))

    def test_requests_that_are_in_the_log_alone(self):
        self.killed(ground.PLAN + ground.arrives(1) + ground.arrives(2))
        self.assertTrue(pair.holds_something(pair.log_of(self.file)))
        self.assertEqual(audit.audited(self.file).executed, 5)
        self.assertFalse(Path(f"{pair.log_of(self.file)}.aside").exists())

    def test_a_file_that_somebody_changed(self):
        self.desk(ground.PLAN + ground.arrives(1))
        ground.changed(self.file, "UPDATE agents SET name = 'Bea'")
        pair.log_of(self.file).write_bytes(b"")
        found = audit.audited(self.file)
        self.assertEqual((found.verdict, found.is_good()), (audit.UNSOUND, False))
        self.assertTrue(found.said.startswith("differs at request "), found.said)

    def test_a_log_that_ends_early(self):
        """It stays as it was beside a copy that isn't good."""
        self.killed(ground.PLAN + "".join(ground.arrives(invoke) for invoke in range(1, 6)))
        log = pair.log_of(self.file)
        spoil(log, commits_of(log)[-3] + 30)
        before = log.read_bytes()
        found = audit.audited(self.file)
        self.assertEqual((found.verdict, found.said, found.is_good()), (audit.EARLY, "sound, but its log ends early", False))
        self.assertEqual(log.read_bytes(), before)

    def test_what_the_program_says(self):
        for text, verdict, said in (("kill -9 $$", audit.UNAUDITED, "it was ended, since it wanted more memory than it may have"),
                                    ("echo 'acd: no memory'; exit 1", audit.UNAUDITED, "it was ended, since it wanted more memory than it may have"),
                                    ("echo 'differs at request 4'; exit 3", audit.UNSOUND, "differs at request 4"),
                                    ("echo sound; exit 0", audit.UNSOUND, "sound"),
                                    ("echo sound; echo 'executed 12'; exit 1", audit.UNSOUND, "sound; executed 12"),
                                    ("echo other; echo 'executed 12'; exit 0", audit.UNSOUND, "other; executed 12"),
                                    ("echo sound; echo 'executed 12'; exit 0", audit.SOUND, "sound; executed 12"),
                                    ("echo 'sound, but request 9 was sent again'; echo 'executed 12'; exit 6", audit.AGAIN, "sound, but request 9 was sent again; executed 12"),
                                    ("echo 'sound, but request 9 was sent again'; exit 6", audit.UNSOUND, "sound, but request 9 was sent again"),
                                    ("echo differs; echo 'executed 12'; exit 6", audit.UNSOUND, "differs; executed 12"),
                                    ("echo 'sound, but its log ends early'; exit 5", audit.EARLY, "sound, but its log ends early")):
            with self.subTest(text):
                self.file.write_bytes(b"x")
                # nice becomes the program, whose end by a signal is its own
                self.program("acd", f"exec sh -c {text!r}" if "kill" not in text else text)
                found = audit.audited(self.file)
                self.assertEqual((found.verdict, found.said), (verdict, said))
                self.assertEqual(found.executed, 12 if found.is_good() else 0)


class WithAnArchive(ground.Case):
    def setUp(self):
        super().setUp()
        self.desk(ground.PLAN + ground.arrives(1) + ground.tick(1, 300000))

    def test_a_file_that_goes_on(self):
        archive = self.carried(ground.arrives(2, "0305678", 300100), 5)
        before = ground.snapshot(self.home)
        found = audit.audited(self.file, archive)
        self.assertEqual(found, audit.Finding(audit.SOUND, "sound; executed 6", 6))
        after = ground.snapshot(self.home)
        self.assertEqual({name: after[name] for name in before}, before)
        self.assertNotIn(f"{archive.name}-wal", after)

    def test_a_request_that_was_sent_again(self):
        archive = self.carried(SENT_AGAIN, 5)
        found = audit.audited(self.file, archive)
        self.assertEqual((found, found.is_good()), (audit.Finding(audit.AGAIN, "sound, but request 6 was sent again; executed 6", 6), True))

    def test_one_behind_which_something_was_changed(self):
        archive = self.carried(SENT_AGAIN + ground.arrives(2, "0305678", 300101), 5)
        ground.changed(self.file, "UPDATE kept SET body = replace(body, 'result', 'Result') WHERE stamp = 7")
        pair.log_of(self.file).write_bytes(b"")
        self.assertEqual(audit.audited(self.file, archive), audit.Finding(audit.UNSOUND, "differs at request 7"))

    def test_sent_again_and_a_log_that_ends_early(self):
        archive = self.carried("", 5)
        desk = "".join(ground.arrives(invoke, "0307", 300100 + invoke) for invoke in range(11, 16))
        self.killed(SENT_AGAIN + desk)
        log = pair.log_of(self.file)
        spoil(log, commits_of(log)[-3] + 30)
        before = log.read_bytes()
        found = audit.audited(self.file, archive)
        self.assertEqual((found.verdict, found.said, log.read_bytes()), (audit.EARLY, "sound, but its log ends early", before))

    def test_a_program_that_looks_behind_no_archive(self):
        """SQL compares the rows then, once the program has opened the file."""
        archive = self.carried(ground.arrives(2, "0305678", 300100), 5)
        self.program("acd", f'[ "$1" = audit ] && exit 2; exec {ground.ACD} "$@"')
        found = audit.audited(self.file, archive)
        self.assertEqual((found.verdict, found.executed, found.said), (audit.SOUND, 6, f"this acd can't audit with an archive (audit --archive): by SQL the copy continues {archive.name}"))
        other = Path(shutil.copy(archive, self.folder / "other"))
        ground.changed(other, "UPDATE meta SET max_calls = max_calls - 1")
        found = audit.audited(self.file, other)
        self.assertEqual((found.verdict, found.said), (audit.UNSOUND, f"the limits are others, and not as in {other}"))
        self.program("acd", '[ "$1" = audit ] && exit 2; echo "acd: store fault"; exit 1')
        self.assertEqual(audit.audited(self.file, archive), audit.Finding(audit.UNSOUND, "acd: store fault"))
        pair.log_of(self.file).write_bytes(bytes([0x37, 0x7f, 6, 0x82]) + b"x" * 100)
        self.assertEqual(audit.audited(self.file, archive), audit.Finding(audit.EARLY, "its log ends early"))


if __name__ == "__main__":
    unittest.main()
