"""Reasons and codes as the gate keeps them: their parts, what a power cut leaves of a line, copies, and what records make of them."""
import contextlib
import csv
import io
import json
import os
import unittest
from unittest import mock

import service_ground as ground
from acd_service import gate_state, put, reasons
from acd_service.events import Event
from acd_service.reasons import Code, Given, Reason

LUNCH = Reason(90000, "7", "ana", "lunch", 89990)
LINE = b'{"agent":"7","at":90000,"by":"ana","reason":"lunch","since":89990}\n'
SALE = Code(90010, "7", "ana", 5, 89000, "1970-01-02", "sale")
CODE = b'{"agent":"7","at":90010,"by":"ana","call":5,"code":"sale","file":"1970-01-02","talk":89000}\n'


class Parts(ground.Case):
    def setUp(self):
        super().setUp()
        self.parts = self.folder / "reasons"

    def part(self, name="1970-01-02"):
        return (self.parts / name).read_bytes()

    def test_a_part_for_each_day(self):
        for line in (LUNCH, SALE, LUNCH._replace(at=86399), LUNCH._replace(at=2 * 86400)):
            reasons.append(self.parts, line)
        self.assertEqual([part.name for part in reasons.parts(self.parts)], ["1970-01-01", "1970-01-02", "1970-01-03"])
        self.assertEqual(self.part(), LINE + CODE)
        self.assertEqual(list(reasons.given(self.parts, "1970-01-02")), [LUNCH, SALE, LUNCH._replace(at=2 * 86400)])
        (self.parts / "1970-01-02.csv").write_bytes(LINE)
        (self.parts / "file").write_bytes(LINE)
        self.assertEqual(len(reasons.parts(self.parts)), 3)
        self.assertEqual(reasons.parts(self.folder / "none"), [])

    def test_a_line_that_is_torn(self):
        """At each of its bytes: what was before it is read, and so is what comes after it."""
        for length in range(len(CODE)):
            self.parts.mkdir(exist_ok=True)
            (self.parts / "1970-01-02").write_bytes(LINE + CODE[:length])
            reasons.append(self.parts, SALE)
            self.assertEqual(list(reasons.given(self.parts)), [LUNCH, SALE, SALE] if length == len(CODE) - 1 else [LUNCH, SALE], length)
        (self.parts / "1970-01-02").write_bytes(LINE + bytes(200))
        reasons.append(self.parts, SALE)
        self.assertEqual(list(reasons.given(self.parts)), [LUNCH, SALE])

    def test_what_is_no_line(self):
        for text in (b"", b"{}", b"[]", b"1", b"\xff", b"[" * 250, LINE.replace(b"lunch", b"0301234567"), LINE.replace(b"lunch", b"a123456"), LINE.replace(b'"7"', b"7"), LINE.replace(b"90000", b"-1"),
                     LINE.replace(b'"by"', b'"caller"'), CODE.replace(b"1970-01-02", b"x"), CODE.replace(b"5,", b'"5",'), CODE.replace(b',"talk":89000', b""), LINE.replace(b"90000", b"true"),
                     LINE.replace(b"ana", b"a" * 300)):
            self.parts.mkdir(exist_ok=True)
            (self.parts / "1970-01-02").write_bytes(LINE + text + b"\n" + CODE)
            self.assertEqual(list(reasons.given(self.parts)), [LUNCH, SALE], text)

    def test_bounds(self):
        reasons.append(self.parts, LUNCH)
        with mock.patch.object(reasons, "MOST", len(LINE) + len(CODE) - 1), self.assertRaises(reasons.Full):
            reasons.append(self.parts, SALE)
        self.assertEqual(self.part(), LINE)
        self.assertLess(len(reasons.text_of(Code(2 ** 32 - 1, "9" * 9, "a" * 15, 2 ** 32 - 1, 2 ** 32 - 1, "1970-01-02", "a" * 15))), reasons.LONGEST)

    def test_a_disk_that_is_full(self):
        """Nothing of the line stays, whether the disk took a part of it, or failed as it was synced."""
        reasons.append(self.parts, LUNCH)
        write = os.write
        for fails in (mock.patch.object(os, "write", lambda opened, text: write(opened, text[:9])), mock.patch.object(os, "fsync", side_effect=OSError(28, "full"))):
            with fails, self.assertRaises(OSError):
                reasons.append(self.parts, SALE)
            self.assertEqual(self.part(), LINE)

    def test_it_is_synced(self):
        with mock.patch.object(os, "fsync") as synced:
            reasons.append(self.parts, LUNCH)
            self.assertEqual(synced.call_count, 3)    # the folder's name, the line, and the part's name
            reasons.append(self.parts, SALE)
            self.assertEqual(synced.call_count, 4)

    def test_no_link_is_followed(self):
        self.parts.mkdir()
        (self.parts / "1970-01-02").symlink_to(self.folder / "elsewhere")
        with self.assertRaises(OSError):
            reasons.append(self.parts, LUNCH)
        self.assertFalse((self.folder / "elsewhere").exists())

    def test_joined(self):
        """Each line once, by its moment; to the byte where one goes on from the other."""
        torn, later = LINE[:9], LINE.replace(b"90000", b"90020")
        for ours, theirs, wanted in ((b"", LINE, LINE), (LINE, LINE + torn, LINE + torn), (LINE + CODE, LINE, LINE + CODE), (later, LINE + CODE, LINE + CODE + later), (CODE + torn, LINE + torn, LINE + CODE)):
            self.assertEqual(reasons.joined(ours, theirs), wanted)


class Copies(ground.Case):
    """`own` is the folder of the gate's own files, and `back` that of another machine's gate."""
    def setUp(self):
        super().setUp()
        self.own, self.copies, self.back = self.folder / "own", self.folder / "copies", self.folder / "machine"
        self.parts, self.copied, self.given = self.own / "reasons", self.copies / "reasons", self.back / "reasons"
        for folder in (self.own, self.copies, self.back):
            folder.mkdir()
        self.owner = os.geteuid(), os.getegid()
        reasons.append(self.parts, LUNCH)
        (self.parts / "file").write_text('{"day":"1970-01-02","first":1,"last":9}\n')
        self.enterContext(mock.patch.object(gate_state, "PATIENCE", 0.2))

    def names(self, folder):
        return {part.name: part.read_bytes() for part in folder.iterdir()}

    def copy(self, by=None):
        """Whether all is well, and the lines about it."""
        with contextlib.redirect_stderr(io.StringIO()) as said:
            return gate_state.parts_copied(self.own, self.copies, by), said.getvalue()

    def give(self, own=None):
        """What was printed, and the lines about it."""
        with contextlib.redirect_stdout(io.StringIO()) as printed, contextlib.redirect_stderr(io.StringIO()) as said:
            gate_state.give_parts(own or self.back, self.copies, self.owner)
        return printed.getvalue(), said.getvalue()

    def test_there_and_back(self):
        """A part grows, and its copy with it; what is gone there stays among the copies. Nothing is written twice."""
        self.assertEqual(self.copy(), (True, ""))
        self.assertEqual(self.names(self.copied), self.names(self.parts))
        with mock.patch.object(put, "put_bytes", side_effect=AssertionError), mock.patch.object(reasons, "whole", side_effect=AssertionError):
            self.assertEqual(self.copy(), (True, ""))
        reasons.append(self.parts, SALE)
        (self.parts / "file").write_text('{"day":"1970-01-02","first":1,"last":11}\n')
        self.assertEqual(self.copy(), (True, ""))
        self.assertEqual(((self.copied / "1970-01-02").read_bytes(), (self.copied / "1970-01-02").stat().st_mode & 0o777), (LINE + CODE, 0o600))
        self.assertEqual((self.copied / "file").read_text(), '{"day":"1970-01-02","first":1,"last":11}\n')
        (self.parts / "1970-01-02").write_bytes(LINE)
        self.assertEqual(self.copy(), (True, ""))
        self.assertEqual((self.copied / "1970-01-02").read_bytes(), LINE + CODE)
        for has, wanted in ((None, LINE + CODE), (LINE, LINE + CODE), (CODE.replace(b"90010", b"90020"), LINE + CODE + CODE.replace(b"90010", b"90020"))):
            if has:
                (self.given / "1970-01-02").write_bytes(has)
            self.assertEqual(self.give(), (f"Reasons and codes of {self.copied} are in {self.given}\n", ""))
            self.assertEqual((self.given / "1970-01-02").read_bytes(), wanted)
        self.assertEqual(((self.given / "1970-01-02").stat().st_mode & 0o777, (self.given / "file").read_text()), (0o600, '{"day":"1970-01-02","first":1,"last":11}\n'))
        (self.given / "file").write_text("newer")
        self.give()
        self.assertEqual((self.given / "file").read_text(), "newer")

    def test_bytes_of_any_kind(self):
        """What a disk has spoilt comes to the copies as it is."""
        (self.parts / "1970-01-02").write_bytes(LINE + bytes(range(256)))
        self.assertEqual((self.copy(), (self.copied / "1970-01-02").read_bytes()), ((True, ""), LINE + bytes(range(256))))

    def test_a_folder_that_somebody_took_over(self):
        """Pipes, links and what is longer than a part aren't read, and all else is."""
        os.mkfifo(self.parts / "1970-01-03")
        (self.parts / "1970-01-04").symlink_to(self.parts / "1970-01-02")
        (self.parts / "1970-01-05").mkdir()
        is_well, said = self.copy()
        self.assertEqual((is_well, len(said.splitlines()), sorted(self.names(self.copied))), (False, 3, ["1970-01-02", "file"]))
        with mock.patch.object(reasons, "MOST", 9), self.assertRaises(OSError):
            reasons.whole(self.parts / "1970-01-02")

    def test_one_that_cannot_be_read(self):
        with mock.patch.object(reasons, "parts", side_effect=PermissionError(13, "Permission denied", "x")):
            is_well, said = self.copy()
        self.assertEqual((is_well, "reasons and codes aren't copied: x: Permission denied" in said), (False, True), said)
        with mock.patch.object(self, "own", self.folder / "run"):
            self.own.mkdir()
            self.assertEqual(self.copy(), (True, ""))

    def test_who_puts_back(self):
        self.copy()
        for place, user, line in ((self.folder / "nowhere", os.geteuid(), "isn't there: start acd-gate once"), (self.back, 12345, "only root puts reasons and codes back")):
            with mock.patch.object(os, "geteuid", lambda: user):
                printed, said = self.give(place)
            self.assertEqual((printed, line in said), ("", True), said)
        self.assertFalse(self.given.exists())

    @unittest.skipUnless(os.geteuid() == 0, "only root gives up its rights")
    def test_with_the_rights_of_the_gate(self):
        """By root the files are the gate's user's; what that user may not write stays as it is, whatever link is there."""
        self.copy()
        self.folder.chmod(0o755)
        os.chown(self.back, 12345, 12346)
        self.give()
        for path in (self.given, self.given / "1970-01-02", self.given / "file"):
            self.assertEqual((path.stat().st_uid, path.stat().st_gid), (12345, 12346))
        (self.given / "1970-01-02").unlink()
        (self.given / "1970-01-02").symlink_to(self.folder / "roots")
        (self.folder / "roots").write_bytes(b"root's")
        (self.folder / "roots").chmod(0o600)
        self.assertIn("1970-01-02: its reasons and codes aren't put back: ", self.give()[1])
        self.assertEqual((self.folder / "roots").read_bytes(), b"root's")

    @unittest.skipUnless(os.geteuid() == 0, "only root gives up its rights")
    def test_handed_over_by_root(self):
        """Read as the gate's user, and written among the copies as the desk's. What couldn't be read is in no copy, and the next copy says so."""
        self.folder.chmod(0o755)
        into = self.folder / "run"
        into.mkdir()
        for path, owner in ((self.own, 12345), (self.parts, 12345), *((part, 12345) for part in self.parts.iterdir()), (self.copies, 12347), (into, 12347)):
            os.chown(path, owner, owner)
        words = ("copy", "--file", self.file, "--folder", self.copies, "--own", self.own, "--hand-over", into)
        self.assertEqual(ground.said(*words), (0, "", ""))
        self.assertEqual((self.names(self.copied), {part.stat().st_uid for part in (self.copied, *self.copied.iterdir())}), (self.names(self.parts), {12347}))
        self.assertEqual(list((into / "gate").iterdir()), [])
        os.mkfifo(self.parts / "1970-01-03")
        os.chown(self.parts / "1970-01-03", 12345, 12345)
        done = ground.said(*words)
        self.assertEqual((done.status, "1970-01-03: is no part" in done.faults), (0, True), done)
        self.assertEqual([file.name for file in (into / "gate").iterdir()], ["lacks"])
        self.desk(ground.PLAN)
        copied = ground.said("copy", "--file", self.file, "--folder", self.copies, "--own", into / "gate")
        self.assertEqual((copied.status, "sound: " in copied.out, "reasons and codes aren't copied as a whole" in copied.faults), (1, True, True), copied)
        (self.parts / "1970-01-03").unlink()
        self.assertEqual(ground.said(*words), (0, "", ""))
        self.assertEqual(list((into / "gate").iterdir()), [])
        # a link to a folder of root's isn't one of the desk's user's
        (self.folder / "roots").mkdir(mode=0o700)
        (self.folder / "link").symlink_to(self.folder / "roots")
        done = ground.said(*words[:4], self.folder / "link", *words[5:])
        self.assertEqual((done.status, "Permission denied" in done.faults, list((self.folder / "roots").iterdir())), (0, True, []), done)

    def test_by_the_commands(self):
        """A copy has them, and a restore gives the gate what it lacks, if it succeeds; an undo leaves that. What can't be copied is told, and the desk's file is copied all the same."""
        self.desk(ground.PLAN)
        places = ("--file", self.file, "--folder", self.copies)
        copied = ground.said("copy", *places, "--own", self.own)
        self.assertEqual((copied.status, copied.faults), (0, ""))
        moment, = (one.name for one in self.copies.iterdir() if one.name[0] == "2" and one.is_dir())
        self.assertEqual((self.copied / "1970-01-02").read_bytes(), LINE)
        self.assertFalse((self.copies / moment / "gate").exists())
        restored = ground.said("restore", *places, "--own", self.back, "none")
        self.assertEqual((restored.status, self.given.exists()), (1, False))
        for words in ((moment,), ("--undo",)):
            done = ground.said("restore", *places, "--own", self.back, *words)
            self.assertEqual((done.status, done.faults), (0, ""))
            self.assertEqual((self.given / "1970-01-02").read_bytes(), LINE)
        (self.given / "1970-01-02").unlink()
        self.assertEqual(ground.said("restore", *places, moment).status, 0)
        self.assertFalse((self.given / "1970-01-02").exists())
        os.mkfifo(self.parts / "1970-01-03")
        copied = ground.said("copy", *places, "--own", self.own)
        self.assertEqual((copied.status, copied.faults), (1, f"acdctl copy: reasons and codes aren't copied as a whole: {self.parts / '1970-01-03'}: is no part\n"))
        self.assertIn("sound: ", copied.out)

    def test_nothing_is_left_of_a_copy_that_fails(self):
        with mock.patch.object(put, "settle", side_effect=OSError(28, "No space left on device")):
            self.assertFalse(self.copy()[0])
        self.assertEqual(list(self.copied.iterdir()), [])
        self.copy()
        with mock.patch.object(put, "settle", side_effect=OSError(28, "No space left on device")):
            self.assertIn("No space left on device", self.give()[1])
        self.assertEqual(list(self.given.iterdir()), [])


def agent_event(moment, kind, agent="7"):
    return Event(moment, kind, "201", agent=agent)


class Spent(unittest.TestCase):
    """Seconds of not ready by reason: worked by hand."""

    def counted(self, lines, *events):
        """Each stay in not ready is one piece, counted at its end, before the event that ends it."""
        given, since = Given(iter(lines)), None
        for event in events:
            if since is not None:
                given.spend("7", "day", since, event.moment)
            given.take(event)
            since = event.moment if event.kind in ("agentNotReady", "agentLoggedOn") else None
        return dict(given.spent["day", "7"])

    def test_the_first_counts_from_the_beginning(self):
        off, on = agent_event(100, "agentNotReady"), agent_event(700, "agentReady")
        for lines, wanted in (([], {}), ([Reason(150, "7", "ana", "lunch", 100)], {"lunch": 600}), ([Reason(150, "7", "ana", "lunch", 99)], {}), ([Reason(150, "8", "ben", "lunch", 100)], {}),
                              ([Reason(100, "7", "ana", "lunch", 100), Reason(400, "7", "ana", "training", 100)], {"lunch": 300, "training": 300}),
                              ([Reason(100, "7", "ana", "lunch", 100), Reason(400, "7", "ana", "", 100)], {"lunch": 300}), ([Reason(100, "7", "ana", "", 100), Reason(400, "7", "ana", "lunch", 100)], {"lunch": 300})):
            self.assertEqual(self.counted(lines, off, on), wanted, lines)

    def test_a_log_on_begins_one_too(self):
        self.assertEqual(self.counted([Reason(150, "7", "ana", "lunch", 100)], agent_event(100, "agentLoggedOn"), agent_event(200, "agentLoggedOff")), {"lunch": 100})

    def test_of_after_a_call(self):
        """It was said while the agent was busy; it counts if the agent isn't ready next."""
        line, busy = Reason(150, "7", "ana", "lunch"), agent_event(100, "agentBusy")
        for events, wanted in (([busy, agent_event(200, "agentNotReady"), agent_event(260, "agentReady")], {"lunch": 60}),
                               ([agent_event(120, "agentReady"), agent_event(160, "agentBusy"), agent_event(200, "agentNotReady"), agent_event(260, "agentReady")], {"lunch": 60}),
                               ([busy, agent_event(180, "agentReady"), agent_event(200, "agentNotReady"), agent_event(260, "agentReady")], {}),
                               ([busy, agent_event(180, "agentLoggedOff"), agent_event(200, "agentLoggedOn"), agent_event(260, "agentReady")], {}),
                               ([busy, agent_event(140, "agentNotReady"), agent_event(145, "agentReady"), agent_event(200, "agentNotReady"), agent_event(260, "agentReady")], {"lunch": 60})):
            self.assertEqual(self.counted([line], *events), wanted, events)
        self.assertEqual(self.counted([line, Reason(230, "7", "ana", "training", 200)], busy, agent_event(200, "agentNotReady"), agent_event(260, "agentReady")), {"lunch": 30, "training": 30})

    def test_in_pieces(self):
        """A midnight, or a talk in between, cuts it."""
        given = Given(iter([Reason(150, "7", "ana", "lunch", 100), Reason(300, "7", "ana", "training", 100)]))
        given.take(agent_event(100, "agentNotReady"))
        for day, begin, end in (("a", 100, 250), ("b", 250, 280), ("b", 290, 400)):
            given.spend("7", day, begin, end)
        given.spend("8", "a", 0, 100)
        self.assertEqual({key: dict(value) for key, value in given.spent.items()}, {("a", "7"): {"lunch": 150}, ("b", "7"): {"lunch": 40, "training": 100}})

    def test_codes(self):
        """The last of each agent, by the talk's moment: another call of the same number, in a new file, is another one."""
        given = Given(iter([SALE, SALE._replace(code="fault"), SALE._replace(agent="8", talk=89500), SALE._replace(call=6, code="")]))
        for call, talks, wanted in ((5, [(89000, "7")], ["fault"]), (5, [(89000, "7"), (89500, "8")], ["fault", "sale"]), (5, [(99000, "7")], []), (6, [(89000, "7")], []), (5, [(89000, "8")], [])):
            self.assertEqual(given.codes_of(call, talks), wanted)


class Records(ground.Case):
    """Of a day by the program: two calls, a break, and one for after a call."""
    STORY = (ground.PLAN + '{0} {{"requester":"ana","invoke":1,"service":"setAgentState","agent":"7","requested":"loggedOn","device":"201","group":"100"}}\n'
             '{10} {{"requester":"ana","invoke":2,"service":"setAgentState","agent":"7","requested":"ready"}}\n'
             '{20} {{"requester":"pbx","invoke":1,"service":"arriveCall","caller":"0301234","called":"100"}}\n'
             '{25} {{"requester":"ana","invoke":3,"service":"answerCall","call":1,"device":"201"}}\n'
             '{40} {{"requester":"ana","invoke":4,"service":"setAgentState","agent":"7","requested":"notReady"}}\n'
             '{85} {{"requester":"ana","invoke":5,"service":"clearConnection","call":1,"device":"201"}}\n'
             '{385} {{"requester":"ana","invoke":6,"service":"setAgentState","agent":"7","requested":"ready"}}\n')

    def setUp(self):
        super().setUp()
        self.begin = 1795392000    # 2026-11-23 00:00 UTC, a Monday
        story = self.STORY.replace("{{", "{").replace("}}", "}")
        for second in (0, 10, 20, 25, 40, 85, 385):
            story = story.replace(f"{{{second}}} ", f"{self.begin + second} ")
        self.parts = self.folder / "reasons"
        ground.lines(self.file, story)
        at = self.begin
        for line in (Reason(at + 5, "7", "ana", "training", at), Reason(at + 41, "7", "ana", "lunch"), Reason(at + 185, "7", "ana", "training", at + 85), Code(at + 90, "7", "ana", 1, at + 25, "2026-11-23", "sale")):
            reasons.append(self.parts, line)
        (self.folder / "board.json").write_text(json.dumps({"reasons": {"lunch": "Mittag", "training": "Schulung"}, "codes": {"sale": "Verkauf"}}))

    def table(self, *words):
        done = ground.said("calls", "--file", self.file, *words)
        self.assertEqual((done.status, done.faults), (0, ""))
        return list(csv.DictReader(io.StringIO(done.out)))

    def test_calls_and_agents(self):
        """lunch from 85 to 185, training for the ten seconds of the log-on and from 185 to 385."""
        call, = self.table("--reasons", self.parts)
        self.assertEqual((call["number"], call["codes"], "code_names" in call), ("1", "sale", False))
        day, = self.table("--reasons", self.parts, "--agents", "--names", "--office", self.folder / "board.json")
        self.assertEqual((day["not_ready"], day["reasons"], day["reason_names"]), ("310", "training:210 lunch:100", "Schulung 210; Mittag 100"))
        call, = self.table("--reasons", self.parts, "--names", "--office", self.folder / "board.json")
        self.assertEqual((call["codes"], call["code_names"]), ("sale", "Verkauf"))

    def test_without_any(self):
        """Then tables are as they were."""
        for words in ((), ("--agents",)):
            row, = self.table(*words)
            self.assertEqual([column for column in ("codes", "reasons") if column in row], [])

    def test_files_of_days(self):
        """Out of a folder of copies; those that are written anew have them too."""
        copies, days = self.folder / "copies", self.folder / "days"
        days.mkdir()
        place = copies / "2026-11-24T031500Z"
        place.mkdir(parents=True)
        for part in self.home.iterdir():
            os.replace(part, place / part.name)
        for times in range(2):
            done = ground.said("records", "--copies", copies, "--office", self.folder / "board.json", days)
            self.assertEqual((done.status, done.out), (0, "3 files written\n" if times == 0 else "2 files written\n"))
            call, = csv.DictReader((days / "records/2026-11-23.csv").open(encoding="utf-8-sig"))
            day, = csv.DictReader((days / "agents/2026-11-23.csv").open(encoding="utf-8-sig"))
            wanted = ("sale", "Verkauf", "training:210 lunch:100", "2") if times else (None, None, None, "2")
            self.assertEqual((call.get("codes"), call.get("code_names"), day.get("reasons"), day["formulas"]), wanted)
            if not times:
                os.rename(self.parts, copies / "reasons")


if __name__ == "__main__":
    unittest.main()
