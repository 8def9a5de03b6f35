"""Of the plan: what is printed of a desk, which the program imports again; which requests make it another plan; and that rows are refused as the program refuses them."""
import json
import os
import re
import ssl
import shutil
import subprocess
import unittest
from unittest import mock

import service_ground as ground
from acd_service import plan, reach
from service_ground import said

HEADER = "kind,number,name,ring,wrap\n"
MARK = b"\xef\xbb\xbf"
PRESENT = HEADER + 'group,100,Billing,20,30\ngroup,110,Claims,20,30\ngroup,0100,Old,1,1\nstation,201,,,\nstation,0201,,,\nagent,7,Ana,,\nagent,08,"a, ""b""",,\n'
# 100, 201 and agent 7 are as planned
WANTED = HEADER + "agent,7,Ana,,\nagent,201,Dee,,\ngroup,100,Billing,0020,30\ngroup,110,Claims!,15,30\nstation,201,,,\nstation,203,,,\ngroup,7,Seven,0,0\n"
CHANGES = ['"service":"addAgent","agent":"201","name":"Dee"', '"service":"changeGroup","device":"110","name":"Claims!","ring":15,"wrap":30', '"service":"addStation","device":"203"',
           '"service":"addGroup","device":"7","name":"Seven","ring":0,"wrap":0']
BEYOND = ["group 0100 Old", "station 0201", 'agent 08 a, "b"']


def answer(status, outcome):
    """To any request, with its key."""
    return lambda body: (status, {name: json.loads(body)[name] for name in ("requester", "invoke")} | outcome)


GRANTED = answer(200, {"result": {}})
EMPTY = (200, {"groups": [], "stations": [], "agents": []})


class Plans(ground.Case):
    def setUp(self):
        super().setUp()
        self.taken(PRESENT)

    def taken(self, text, file=None):
        """What the program says as it imports a plan: the answers, and its line of a fault."""
        place = self.folder / "given.csv"
        place.write_bytes(text if isinstance(text, bytes) else text.encode())
        done = subprocess.run([ground.ACD, "import", "--file", file or self.file, "--plan", place], capture_output=True, text=True)
        return done.stdout, done.stderr

    def snapshot(self):
        return ground.lines(self.file, "0 GET /snapshot\n", "--reads").encode()

    def wanted(self, text=WANTED):
        place = self.folder / "wanted.csv"
        place.write_bytes(text if isinstance(text, bytes) else text.encode())
        return place


class Printed(Plans):
    def test_what_was_imported(self):
        """In the order of a snapshot: groups, stations and agents, each by its number."""
        rows = sorted(PRESENT.splitlines()[1:], key=lambda row: (["group", "station", "agent"].index(row.split(",")[0]), int("1" + row.split(",")[1])))
        text = HEADER + "".join(f"{row}\n" for row in rows)
        self.assertEqual(said("plan", stdin=self.snapshot()), (0, text, ""))
        self.assertEqual(said("plan", stdin=self.snapshot().partition(b" ")[2]), (0, text, ""))
        _, address = self.serves()
        self.assertEqual(said("plan", "--from", address), (0, text, ""))

    def test_another_file_of_it(self):
        printed = said("plan", stdin=self.snapshot()).out
        other = self.folder / "other.db"
        self.assertEqual(self.taken(printed, other)[1], "")
        self.assertEqual(said("plan", stdin=ground.lines(other, "0 GET /snapshot\n", "--reads").encode()).out, printed)

    def test_priorities(self):
        ground.lines(self.file, '0 {"requester":"x","invoke":1,"service":"setGroupPriority","device":"110","priority":5}\n')
        done = said("plan", stdin=self.snapshot())
        self.assertEqual((done.status, done.out.count("\n"), done.faults), (0, 8, "acdctl plan: 1 groups have a priority, which a plan can't give: acdctl plan --priorities prints them\n"))
        done = said("plan", "--priorities", stdin=self.snapshot())
        self.assertEqual(done, (0, '0 {"requester":"plan","invoke":8,"service":"setGroupPriority","device":"110","priority":5}\n', ""))
        other = self.folder / "other.db"
        self.taken(said("plan", stdin=self.snapshot()).out, other)
        self.assertIn('{"invoke":8,"requester":"plan","result":{}}', ground.lines(other, done.out))

    def test_what_is_no_snapshot(self):
        for text in (b"", b"x", b"{}", b"[]", b"3", b"200 ", b'200 {"groups":[{}]}', b'{"groups":3}', b'404 {"error":{}}'):
            done = said("plan", stdin=text)
            with self.subTest(text):
                self.assertEqual((done.status, done.out, done.faults.count("\n")), (1, "", 1))
                self.assertIn("acdctl plan: there is no snapshot: ", done.faults)
        self.assertIn("the desk answered 404 ", done.faults)


class Changed(Plans):
    def test_what_changes(self):
        done = said("plan", "--changes", self.wanted(), stdin=self.snapshot())
        self.assertEqual((done.status, done.faults), (0, "".join(f"acdctl plan: the desk has more than the plan: {what}\n" for what in BEYOND)))
        found = [re.fullmatch(r'0 \{"requester":"(plan-[0-9a-f]{16})","invoke":(\d),(.*)\}', line).groups() for line in done.out.splitlines()]
        self.assertEqual([(int(invoke), rest) for _, invoke, rest in found], list(enumerate(CHANGES, 1)))
        self.assertEqual(len({requester for requester, _, _ in found}), 1)
        # the program takes them all, and nothing is left to change
        self.assertEqual([line[:3] for line in ground.lines(self.file, done.out).splitlines()], ["200"] * 4)
        self.assertEqual(said("plan", "--changes", self.wanted(), stdin=self.snapshot()).out, "")

    def test_that_are_sent(self):
        _, address = self.serves()
        done = said("plan", "--changes", self.wanted(), "--from", address, "--send")
        self.assertEqual((done.status, done.out.count("\n"), done.faults.splitlines()[-1]), (0, 4, "acdctl plan: 3 added, 1 changed, 0 refused"))
        done = said("plan", "--changes", self.wanted(), "--from", address, "--send")
        self.assertEqual((done.status, done.out, done.faults.splitlines()[-1]), (0, "", "acdctl plan: 0 added, 0 changed, 0 refused"))

    def test_that_are_refused(self):
        address, got = self.answers({"/snapshot": EMPTY, "/csta": [GRANTED, answer(409, {"error": {"code": 7, "name": "deviceExists"}}), GRANTED]})
        done = said("plan", "--changes", self.wanted(HEADER + "group,1,A,1,1\nstation,2,,,\nagent,3,B,,\n"), "--from", address, "--send")
        self.assertEqual((done.status, done.faults), (1, "acdctl plan: addStation 2: 409 deviceExists\nacdctl plan: 2 added, 0 changed, 1 refused\n"))
        self.assertEqual([json.loads(body)["service"] for method, _, body in got if method == "POST"], ["addGroup", "addStation", "addAgent"])

    def test_a_desk_that_falls_silent(self):
        """What was done before is told; the rest is for another run."""
        address, _ = self.answers({"/snapshot": EMPTY, "/csta": [GRANTED, answer(503, {"error": {"code": 1, "name": "storeFault"}})]})
        with mock.patch.multiple(reach, PATIENCE=0.1, PAUSE=0.01):
            done = said("plan", "--changes", self.wanted(HEADER + "group,1,A,1,1\nstation,2,,,\nagent,3,B,,\n"), "--from", address, "--send")
        self.assertEqual((done.status, done.out.count("\n")), (1, 2))
        first, second = done.faults.splitlines()
        self.assertTrue(first.startswith("acdctl plan: addStation 2: no answer: "), first)
        self.assertEqual(second, "acdctl plan: 1 added, 0 changed, 0 refused before that; run it again for the rest")

    def test_what_no_request_corrects(self):
        done = said("plan", "--changes", self.wanted(HEADER + "group,201,x,1,1\nstation,100,,,\nagent,8,Other,,\n"), stdin=self.snapshot())
        self.assertEqual((done.status, done.out), (1, ""))
        self.assertEqual(done.faults, "acdctl plan: 100 is a station of the plan and a group of the desk, which no request corrects\n"
                                      "acdctl plan: 201 is a group of the plan and a station of the desk, which no request corrects\n")

    def test_a_number_that_comes_twice(self):
        done = said("plan", "--changes", self.wanted(HEADER + "group,201,x,1,1\nagent,201,x,,\nstation,201,,,\n"), stdin=self.snapshot())
        self.assertEqual((done.status, done.out, done.faults), (1, "", "acdctl plan: plan row 3: number 201 appears twice\n"))

    def test_a_requester_of_the_login(self):
        for login, begin in (("lea", "lea-"), ("Lea", "plan-"), ("x" * 16, "plan-"), (None, "plan-")):
            self.assertRegex(reach.new_requester(login, "plan"), f"^{begin}[0-9a-f]{{16}}$")
        self.assertEqual((plan.requester_of("lea"), plan.requester_of("Lea"), plan.requester_of(None)), ("lea-plan", "plan", "plan"))


class Read(Plans):
    """A plan of a file is read as the program reads it, or is refused as it refuses it."""

    GROUPS = ["1,n,3601,0", "1,n,00020,1", "1,n,+20,1", "1,n,,1", "1,n,20,-1", "1,n,20,", "1234567890123456,B,1,1", "123456789012345,B,0000,3600"]
    AGENTS = ["7,A,0,", "7,A,,0", "1234567890,A,,", "7,,,", f"7,{'n' * 40},,", f"7,{'n' * 41},,", "7,é,,", "٠,A,,"]
    OTHERS = ["station,1,n,,", "station,1,,,0", "station,,,,", " station,1,,,", "kind,1,,,", "group,100,B,20", ",,,,", "group,100,B,20,30,", '""', '"gro\nup",1,B,1,1', 'agent,7,A"n"a,,',
              'agent,7,"B"e"n",,', 'agent,7,"Ana,,']
    ROWS = [f"group,{row}" for row in GROUPS] + [f"agent,{row}" for row in AGENTS] + OTHERS
    FILES = [b"", b"\n\n", HEADER.encode()[:-1], b"kind,number,name,wrap,ring\n", b"Kind,number,name,ring,wrap\n", *(MARK * marks + HEADER.encode() for marks in (1, 2, 3)),
             HEADER.encode() + b"\r\n\n\r\nstation,8,,,\r\n", HEADER.encode() + b"agent,7,\xff,,\n",
             *(HEADER.encode() + b"\n" * (length - len(HEADER)) for length in (1048576, 1048577)),
             b'"kind",number,"name",ring,wrap\r\n"group","1","a, ""b""","20","0"\ragent,7," Ana","",']

    def test_as_the_program_does(self):
        for number, data in enumerate([*self.FILES, *((HEADER + f"station,9,,,\n{row}\n").encode() for row in self.ROWS)]):
            _, fault = self.taken(data, self.folder / f"{number}.db")
            with self.subTest(data[:80]):
                try:
                    plan.planned(self.wanted(data))
                    mine = ""
                except plan.Fault as refused:
                    mine = refused.args[0]
                self.assertEqual(mine, fault.removeprefix("acd: ").strip())

    def test_what_is_told_besides(self):
        """The line of the file, and what must be there."""
        latin = "from the blank to ~ (Mueller for Müller)"
        for data, fault, told in (("", "plan header", "line 1 must be kind,number,name,ring,wrap; the file is empty"),
                                  ("\n\nkind\n", "plan header", "line 3 must be kind,number,name,ring,wrap; it is kind"),
                                  (b"n\xfcmber\n", "plan header", "line 1 must be kind,number,name,ring,wrap; it is n\\xFCmber"),
                                  (HEADER + "\n\nstation,20a,,,\n", "plan row 1: number", "that is line 4: a station's number must be 1 to 15 digits"),
                                  (HEADER + "agent,9,Müller,,\n", "plan row 1: name", f"that is line 2: an agent's name must be 1 to 40 characters of ASCII, {latin}"),
                                  (HEADER + 'agent,1,"A\nb",,\n', "plan row 1: name", f"that is line 2: an agent's name must be 1 to 40 characters of ASCII, {latin}"),
                                  (HEADER + "agent,7,Ana,,\nagent,1234567890,A,,\n", "plan row 2: number", "that is line 3: an agent's number must be 1 to 9 digits"),
                                  (HEADER + "group,1,n,3601,0\n", "plan row 1: ring", "that is line 2: a group's ring must be 0 to 3600 seconds"),
                                  (HEADER + "station,1,n,,\n", "plan row 1: name", "that is line 2: a station's name must be empty"),
                                  (HEADER + ",,,,\n", "plan row 1: kind", "that is line 2: its kind must be group, station or agent"),
                                  (HEADER.encode() + b"agent,7,\xff,,\n", "plan row 1: fields", "that is line 2: it isn't UTF-8: save the file as UTF-8"),
                                  (HEADER + "agent;7;Ana;;\n", "plan row 1: fields", "that is line 2: a row has 5 fields, with commas between them; this one has 1")):
            with self.subTest(data):
                self.assertEqual(said("plan", "--changes", self.wanted(data), stdin=self.snapshot()), (1, "", f"acdctl plan: {fault}\nacdctl plan: {told}\n"))
        self.assertEqual(said("plan", "--changes", self.folder / "none", stdin=b""), (1, "", f"acdctl plan: cannot open {self.folder}/none\n"))


class Reached(ground.Case):
    """Logins, passwords and certificates."""

    def test_command_lines(self):
        for words in (("--send",), ("--send", "--changes", "P"), ("--send", "--from", "http://127.0.0.1"), ("--priorities", "--changes", "P"), ("--from", "desk.example"),
                      ("--from", "http://127.0.0.1", "--ca", "C"), ("--from", "http://desk.example", "--login", "lea"), ("--from", "https://x", "--login", ""), ("--ca", "C"), ("x",)):
            done = said("plan", *words)
            with self.subTest(words):
                self.assertEqual((done.status, done.out), (2, ""), done)

    def test_addresses(self):
        for text in ("http://127.0.0.1:8080", "https://desk.example:8443/north", "http://[::1]:8080"):
            self.assertEqual(reach.address(text), text)
        for text in ("desk.example", "ftp://x", "http://", "http://x:0", "http://x:99999", "http://x/?a", "http://x/#a", "http://[x", "http://lea:secret@x"):
            with self.subTest(text), self.assertRaises(reach.argparse.ArgumentTypeError) as told:
                reach.address(text)
            self.assertNotIn("secret", str(told.exception))

    def test_passwords(self):
        """Of the variable, else typed; none is on a command line."""
        address, got = self.answers({"/snapshot": EMPTY})
        with mock.patch.dict(os.environ, ACD_PASSWORD="p:ä/"):
            self.assertEqual(said("plan", "--from", address, "--login", "lea"), (0, HEADER, ""))
            parts = reach.desk_at(reach.argparse.Namespace(address="https://x:8443/north", ca=None, login="le a")).addresses[0]
            self.assertEqual((parts.netloc, parts.path), ("le%20a:p%3A%C3%A4%2F@x:8443", "/north"))
        with mock.patch("getpass.getpass", return_value="typed") as asked:
            self.assertEqual(said("plan", "--from", address, "--login", "lea").status, 0)
        asked.assert_called_once_with("Password of lea: ")
        for fault in (EOFError, reach.getpass.GetPassWarning):
            with mock.patch("getpass.getpass", side_effect=fault):
                self.assertEqual(said("plan", "--from", address, "--login", "lea"), (1, "", "acdctl plan: there is no terminal to ask for the password on, and no ACD_PASSWORD\n"))

    def test_certificates(self):
        self.assertEqual(said("plan", "--from", "https://127.0.0.1", "--ca", self.folder / "none"), (1, "", f"acdctl plan: {self.folder}/none: No such file or directory\n"))
        (self.folder / "ca").write_text("x")
        done = said("plan", "--from", "https://127.0.0.1", "--ca", self.folder / "ca")
        self.assertEqual((done.status, done.faults.startswith(f"acdctl plan: {self.folder}/ca: ")), (1, True))
        shutil.copy(ground.TOP / "tests/unit/certificates/ours/ca.crt", self.folder / "ca")
        desk = reach.desk_at(reach.argparse.Namespace(address="https://127.0.0.1", ca=str(self.folder / "ca"), login=None))
        self.assertEqual((desk.context.verify_mode, len(desk.context.get_ca_certs())), (ssl.CERT_REQUIRED, 1))

    def test_what_is_asked_again(self):
        address, got = self.answers({"/snapshot": [(502, ""), (503, ""), EMPTY]})
        with mock.patch.object(reach, "PAUSE", 0.01):
            self.assertEqual(said("plan", "--from", address), (0, HEADER, ""))
        self.assertEqual(len(got), 3)
        address, got = self.answers({"/snapshot": (403, {"error": {"code": 41, "name": "forbidden"}})})
        self.assertEqual(said("plan", "--from", address), (1, "", "acdctl plan: the desk answered 403 forbidden\n"))


if __name__ == "__main__":
    unittest.main()
