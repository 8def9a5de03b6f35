"""acdctl local: the table that nft is given, when it is given it anew, and what is said where it isn't taken."""
import contextlib
import grp
import os
import pwd
import shutil
import signal
import subprocess
import sys
import time
import unittest
from unittest import mock

import service_ground as ground
from acd_service import local, settings

USERS = {"root": 0, "acd": 101, "www-data": 33, "ana": 1000, "ben": 1001}
# as the script in shell gave it to nft, before 1.15
TABLE = """\
table inet acd
delete table inet acd
table inet acd {{
    chain output {{
        type filter hook output priority filter; policy accept;
        oifname "lo" tcp dport {{ {ports} }} tcp flags & (syn | ack) == syn meta skuid != {{ {users} }}{group} counter reject with tcp reset
        oifname "lo" tcp sport {{ {ports} }} meta skuid != {{ {users} }}{group} counter drop
    }}
}}
"""
REMOVED = "table inet acd\ndelete table inet acd\n"


class WithNft(ground.Case):
    """nft is a stand-in that keeps what it is given in a file each, and fails as long as the file `refuses` is there; so are the machine's users and groups."""

    def setUp(self):
        super().setUp()
        self.program("nft", f"""cd {self.folder}
[ "$1" != list ] || exec test -e table
number=$(ls given.* 2>/dev/null | wc -l)
cat >given.$number
[ ! -e refuses ] || exit 1
touch table""")
        self.members = ["ana", "gone"]
        self.enterContext(mock.patch.object(pwd, "getpwnam", lambda name: mock.Mock(pw_uid=USERS[name])))
        self.enterContext(mock.patch.object(grp, "getgrnam", lambda name: mock.Mock(gr_gid={"acd-local": 950}[name], gr_mem=self.members)))

    def given(self):
        return [file.read_text() for file in sorted(self.folder.glob("given.*"))]


class Loads(WithNft):
    def test_the_table(self):
        """Of the users that there are, of the group and its members; each port once."""
        self.assertEqual(ground.said("local", "--ports", "8080,443 8081,8080,"), (0, "", ""))
        self.assertEqual(self.given(), [TABLE.format(ports="443,8080,8081", users="0,33,101,1000", group=" meta skgid != 950")])

    def test_a_machine_without_the_group(self):
        with mock.patch.object(grp, "getgrnam", side_effect=KeyError):
            self.assertEqual(ground.said("local"), (0, "", ""))
        self.assertEqual(self.given(), [TABLE.format(ports="2379,2380,8080,8081", users="0,33,101", group="")])

    def test_it_is_taken_away(self):
        self.assertEqual(ground.said("local", "--remove"), (0, "", ""))
        self.assertEqual(self.given(), [REMOVED])

    def test_whether_there_is_nft(self):
        self.assertEqual(ground.said("local", "--find"), (0, "", ""))
        self.assertEqual(self.given(), [])

    def test_whether_there_is_a_port(self):
        """Of a unit's settings without a value nothing is left but commas: then a table of before goes. What is no port is told by the other commands."""
        self.assertEqual(ground.said("local", "--find", "--ports", ",8081,"), (0, "", ""))
        self.assertEqual(ground.said("local", "--find", "--ports", "80x,,"), (0, "", ""))
        self.assertEqual(ground.said("local", "--find", "--ports", ",,"), (1, "", ""))
        self.assertEqual(self.given(), [])
        (self.folder / "table").touch()
        self.assertEqual(ground.said("local", "--find", "--ports", ",,"), (1, "", ""))
        self.assertEqual(self.given(), [REMOVED])
        (self.bin / "nft").unlink()
        with mock.patch.dict(os.environ, {"PATH": str(self.bin)}):
            self.assertEqual(ground.said("local", "--find", "--ports", ",,"), (1, "", ""))

    def test_the_last_word_counts(self):
        self.assertEqual(ground.said("local", "--remove", "--find").status, 0)
        self.assertEqual(self.given(), [])

    @unittest.skipUnless(os.geteuid() == 0 and shutil.which("unshare") and shutil.which("nft", path="/usr/sbin"), "there is no root, or no nft (Debian package nftables)")
    def test_nft_takes_it(self):
        """The true one, in a name space of its own."""
        shell = f"{ground.SERVICE}/bin/acdctl local --ports 8080 && nft list table inet acd && {ground.SERVICE}/bin/acdctl local --remove && nft list ruleset"
        done = subprocess.run(["unshare", "--net", "sh", "-c", shell], capture_output=True, text=True, env={**os.environ, "PATH": "/usr/sbin:/usr/bin:/sbin:/bin"})
        self.assertEqual((done.returncode, done.stderr), (0, ""))
        self.assertIn("dport 8080", done.stdout)
        self.assertTrue(done.stdout.endswith("\n}\n"), done.stdout)


class Faults(WithNft):
    def test_words(self):
        """In one line, by the old name as by the new one."""
        cases = ((["--ports", "0"], "the port '0' isn't a whole number from 1 to 65535"), (["--ports", "80,65536"], "the port '65536' isn't a whole number from 1 to 65535"),
                 (["--ports", "8080;"], "the port '8080;' isn't a whole number from 1 to 65535"), (["--ports", "08"], "the port '08' isn't a whole number from 1 to 65535"),
                 (["--ports", ""], "there is no port to keep"), (["--ports", ",,", "--watch"], "there is no port to keep"), (["--other"], "no such option: --other"), (["a b"], "no such option: a b"))
        for words, text in cases:
            with self.subTest(words):
                self.assertEqual(ground.said("local", *words), (2, "", f"acdctl local: {text}\n"))
                self.assertEqual(ground.said(*words, by="acd-local"), (2, "", f"acd-local: {text}\n"))
        self.assertEqual(ground.said("--ports", by="acd-local"), (2, "", "acd-local: --ports needs a value\n"))
        self.assertEqual(ground.said("local", "--ports"), (2, "", "acdctl local: argument --ports: expected one argument\n"))
        self.assertEqual(self.given(), [])

    def test_nft_refuses(self):
        (self.folder / "refuses").touch()
        self.refused(["local"], 1, "every user of this machine may reach the desk's ports: nft didn't load the table")
        self.refused(["local", "--remove"], 1, "nft didn't take the table away")

    def test_no_nft(self):
        (self.bin / "nft").unlink()
        with mock.patch.dict(os.environ, {"PATH": str(self.bin)}):
            for words in ([], ["--find"], ["--watch"], ["--remove"]):
                self.refused(["local", *words], 1, "every user of this machine reaches the desk's ports, and may ask for everything: there is no nft .install nftables.")
            self.assertFalse(local.is_there())

    def test_priorities(self):
        """The journal gets them, as of every command."""
        self.program("nft", "exit 1")
        with open(self.folder / "journal", "w") as journal:
            at = os.fstat(journal.fileno())
            subprocess.run([ground.SERVICE / "bin/acdctl", "local"], stderr=journal, env={**os.environ, "JOURNAL_STREAM": f"{at.st_dev}:{at.st_ino}"})
        self.assertEqual((self.folder / "journal").read_text(), "<3>acdctl local: every user of this machine may reach the desk's ports: nft didn't load the table\n")


class Watches(WithNft):
    """Each sleep is a turn, in which a step happens; none takes time."""

    def setUp(self):
        super().setUp()
        self.settings, self.accounts = self.folder / "acd.env", self.folder / "passwd"
        self.settings.touch()
        self.accounts.touch()
        self.enterContext(mock.patch.object(settings, "FILE", self.settings))
        self.enterContext(mock.patch.object(local, "ACCOUNTS", (str(self.accounts), str(self.folder / "none"))))
        self.enterContext(mock.patch.object(local, "started", lambda: int(time.time()) + 3600))

    def watched(self, *steps):
        """What came of a watch, with how often nft was given a table by the end of each turn; at its end the settings change."""
        left, loads = [*steps, lambda: self.settings.write_text("ACD_PORT=8090\n")], []

        def turn(seconds):
            self.assertEqual(seconds, 3)
            loads.append(len(self.given()))
            left.pop(0)()

        with mock.patch.object(time, "sleep", turn):
            return ground.said("local", "--watch"), loads

    def test_it_ends_where_the_settings_change(self):
        done, loads = self.watched(lambda: None, lambda: None)
        self.assertEqual((done, loads), ((0, f"{self.settings} has changed: the ports are looked up anew\n", ""), [1, 1, 1]))

    def test_accounts_that_change(self):
        def joins():
            self.members.append("ben")
            self.accounts.write_text("ben\n")

        self.assertEqual(self.watched(joins, lambda: None)[1], [1, 2, 2])
        self.assertIn("0,33,101,1000,1001", self.given()[-1])

    def test_a_table_that_is_gone(self):
        self.assertEqual(self.watched((self.folder / "table").unlink, lambda: None)[1], [1, 2, 2])

    def test_a_table_that_isnt_taken(self):
        def refuses():
            (self.folder / "refuses").touch()
            (self.folder / "table").unlink()

        done, loads = self.watched(refuses)
        self.assertEqual((done.status, loads), (1, [1]))

    def test_no_settings(self):
        self.settings.unlink()
        self.assertEqual(self.watched(lambda: None)[1], [1, 1])

    def test_settings_of_after_its_start(self):
        """Then its ports may be older. A moment that is yet to come says nothing."""
        at = int(os.stat(self.settings).st_ctime)
        for started, now, loads in ((at, at, []), (at - 5, at + 5, []), (at + 1, at + 5, [1]), (at - 5, at - 1, [1])):
            with self.subTest(started=started - at, now=now - at), mock.patch.object(local, "started", lambda: started), mock.patch.object(time, "time", lambda: now):
                for file in self.folder.glob("given.*"):
                    file.unlink()
                done, found = self.watched()
                self.assertEqual((done.status, found), (0, loads))
                with contextlib.suppress(FileNotFoundError):
                    (self.folder / "table").unlink()


class Processes(ground.Case):
    def test_when_it_was_started(self):
        """Also where it took a while until it looks."""
        before = int(time.time())
        code = "import time; from acd_service import local; time.sleep(2.5); print(local.started())"
        with subprocess.Popen([sys.executable, "-B", "-c", code], cwd=ground.SERVICE, stdout=subprocess.PIPE, text=True) as process:
            after = int(time.time())
            self.assertIn(int(process.communicate()[0]), range(before - 1, after + 1))

    def test_signals_end_it_as_they_end_a_script(self):
        """systemd tells a stop from an end by that."""
        self.program("nft", "touch $(dirname $0)/loaded")
        for one in (signal.SIGTERM, signal.SIGINT):
            with self.subTest(one), subprocess.Popen([ground.SERVICE / "bin/acdctl", "local", "--watch"], stderr=subprocess.PIPE) as process:
                ground.until((self.bin / "loaded").exists)
                process.send_signal(one)
                self.assertEqual((process.wait(), process.stderr.read()), (-one, b""))
                (self.bin / "loaded").unlink(missing_ok=True)


if __name__ == "__main__":
    unittest.main()
