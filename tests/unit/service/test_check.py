"""Tests of acdctl check: each fault of acd.env, roles, users, board.json and nginx's configuration has its line, and nothing else has one."""
import contextlib
import datetime
import io
import json
import shutil
import sys
import tempfile
import unittest
from pathlib import Path
from unittest import mock

TOP = Path(__file__).resolve().parents[3]
SERVICE = TOP / "service"
sys.path.append(str(SERVICE))
from acd_service import check, command  # noqa: E402
from acd_service.gate import roles  # noqa: E402,F401  (what it uses warns as it is loaded)

ENV, NGINX = (SERVICE / "settings/acd.env").read_text(), (SERVICE / "nginx/nginx.conf").read_text()
# of "secret" by SHA-1, as `htpasswd -s` makes it
NOTHING = "no fault was found in acd.env, roles, users, board.json and nginx's configuration"
HASHED = "{SHA}5en6G6MezRroT3XKqkdPOmY/BfQ="
BOARD = {"title": "Hotline Nord", "language": "de", "zone": "Europe/Berlin", "limits": {"limit": 30, "long.100": 45, "title": "North"},
         "names": {"groups": {"100": "Störung"}, "agents": {"7": "Jürgen Müller"}, "stations": {"201": "Empfang"}}}


class Office(unittest.TestCase):
    """A folder of settings in which nothing is wrong, of which a test changes something."""

    @classmethod
    def setUpClass(cls):
        held = tempfile.TemporaryDirectory()
        cls.addClassCleanup(held.cleanup)
        cls.keys = Path(held.name)
        for name, folder in (("desk", "ours"), ("other", "theirs")):
            for kind in ("key", "crt"):
                shutil.copy(TOP / "tests/unit/certificates" / folder / f"desk.{kind}", cls.keys / f"{name}.{kind}")

    def setUp(self):
        held = tempfile.TemporaryDirectory()
        self.addCleanup(held.cleanup)
        self.folder, self.nginx = Path(held.name), Path(held.name) / "nginx"
        (self.folder / "desk.db").touch()
        self.put("acd.env", ENV.replace("/var/lib/acd/desk.db", f"{self.folder}/desk.db"))
        self.put("roles", "ana agent agent=7\npbx exchange\n")
        self.put("users", f"ana:{HASHED}\npbx:{HASHED}\n")
        self.put("board.json", json.dumps(BOARD))
        (self.nginx / "conf.d").mkdir(parents=True)
        (self.nginx / "sites-enabled").mkdir()
        self.proxy = NGINX.replace("/etc/acd/desk", f"{self.keys}/desk")
        self.at_ports = self.proxy.replace("unix:/run/acd/desk.sock", "127.0.0.1:8080").replace("unix:/run/acd-gate/gate.sock", "127.0.0.1:8081")
        self.put("nginx/conf.d/desk.conf", self.proxy)
        self.put("nginx/sites-enabled/default", "server { listen 80; }\n")

    def put(self, name, text):
        (self.folder / name).write_bytes(text.encode() if isinstance(text, str) else text)

    def said(self):
        """The status, and the lines."""
        with contextlib.redirect_stdout(io.StringIO()) as out, contextlib.redirect_stderr(io.StringIO()) as faults, self.assertRaises(SystemExit) as end:
            check.main(["--folder", str(self.folder), "--nginx", str(self.nginx), "--gate", str(self.folder / "gate")])
        self.assertEqual(faults.getvalue(), "")
        return end.exception.code, out.getvalue().splitlines()

    def finds(self, *wanted):
        """These lines alone, each by its end behind the name of its file."""
        status, lines = self.said()
        self.assertEqual((status, len(lines)), (1, len(wanted)), lines)
        for line, end in zip(lines, wanted):
            self.assertTrue(line.endswith(end), f"{line!r} doesn't end with {end!r}")


class Good(Office):
    def test_nothing_is_wrong(self):
        self.assertEqual(self.said(), (0, [NOTHING]))

    def test_what_may_be_missing(self):
        (self.folder / "board.json").unlink()
        self.nginx.rename(self.folder / "elsewhere")
        self.assertEqual(self.said()[0], 0)

    def test_what_is_shipped(self):
        """The examples, beside logins and a certificate."""
        self.put("roles", (SERVICE / "settings/roles").read_text())
        self.put("users", "")
        self.assertEqual(self.said()[0], 0)


class Settings(Office):
    def with_lines(self, *lines):
        self.put("acd.env", (self.folder / "acd.env").read_text() + "".join(f"{line}\n" for line in lines))

    def test_names(self):
        self.with_lines("ACD_FLIE=/srv/desk.db", "ACD_CONNECTIONS=5", "ACD-PORT=8080", "a note", "ACD_PURGE_DESK = yes\r")
        number = len(ENV.splitlines())
        self.finds(f"acd.env, line {number + 3}: must be NAME=VALUE", f"acd.env, line {number + 4}: must be NAME=VALUE",
                   "no setting is called ACD_FLIE; the nearest is ACD_FILE", "ACD_CONNECTIONS is a setting of an earlier version; remove it")

    def test_a_name_that_appears_twice(self):
        """A warning is no fault, and hides none."""
        self.with_lines("ACD_STEP=5")
        warning = f"warning: {self.folder}/acd.env, line {len(ENV.splitlines()) + 1}: ACD_STEP appears twice; the last one counts"
        self.assertEqual(self.said(), (0, [warning, NOTHING]))
        self.with_lines("ACD_STEP=0")
        self.finds("ACD_STEP appears twice; the last one counts", "ACD_STEP appears twice; the last one counts", "ACD_STEP must be a whole number from 1 to 3600, and not '0'")

    def test_values(self):
        for name, value, bounds in (("ACD_PORT", "81", "1024 to 65535"), ("ACD_GATE_PORT", "x", "1024 to 65535"), ("ACD_STEP", "5s", "1 to 3600"), ("ACD_STEP", "0", "1 to 3600"), ("ACD_PATIENCE", "61", "1 to 60"),
                                    ("ACD_COPIES", "0", "1 to 999"), ("ACD_HALT", "201", "0 to 200"), ("ACD_CARRY_DAYS", "0", "1 to 999999999"), ("ACD_TLS_PORT", "65536", "1 to 65535")):
            with self.subTest(name=name, value=value):
                self.put("acd.env", f"ACD_FILE={self.folder}/desk.db\n{name}={value}\n")
                wanted = [f"{name} must be a whole number from {bounds}, and not '{value}'"]
                status, lines = self.said()
                self.assertEqual((status, lines[0].partition(": ")[2]), (1, wanted[0]))

    def test_ports_and_places(self):
        self.put("acd.env", f"ACD_FILE={self.folder}/desk.db\nACD_LOCAL_PORTS=2379;2380\nACD_COPY_FOLDER=copies\n")
        self.finds("ACD_COPY_FOLDER must begin with /, and not be 'copies'", "ACD_LOCAL_PORTS must be ports with commas between them, and not '2379;2380'")
        self.put("acd.env", "ACD_FILE=/none/desk.db\nACD_PORT=8080\nACD_GATE_PORT=8080\nACD_GATE_SOCKET=/run/acd/desk.sock\n")
        self.put("nginx/conf.d/desk.conf", self.at_ports.replace("8081", "8080"))
        self.finds("ACD_PORT, ACD_GATE_PORT and ACD_TLS_PORT must differ", "ACD_SOCKET and ACD_GATE_SOCKET must differ", "there is no file /none/desk.db (ACD_FILE)")
        self.put("acd.env", f"ACD_FILE={self.folder}/desk.db\nACD_SOCKET=run/desk\nACD_PORT=\n")
        self.put("nginx/conf.d/desk.conf", self.proxy.replace("/run/acd/desk.sock", "run/desk"))
        self.finds("ACD_SOCKET must begin with /, and not be 'run/desk'")

    def test_without_the_file(self):
        (self.folder / "acd.env").unlink()
        self.finds("acd.env can't be read: No such file or directory")


class Logins(Office):
    def test_roles_that_the_gate_refuses(self):
        self.put("roles", "ana agent agent=7\npbx exchnge\nuwe lead groups=100;110\n")
        self.put("users", f"ana:{HASHED}\npbx:{HASHED}\nuwe:{HASHED}\n")
        self.finds("roles, line 2: pbx is refused: its role is exchnge", 'roles, line 3: uwe is refused: cannot read "groups=100;110" (separate groups by commas)')

    def test_passwords_that_are_none(self):
        self.put("users", f"ana:{HASHED}\npbx:secret\n")
        self.finds("users, line 2: pbx has no hash of htpasswd, by bcrypt, say", "roles: pbx has no line in {}, and can't log in".format(self.folder / "users"))

    def test_one_file_without_the_other(self):
        self.put("users", f"ana:{HASHED}\nben:{HASHED}\npbx:{HASHED}\n")
        self.finds(f"users: ben has no line in {self.folder}/roles, and gets nothing")

    def test_a_file_that_cannot_be_read(self):
        (self.folder / "users").unlink()
        self.finds("users can't be read: No such file or directory")
        (self.folder / "roles").unlink()
        self.finds("roles can't be read: No such file or directory", "users can't be read: No such file or directory")

    def test_nothing_is_collected_afterwards(self):
        self.said()
        with contextlib.redirect_stderr(io.StringIO()) as faults:
            command.report("here")
        self.assertTrue(faults.getvalue().endswith(": here\n"))


class OfficesLogins(Office):
    def setUp(self):
        super().setUp()
        (self.folder / "gate").mkdir()

    def test_what_the_office_may_give(self):
        self.put("roles", "ana agent agent=7\npbx exchange\nchef admin\n")
        self.put("users", f"ana:{HASHED}\npbx:{HASHED}\nchef:{HASHED}\n")
        self.put("gate/roles", "anna agent agent=12\nlena lead groups=100\n")
        self.put("gate/users", f"anna:{HASHED}:first\nlena:{HASHED}\n")
        self.put("gate/names.json", '{"agents":{"7":"Jürgen"}}')
        self.assertEqual(self.said(), (0, [NOTHING]))

    def test_what_not(self):
        self.put("gate/roles", "anna agent agent=12\neve admin\npbx supervisor\n")
        self.put("gate/users", f"anna:{HASHED}\neve:{HASHED}\npbx-1:{HASHED}\n")
        self.put("gate/names.json", "7")
        of_root = f"pbx is a login of {self.folder}/roles or {self.folder}/users, which come first"
        self.finds(f"gate/roles, line 2: eve is refused: the role admin is given by {self.folder}/roles alone", f"gate/roles, line 3: pbx is refused: {of_root}",
                   f"gate/users, line 3: pbx-1 is refused: {of_root}", "gate/names.json has no names: it must be a JSON object")


class Names(Office):
    def test_members(self):
        for changed, end in (({"titel": "x"}, "no member is called titel"), ({"zone": "Europe/Berln"}, "there is no zone Europe/Berln"), ({"zone": 3}, "zone must be a text"),
                             ({"names": []}, "names must be an object"), ({"names": {"group": {}}}, "names has groups, agents, stations, each an object, and not group"),
                             ({"names": {"agents": {"ana": "Ana"}}}, "names.agents: ana must be a number, and its name a text of 80 letters at most"),
                             ({"names": {"agents": {"7": "x" * 81}}}, "names.agents: 7 must be a number, and its name a text of 80 letters at most"),
                             ({"limits": {"limits": 3}}, "no limit is called limits"), ({"limits": {"title.100": "x"}}, "no limit is called title.100"),
                             ({"limits": {"limit": 0}}, "limits.limit must be a number above 0, up to 86400"), ({"limits": {"long.100": "x"}}, "limits.long.100 must be a number above 0, up to 86400"),
                             ({"customer": "https://crm.example/{caller}"}, "customer must be an object"),
                             ({"customer": {"address": "https://crm.example/{caller}", "tab": 1}}, "customer has address and schemes, and not tab"),
                             *(({"customer": {"address": address}}, "customer.address must be an address with {caller} in it, of https")
                               for address in ("http://crm.example/{caller}", "https://crm.example/", "javascript:alert({caller})", "//crm.example/{caller}", "https://x/{caller}" + "x" * 1000, 7)),
                             *(({"customer": {"address": "https://crm.example/{caller}", "schemes": schemes}},
                                'customer.schemes must be a list such as ["https"], without those that a browser runs') for schemes in ([], "https", ["https", "javascript"], ["data"], [7], ["HTTPS"])),
                             ({"customer": {"address": "data:text/html,{caller}", "schemes": ["http", "https"]}}, "customer.address must be an address with {caller} in it, of http or https"),
                             ({"limits": {"goal": 101}}, "limits.goal must be a number above 0, up to 100"), ({"limits": {"busy": True}}, "limits.busy must be a number above 0, up to 86400")):
            with self.subTest(changed):
                self.put("board.json", json.dumps({**BOARD, **changed}))
                self.finds(f"board.json: {end}")

    def test_lists(self):
        """Of reasons and codes; the gate and the pages leave out what is wrong here."""
        key = "must be 1 to 15 of a-z, 0-9 and hyphen, begin with a letter, and not have six digits in a row"
        for changed, end in (({"requireReason": "yes"}, "requireReason must be true or false"), ({"reasons": ["Lunch"]}, "reasons must be an object"), ({"codes": {"0301234": "x"}}, f"codes: 0301234 {key}"),
                             ({"reasons": {"a123456": "x"}}, f"reasons: a123456 {key}"), ({"reasons": {"Lunch": "x"}}, f"reasons: Lunch {key}"), ({"reasons": {"a" * 16: "x"}}, f"reasons: {'a' * 16} {key}"),
                             ({"codes": {"sale": ""}}, "codes.sale must be a text of 80 letters at most"), ({"codes": {"sale": 3}}, "codes.sale must be a text of 80 letters at most"),
                             ({"codes": {f"k{number}": "x" for number in range(41)}}, "codes has over 40 keys; the others are ignored")):
            with self.subTest(changed):
                self.put("board.json", json.dumps({**BOARD, **changed}))
                self.finds(f"board.json: {end}")
        self.put("board.json", json.dumps({**BOARD, "reasons": {"lunch": "Mittag", "a12345-6": "x"}, "codes": {}, "requireReason": True}))
        self.assertEqual(self.said(), (0, [NOTHING]))

    def test_the_webhook(self):
        example = (TOP / "service/settings/webhook.env").read_text()
        for old, new, end in (("", "", "ACD_WEBHOOK: the address of the webhook must begin with https:// and have a host"), ("ACD_WEBHOOK=", "ACD_WEBHOOK=http://elsewhere/x", "ACD_WEBHOOK: the address of the webhook must begin with https:// and have a host"),
                              ("ACD_WEBHOOK=\n", "ACD_WEBHOOK=https://x/?y=1\n", None), ("https://127.0.0.1:8443", "127.0.0.1", "ACD_WEBHOOK_DESK: '127.0.0.1' is no address as https://desk.example:8443, without a login, which --login has"),
                              ("CALLERS=no", "CALLERS=No", "ACD_WEBHOOK_CALLERS must be yes or no")):
            with self.subTest(new):
                text = example.replace(old, new, 1) if old else example
                self.put("webhook.env", text if not old or old.startswith("ACD_WEBHOOK=") else text.replace("ACD_WEBHOOK=\n", "ACD_WEBHOOK=https://x/\n"))
                if end is None:
                    self.assertEqual(self.said(), (0, [NOTHING]))
                else:
                    self.finds(f"webhook.env: {end}")

    def test_a_customers_file(self):
        for customer in ({"address": "https://crm.example/find?tel={caller}"}, {"address": "http://crm/{caller}", "schemes": ["http", "https"]}, {"address": "crm-app:{caller}", "schemes": ["crm-app"]}):
            self.put("board.json", json.dumps({**BOARD, "customer": customer}))
            self.assertEqual(self.said(), (0, [NOTHING]))

    def test_no_object(self):
        self.put("board.json", "[]")
        self.finds("board.json is not a JSON object")
        self.put("board.json", "{'title': 1}")
        self.assertIn("board.json is not JSON: ", self.said()[1][0])


class Proxy(Office):
    def test_places(self):
        for old, new, name, what in (("unix:/run/acd/desk.sock", "127.0.0.1:8080", "ACD_SOCKET", "socket /run/acd/desk.sock"), ("desk.sock", "desk.socket", "ACD_SOCKET", "socket /run/acd/desk.sock"),
                                     ("unix:/run/acd-gate/gate.sock", "127.0.0.1:8081", "ACD_GATE_SOCKET", "socket /run/acd-gate/gate.sock"),
                                     ("listen 8443 ssl", "listen 443 ssl", "ACD_TLS_PORT", "port 8443"), ("listen 8443 ssl", "listen 8443", "ACD_TLS_PORT", "port 8443")):
            with self.subTest(new):
                self.put("nginx/conf.d/desk.conf", self.proxy.replace(old, new))
                self.finds(f"desk.conf: the {what} of {name} isn't there; change it here or in {self.folder}/acd.env")

    def test_ports(self):
        """Of an office that keeps them."""
        self.put("acd.env", f"ACD_FILE={self.folder}/desk.db\nACD_PORT=8080\nACD_GATE_PORT=8081\n")
        self.put("nginx/conf.d/desk.conf", self.at_ports)
        self.assertEqual(self.said()[0], 0)
        for old, new, name, port in (("127.0.0.1:8080", "127.0.0.1:8090", "ACD_PORT", 8080), ("127.0.0.1:8081", "unix:/run/acd-gate/gate.sock", "ACD_GATE_PORT", 8081)):
            with self.subTest(new):
                self.put("nginx/conf.d/desk.conf", self.at_ports.replace(old, new))
                self.finds(f"desk.conf: the port {port} of {name} isn't there; change it here or in {self.folder}/acd.env")

    def test_a_port_in_a_note_is_none(self):
        self.put("nginx/conf.d/desk.conf", self.proxy.replace("    listen 8443 ssl", "    # listen 8443 ssl;\n    listen 443 ssl"))
        self.finds(f"desk.conf: the port 8443 of ACD_TLS_PORT isn't there; change it here or in {self.folder}/acd.env")

    def test_a_second_line_has_other_places(self):
        self.put("nginx/conf.d/north.conf", self.proxy.replace("desk.sock", "north.sock").replace("gate.sock", "north.sock").replace("8443", "9443"))
        self.assertEqual(self.said()[0], 0)

    def test_without_a_configuration_of_ours(self):
        (self.nginx / "conf.d/desk.conf").unlink()
        self.finds("nginx: no configuration asks the gate; /usr/share/doc/acd/examples/nginx.conf is one")

    def test_of_an_older_version(self):
        self.put("nginx/conf.d/desk.conf", self.proxy.replace("nginx-secret.conf", "other.conf"))
        self.finds("desk.conf is of before 1.15: nginx asks the gate for every stranger")

    def test_of_the_version_before(self):
        self.put("nginx/conf.d/desk.conf", self.proxy.replace("X-Proxy", "X-Signed"))
        self.assertEqual(self.said(), (0, [f"warning: {self.nginx}/conf.d/desk.conf is of before 1.16: nginx asks the gate twice for each request", NOTHING]))

    def test_of_the_secret_of_sessions(self):
        self.put("nginx/conf.d/desk.conf", self.proxy.replace("acd_proxy_secret", "acd_session_secret"))
        self.assertEqual(self.said(), (0, [f"warning: {self.nginx}/conf.d/desk.conf is of 1.16: nginx tells the gate the secret that signs sessions", NOTHING]))

    def test_of_before_the_offices_page(self):
        self.put("nginx/conf.d/desk.conf", self.proxy.replace("(office(/|$)|acts$|password$)", "(acts$)"))
        self.assertEqual(self.said(), (0, [f"warning: {self.nginx}/conf.d/desk.conf is of before 1.18: nginx passes on neither /office nor /password", NOTHING]))

    def test_certificates(self):
        for old, new, wanted in ((".crt", ".crte", f"{self.keys}/desk.crte can't be read: No such file or directory"), (".key", ".keys", f"{self.keys}/desk.keys can't be read: No such file or directory"),
                                 ("desk.key", "other.key", f"{self.keys}/other.key is not the key of {self.keys}/desk.crt"),
                                 ("desk.crt", "desk.key", f"{self.keys}/desk.key has no certificate that can be read"),
                                 ("    ssl_certificate_key ", "    # ", "desk.conf: needs as many ssl_certificate_key as ssl_certificate, and one at least")):
            with self.subTest(new):
                self.put("nginx/conf.d/desk.conf", self.proxy.replace(f"{self.keys}/{old}" if old.startswith("desk") else old, f"{self.keys}/{new}" if old.startswith("desk") else new))
                self.finds(wanted)

    def test_a_certificate_that_ends(self):
        end = datetime.datetime.now(datetime.timezone.utc)
        for days, word in ((13.9, "ends"), (-0.1, "ended")):
            moment = end + datetime.timedelta(days=days)
            with self.subTest(days), mock.patch.object(check.certificate, "end_of", return_value=moment):
                self.finds(f"the certificate {self.keys}/desk.crt {word} on {moment:%Y-%m-%d}; renew it, and reload nginx")
        with mock.patch.object(check.certificate, "end_of", return_value=end + datetime.timedelta(days=14.1)):
            self.assertEqual(self.said()[0], 0)


if __name__ == "__main__":
    unittest.main()
