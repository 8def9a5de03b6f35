"""The lines of docs/REFERENCE.md that make the units of a second help line out of the package's: no unit of the second one has a file, a port or a folder of the first."""
import re
import subprocess
import tempfile
import unittest
from pathlib import Path

from sections import section

TOP = Path(__file__).resolve().parents[3]
LINES = section((TOP / "docs/REFERENCE.md").read_text(), "A second help line")


class SecondLine(unittest.TestCase):
    def units(self):
        """The texts of its units, by their names."""
        loop = re.search(r"^    for unit in .*?^    done$", LINES, re.MULTILINE | re.DOTALL)[0]
        with tempfile.TemporaryDirectory() as folder:
            lines = loop.replace("/lib/systemd/system/", f"{TOP}/service/units/").replace("/etc/systemd/system/", f"{folder}/")
            subprocess.run(["sh", "-ec", lines], check=True)
            return {unit.stem: unit.read_text() for unit in Path(folder).iterdir()}

    def made(self, pattern, files):
        """What the section's lines that match make of these files, by their places below a folder."""
        lines = re.search(pattern, LINES, re.MULTILINE | re.DOTALL)[0]
        with tempfile.TemporaryDirectory() as folder:
            for place, text in files.items():
                Path(folder, place).parent.mkdir(parents=True, exist_ok=True)
                Path(folder, place).write_text(text)
            subprocess.run(["sh", "-ec", re.sub("(?<= )/etc/(acd|nginx)", rf"{folder}/etc/\1", lines)], check=True)
            return {str(file.relative_to(folder)): file.read_text() for file in Path(folder).rglob("north*")}

    def test_its_places(self):
        """Whether the first line has sockets or ports."""
        env, nginx = (TOP / "service/settings/acd.env").read_text(), (TOP / "service/nginx/nginx.conf").read_text()
        at_ports = nginx.replace("unix:/run/acd/desk.sock", "127.0.0.1:8080").replace("unix:/run/acd-gate/gate.sock", "127.0.0.1:8081")
        for settings, proxy in ((env, nginx), (f"{env}ACD_PORT=8080\nACD_GATE_PORT=8081\nACD_LOCAL_PORTS=2379,2380\n", at_ports)):
            made = self.made(r"^    sed 's#/var/lib/acd/#.*?north\.env\n.*?north\.env\n", {"etc/acd/acd.env": settings})["etc/acd/north.env"]
            found = [line for line in made.splitlines() if re.match("ACD_[A-Z_]*(PORT|PORTS|SOCKET)=", line)]
            self.assertEqual(found, ["ACD_TLS_PORT=8443", "ACD_SOCKET=/run/acd/north.sock", "ACD_GATE_SOCKET=/run/acd-gate/north.sock"])
            self.assertIn("ACD_FILE=/var/lib/acd/north/desk.db\n", made)
            made = self.made(r"^    sed -E '.*?north\.conf\n", {"etc/nginx/conf.d/desk.conf": proxy})["etc/nginx/conf.d/north.conf"]
            self.assertEqual(re.findall(r"^    server (\S+) |^    listen (\d+)", made, re.MULTILINE), [("unix:/run/acd/north.sock", ""), ("unix:/run/acd-gate/north.sock", ""), ("", "8453")])

    def test_nothing_is_of_the_first_line(self):
        units = self.units()
        self.assertEqual(set(units), {f"acd{part}-north" for part in ("", "-gate", "-copy", "-records")})
        for name, text in units.items():
            said = "\n".join(line for line in text.splitlines() if not line.startswith(("#", "InaccessiblePaths=")))
            with self.subTest(name):
                self.assertNotRegex(said, r"/etc/acd/(acd\.env|roles|users)\b")
                self.assertNotRegex(said, r"/var/lib/acd-(records|gate)(?!-north)")
                self.assertEqual(set(re.findall(r"^StateDirectory=(.*)$", said, re.MULTILINE)) & {"acd-records", "acd-gate"}, set())

    def test_each_reads_its_own_settings(self):
        for name, text in self.units().items():
            with self.subTest(name):
                self.assertIn("EnvironmentFile=/etc/acd/north.env", text.replace("EnvironmentFile=-", "EnvironmentFile="))

    def test_the_gate_reads_the_line_of_its_own_copies(self):
        units = self.units()
        self.assertRegex(units["acd-copy-north"], r"(?m)^ExecStart=.* --tell /run/acd/north-copy$")
        self.assertRegex(units["acd-gate-north"], r"(?m)^ExecStart=.* --copy /run/acd/north-copy( |$)")

    def test_records_come_into_a_folder_of_their_own(self):
        self.assertRegex(self.units()["acd-records-north"], r"(?m)^ExecStart=/usr/bin/acdctl records --copies \$\{ACD_COPY_FOLDER\} /var/lib/acd-records-north$")

    def test_its_standby_leaves_the_first_line_alone(self):
        words = re.search(r"`(sed '[^`]*' /lib/systemd/system/acd-follow\.service)`", LINES)[1]
        made = subprocess.run(["sh", "-ec", words.replace("/lib/systemd/system/", f"{TOP}/service/units/")], stdout=subprocess.PIPE, text=True, check=True).stdout
        found = [line for line in made.splitlines() if line.startswith(("Conflicts=", "Before=", "EnvironmentFile="))]
        self.assertEqual(found, ["Conflicts=acd-north.service", "Before=acd-north.service", "EnvironmentFile=-/etc/acd/north.env", "EnvironmentFile=/etc/acd/north-follow.env"])


if __name__ == "__main__":
    unittest.main()
