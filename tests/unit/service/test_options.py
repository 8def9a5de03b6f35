"""The manual pages and the completion of acdctl: each has the options of its command, and no other."""
import os
import re
import shutil
import subprocess
import tempfile
import unittest
from pathlib import Path

import service_ground as ground

TOP = Path(__file__).resolve().parents[3]
SERVICE = TOP / "service"
OLD_PAGES = {"acd-calls.1", "acd-plan.1", "acd-trail.1", "acd-export.1", "acd-ready.8", "acd-tick.8", "acd-gate.8", "acd-copy.8", "acd-carry.8", "acd-follow.8", "acd-forget.8",
             "acd-local.8", "acd-node.8", "acd-certificate.8"}


def told(*words, **how):
    return subprocess.run(words, stdout=subprocess.PIPE, text=True, check=True, timeout=60, **how).stdout


def options_of(*words, by="acdctl"):
    """The long options that --help names."""
    return set(re.findall(r"^  (?:-h, )?(--[\w-]+)", ground.said(*words, "--help", by=by).out, re.MULTILINE))


class Made(unittest.TestCase):
    @classmethod
    def setUpClass(cls):
        held = tempfile.TemporaryDirectory()
        cls.addClassCleanup(held.cleanup)
        cls.folder = Path(held.name)
        told("/usr/bin/python3", "-B", SERVICE / "man/make", cls.folder, env={**os.environ, "PYTHONPATH": f"{SERVICE}:{TOP / 'client'}"})
        cls.names = re.findall(r"^  ([a-z]+)  ", ground.said("--help").out, re.MULTILINE)
        cls.wanted = {f"acdctl {name}": options_of(name) for name in cls.names}
        cls.wanted |= {link.name: options_of(by=link.name) for link in (SERVICE / "bin").glob("acd-*")}

    def completed(self, *words):
        """What the completion offers for the last word."""
        typed = ('compopt() { :; }; complete() { :; }; source "$0"; COMP_WORDS=("$@"); COMP_CWORD=$(($# - 1)); _acdctl; printf "%s\\n" "${COMPREPLY[@]}"')
        return set(told("bash", "-c", typed, self.folder / "acdctl", *words).split())

    def test_pages_have_the_options_of_their_commands(self):
        for name in self.names:
            text = (self.folder / f"man8/acdctl-{name}.8").read_text().replace("\\-", "-")
            section = text.partition(".SH OPTIONS\n")[2].partition("\n.SH ")[0]
            heads = re.findall(r"^\.TP\n(.*)$", section, re.MULTILINE)
            with self.subTest(name):
                self.assertEqual({option for head in heads for option in re.findall(r"--[\w-]+", head)}, self.wanted[f"acdctl {name}"])

    def test_a_page_for_each_command_and_each_old_name(self):
        found = {page.name for page in self.folder.glob("man*/*")}
        self.assertEqual(found, {"acdctl.8", *(f"acdctl-{name}.8" for name in self.names), *OLD_PAGES})
        for name in OLD_PAGES:
            link = re.fullmatch(r"\.so (man8/acdctl-[a-z]+\.8)\n", (self.folder / f"man{name[-1]}" / name).read_text())
            self.assertTrue((self.folder / link[1]).is_file())
        self.assertEqual((self.folder / "man8/acd-carry.8").read_text(), ".so man8/acdctl-prune.8\n")

    def test_the_page_of_all_names_each(self):
        text = (self.folder / "man8/acdctl.8").read_text().replace("\\-", "-")
        self.assertEqual(re.findall(r"^\.BR acdctl-([a-z]+) \(8\)$", text.partition(".SH COMMANDS\n")[2].partition(".SH ")[0], re.MULTILINE), self.names)

    def test_pages_know_the_new_words(self):
        """Of the old names only those that units, users and groups have too."""
        for page in self.folder.glob("man8/acdctl-*.8"):
            text = page.read_text().replace("\\-", "-")
            named = re.sub(r"systemctl \w+ acd-\w+|edit acd-\w+|journalctl -u acd-\w+|acd-\w+\.(timer|service)|/acd-\w+|adduser ana acd-local|sg acd-local|group acd-gate|acd-node-upkeep|acd-records", "", text)
            named = re.sub(r"root, the users acd, acd-gate, acd-exchange.*\n\.BR acd-local \.", "", named)
            with self.subTest(page.name):
                self.assertEqual(re.findall(r"(?<![\w./])acd-\w+", named), [])

    @unittest.skipUnless(shutil.which("groff"), "there is no groff (Debian package groff-base)")
    def test_groff_takes_them(self):
        for page in sorted(self.folder.glob("man8/acdctl*.8")):
            with self.subTest(page.name):
                done = subprocess.run(["groff", "-man", "-Tutf8", "-ww", "-z", page], capture_output=True, text=True, timeout=60)
                self.assertEqual((done.returncode, done.stderr), (0, ""))

    def test_commands_are_completed(self):
        self.assertEqual(self.completed("acdctl", ""), {*self.names, "--help", "--version"})
        self.assertEqual(self.completed("acdctl", "re"), {"ready", "records", "restore"})
        self.assertEqual(self.completed("acdctl", "none", ""), set())

    def test_options_are_completed(self):
        for name, wanted in self.wanted.items():
            with self.subTest(name):
                self.assertEqual(self.completed(*name.split(), ""), wanted)
        self.assertEqual(self.completed("/usr/bin/acd-plan", "--s"), {"--send"})

    def test_after_an_option_of_a_file_names_are_offered_and_after_others_nothing(self):
        file = f"{SERVICE}/settings/acd.env"
        for words, offered in ((("acdctl", "calls", "--file"), {file}), (("acd-trail", "--archive"), {file}), (("acdctl", "prune", "--days"), set()), (("acdctl", "records", "--copies"), {file}),
                               (("acdctl", "trail", "--since"), set()), (("acdctl", "gate", "--port"), set())):
            with self.subTest(words):
                self.assertEqual(self.completed(*words, file[:-1]), offered)


if __name__ == "__main__":
    unittest.main()
