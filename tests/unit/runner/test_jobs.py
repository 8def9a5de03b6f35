"""How ./test ends jobs with all that they started, and what it does where a machine lacks something."""
from __future__ import annotations

import contextlib
import io
import os
import signal
import subprocess
import tempfile
import time
import unittest
from pathlib import Path
from unittest import mock

from runner import __main__ as command
from runner import counts, packages, parts
from runner.jobs import LEASH, PYTHON, TOP, Job, Jobs
from trial import leash
from trial.pace import slowness

# a program whose grandchild leaves its session and its parent, and notes who it is
AWAY = """import os, pathlib, sys, time
if not os.fork():
    os.setsid()
    if not os.fork():
        pathlib.Path(sys.argv[1]).write_text(str(os.getpid()))
        time.sleep(600)
    os._exit(0)
os.wait()
while not os.path.exists(sys.argv[1]):
    time.sleep(0.01)
time.sleep(float(sys.argv[2]))
"""


def is_alive(process: int) -> bool:
    try:
        state = Path(f"/proc/{process}/stat").read_text().rpartition(")")[2].split()[0]
    except OSError:
        return False
    return state != "Z"


def descendants(process: int) -> dict[int, str]:
    """The processes below one, each with its words."""
    parent_of, found = leash.parents(), [process]
    for each in found:
        found += [child for child, parent in parent_of.items() if parent == each]
    words = {}
    for each in found[1:]:
        with contextlib.suppress(OSError):
            words[each] = Path(f"/proc/{each}/cmdline").read_text().replace("\0", " ")
    return words


class Ends(unittest.TestCase):
    def setUp(self) -> None:
        self.folder = Path(self.enterContext(tempfile.TemporaryDirectory()))
        self.note = self.folder / "away"

    def words(self, seconds: float) -> tuple[str, ...]:
        return PYTHON, "-c", AWAY, str(self.note), str(seconds)

    def away(self) -> int:
        end = time.monotonic() + 600
        while not self.note.exists() or not self.note.read_text():
            self.assertLess(time.monotonic(), end)
            time.sleep(0.01)
        return int(self.note.read_text())

    def test_what_is_left_by_a_program_that_ended(self) -> None:
        self.assertEqual(subprocess.run([*LEASH, *self.words(0)]).returncode, 0)
        self.assertFalse(is_alive(self.away()))

    def test_status(self) -> None:
        for words, status in ((("true",), 0), (("sh", "-c", "exit 75"), 75), (("sh", "-c", "kill -9 $$"), 137)):
            self.assertEqual(subprocess.run([*LEASH, *words]).returncode, status)

    def test_by_a_signal(self) -> None:
        for number in (signal.SIGTERM, signal.SIGINT, signal.SIGHUP):
            with self.subTest(number=number):
                self.note.unlink(missing_ok=True)
                process = subprocess.Popen([*LEASH, *self.words(600)])
                away, began = self.away(), time.monotonic()
                process.send_signal(number)
                process.wait(600)
                took = time.monotonic() - began
                self.assertFalse(is_alive(away))
                self.assertLess(took, 5 * slowness())

    def test_one_that_ignores_it(self) -> None:
        ready = self.folder / "ready"
        process = subprocess.Popen([*LEASH, "sh", "-c", f"trap '' TERM; : > {ready}; while :; do sleep 1; done"])
        while not ready.exists():
            time.sleep(0.01)
        process.terminate()
        self.assertEqual(process.wait(600), 128 + signal.SIGTERM)

    def test_a_job_that_takes_too_long(self) -> None:
        ended = Jobs.ended

        def late(process: subprocess.Popen[bytes], end: float) -> float | None:
            """Its time isn't over before all that it starts is there."""
            self.away()
            return ended(process, end)

        with mock.patch.object(Jobs, "ended", staticmethod(late)), Jobs() as jobs:
            outcome = jobs.run(Job("slow", self.words(600), counts.of_status, longest=1))
        self.assertEqual(outcome.count.failed, ("it took longer than 1 seconds",))
        self.assertFalse(is_alive(self.away()))

    def test_jobs_that_run_when_the_block_ends(self) -> None:
        class Stopped(Exception):
            pass

        with self.assertRaises(Stopped), Jobs() as jobs:
            for _ in jobs.run_all([Job("quick", ("true",), counts.of_status), Job("slow", self.words(600), counts.of_status)]):
                away = self.away()
                raise Stopped
        self.assertFalse(is_alive(away))


class Command(unittest.TestCase):
    def test_a_signal(self) -> None:
        """./test ends within five seconds, with what it has started."""
        for number in (signal.SIGTERM, signal.SIGINT):
            process = subprocess.Popen([TOP / "test", "--only", "python", "trial trail"], stdout=subprocess.DEVNULL, stderr=subprocess.PIPE, start_new_session=True, text=True)
            end = time.monotonic() + 600
            while not (started := descendants(process.pid)) or not any("try-trail" in words for words in started.values()):
                self.assertLess(time.monotonic(), end)
                time.sleep(0.05)
            began = time.monotonic()
            process.send_signal(number)
            faults = process.communicate(timeout=600)[1]
            took = time.monotonic() - began
            with self.subTest(number=number):
                self.assertLess(took, 5 * slowness())
                self.assertEqual((process.returncode, faults), (128 + number, ""))
                self.assertEqual([words for each, words in started.items() if is_alive(each)], [])


class Lacks(unittest.TestCase):
    """`./test --only python` with one job, on machines that lack packages."""

    def ended(self, *words: str, lacked: set[str] = frozenset(), status: int = 0) -> tuple[int | str | None, list[str]]:  # type: ignore[assignment]
        file = TOP / "tests/unit/gate/test_passwords.py"
        jobs = [Job("gate", ("sh", "-c", f"exit {status}"), counts.of_status, ("python3-bcrypt",), lambda: parts.cases_in((str(file),))), Job("other", ("true",), counts.of_status)]
        with mock.patch.object(packages, "is_there", lambda package: package not in lacked), mock.patch.object(parts, "unit", lambda *_: jobs), \
                mock.patch.object(parts, "trials", lambda *_: []), mock.patch.object(parts, "lint", lambda: []), mock.patch.object(parts, "types", lambda: []), \
                mock.patch("sys.argv", ["./test", "--only", "python", *words]), mock.patch.object(signal, "signal"), mock.patch.dict(os.environ), \
                contextlib.redirect_stdout(io.StringIO()) as said, self.assertRaises(SystemExit) as ended:
            command.main()
        return ended.exception.code, said.getvalue().splitlines()

    def test_nothing(self) -> None:
        self.assertEqual((self.ended()[0], self.ended()[1][-1]), (0, "2 passed, 0 failed"))

    def test_a_failure(self) -> None:
        status, said = self.ended(status=3)
        self.assertEqual((status, said[-1]), (1, "1 passed, 1 failed"))
        self.assertIn("gate: failed: status 3", said)

    def test_a_package(self) -> None:
        status, said = self.ended(lacked={"python3-bcrypt"})
        self.assertEqual((status, said[-1]), (75, "1 passed, 0 failed"))
        cases = parts.cases_in((str(TOP / "tests/unit/gate/test_passwords.py"),))
        self.assertGreater(cases, 10)
        self.assertIn(f"gate: left out ({cases} cases), for want of python3-bcrypt", said)
        self.assertIn("missing Debian packages: python3-bcrypt. As root: apt-get install --no-install-recommends python3-bcrypt", said)

    def test_coroutines_are_cases_too(self) -> None:
        with tempfile.NamedTemporaryFile("w", suffix=".py") as file:
            file.write("class One:\n    def test_a(self): pass\n    async def test_b(self): pass\n    async def other(self): pass\n    def try_c(self): pass\n")
            file.flush()
            self.assertEqual(parts.cases_in((file.name,)), 3)

    def test_a_package_that_may_be_missing(self) -> None:
        with tempfile.NamedTemporaryFile("w") as allowed:
            allowed.write("# a note\nnginx-light\npython3-bcrypt   # another\n")
            allowed.flush()
            self.assertEqual(self.ended("--may-lack", allowed.name, lacked={"python3-bcrypt"})[0], 0)
            self.assertEqual(self.ended("--may-lack", allowed.name, lacked={"python3-bcrypt"}, status=1)[0], 0)
        with tempfile.NamedTemporaryFile("w") as allowed:
            allowed.write("nginx-light\n")
            allowed.flush()
            self.assertEqual(self.ended("--may-lack", allowed.name, lacked={"python3-bcrypt"})[0], 75)

    def test_a_helper_without_which_nothing_is_left_out(self) -> None:
        self.assertEqual(self.ended(lacked={"python3-pytest"})[0], 0)

    def test_the_gate_may_lack_nothing_that_unit_tests_need(self) -> None:
        needed = {package for those in parts.UNIT_PACKAGES.values() for package in those}
        self.assertEqual(command.may_lack(TOP / ".ci/may-lack") & needed, set())
        self.assertLessEqual(needed, {"python3-aiohttp", "python3-bcrypt", "python3-passlib"})
        self.assertLessEqual(command.may_lack(TOP / ".ci/may-lack"), {*packages.KNOWN_BY, *packages.CONDITIONS})

    def test_each_package_is_known(self) -> None:
        trials = [*parts.trials(Path(), parts.OF_THE_PROGRAM), *parts.trials(Path(), parts.OF_THE_SERVICE), *parts.trials(Path(), parts.BY_HAND)]
        for job in [*trials, *parts.unit(Path()), *parts.lint(), *parts.types()]:
            self.assertLessEqual(set(job.packages), {*packages.KNOWN_BY, *packages.CONDITIONS}, job.name)

    def test_install(self) -> None:
        """What comes first is got by itself; no question can be asked, and apt-get has an end."""
        with mock.patch.object(packages, "run_apt") as run, mock.patch.object(os, "geteuid", lambda: 0):
            packages.install(["nginx-light", "python3-bcrypt"], ["python3-bcrypt", "openssl"])
        self.assertEqual([call.args[-1] for call in run.call_args_list], ["update", "python3-bcrypt", "nginx-light"])
        with mock.patch.object(subprocess, "run") as run:
            packages.run_apt("update")
        words, options = run.call_args.args[0], run.call_args.kwargs
        self.assertEqual((words[0], options["stdin"], options["env"]["DEBIAN_FRONTEND"]), ("timeout", subprocess.DEVNULL, "noninteractive"))


class Lint(unittest.TestCase):
    @unittest.skipIf(packages.missing(["flake8"]), "it needs flake8")
    def test_a_fault(self) -> None:
        file = Path(self.enterContext(tempfile.TemporaryDirectory())) / "bad.py"
        for text, status in (("import os\n", 1), ("print()\n", 0)):
            file.write_text(text)
            [job] = parts.lint()
            end = job.words.index("1") + 1      # of the options
            self.assertEqual(subprocess.run([*job.words[:end], str(file)], stdout=subprocess.DEVNULL, check=False).returncode, status)


class Chosen(unittest.TestCase):
    def test_each_folder_has_its_packages(self) -> None:
        self.assertEqual({file.relative_to(TOP / parts.UNIT).parts[0] for file in (TOP / parts.UNIT).rglob("test_*.py")}, set(parts.UNIT_PACKAGES))

    def test_words(self) -> None:
        def names(*words: str) -> list[str]:
            return [job.name for job in command.tests(["program", "python"], Path("/bin/true"), list(words))]

        self.assertEqual(names("unit/node", "unit/gate"), ["tests/unit/gate 1 of 2", "tests/unit/gate 2 of 2", "tests/unit/node"])
        self.assertEqual((names("lint", "trial docs"), names("test_status"), names("no such job")), (["trial docs", "lint"], ["tests/unit/service/test_status.py"], []))
        self.assertLess({"types", "trial sizes", "trial rules", "tests/unit/client/test_client.py", "tests/unit/runner"}, set(names()))

    def test_each_file_of_unit_tests_is_run_once_and_has_tests(self) -> None:
        run = [word for job in parts.unit(Path("/bin/true")) for word in job.words if word.endswith(".py") and "/test_" in word]
        self.assertEqual(sorted(run), sorted(map(str, parts.unit_files())))
        self.assertEqual([file for file in run if not parts.cases_in((file,))], [])

    def test_cases_of_trials(self) -> None:
        """Each part of a trial has cases, so that what is left out is counted."""
        for job in [*parts.trials(Path("/bin/true"), parts.OF_THE_PROGRAM), *parts.trials(Path("/bin/true"), parts.OF_THE_SERVICE),
                    *(job for job in parts.trials(Path("/bin/true"), parts.BY_HAND) if job.name != "trial board")]:
            with self.subTest(job=job.name):
                self.assertGreater(job.cases(), 0)


if __name__ == "__main__":
    unittest.main()
