"""The pictures are what docs/pictures/draw makes of their sources, and the one of a call's way shows what the program does."""
from __future__ import annotations

import csv
import json
import os
import re
import shutil
import subprocess
import tempfile
import unittest
from pathlib import Path

TOP = Path(__file__).resolve().parents[3]
PICTURES = TOP / "docs/pictures"
PROGRAM = Path(os.environ.get("ACD", TOP / "release/acd")).resolve()
PLAN = "kind,number,name,ring,wrap\ngroup,100,Billing,20,30\nstation,201,,,\nstation,202,,,\nagent,7,Ana,,\nagent,8,Ben,,\n"
AGENTS = {"ana": ("7", "201"), "ben": ("8", "202")}
# what each lane's message of the picture asks for
ASKS: dict[str, dict[str, object]] = {"arriveCall": {"caller": "0301234", "called": "100"}, "answerCall": {"call": 1}, "clearConnection": {"call": 1}, "tick": {}}


def told(source: str) -> tuple[list[str], list[tuple[str, str]]]:
    """The requests of a sequence, as lines of `acd lines`, and its events, each with its device or agent."""
    requests: list[str] = []
    events: list[tuple[str, str]] = []
    for line in source.splitlines():
        if message := re.match(r"message (\w+) desk \| (\d+) s: (\w+)(?: (ready))?", line):
            who, moment, service, requested = message.groups()
            request: dict[str, object] = {"requester": who, "invoke": len(requests) + 10, "service": service, **ASKS.get(service, {})}
            if service == "setAgentState":
                request |= {"agent": AGENTS[who][0], "requested": requested}
            elif service in ("answerCall", "clearConnection"):
                request["device"] = AGENTS[who][1]
            requests.append(f"{moment} {json.dumps(request)}")
        elif line.startswith("note desk | "):
            events += [(event, device or agent or "") for event, device, agent in re.findall(r"\b([a-z]+[A-Z]\w+|queued|diverted|delivered|established)(?: (?:at|from) (\d+)| (\d+))?", line)
                       if event not in ("newCall", "noAnswer")]
    return requests, events


class Pictures(unittest.TestCase):
    def test_each_is_drawn_of_its_source(self) -> None:
        with tempfile.TemporaryDirectory() as folder:
            for file in (PICTURES / "draw", *PICTURES.glob("*.picture")):
                shutil.copy2(file, folder)
            subprocess.run([f"{folder}/draw"], check=True)
            drawn = {file.name: file.read_text() for file in Path(folder).glob("*.svg")}
        self.assertGreater(len(drawn), 5)
        self.assertEqual(drawn, {file.name: file.read_text() for file in PICTURES.glob("*.svg")}, "run docs/pictures/draw")

    def test_each_reads_on_both_grounds(self) -> None:
        for file in PICTURES.glob("*.svg"):
            style = file.read_text().partition("<style>")[2].partition("</style>")[0]
            light, _, dark = style.partition("@media(prefers-color-scheme:dark)")
            for kind in (".ground", "text", ".line", ".tip", ".proved", ".tested", ".trusted", ".outside", ".unproved", ".plain"):
                self.assertRegex(light, rf"{re.escape(kind)}\{{[^}}]*#", file.name)
                self.assertRegex(dark, rf"{re.escape(kind)}\{{[^}}]*#", file.name)

    def test_a_call_goes_its_way(self) -> None:
        requests, events = told((PICTURES / "queue.picture").read_text())
        log_ons = [f'10 {json.dumps({"requester": who, "invoke": 1, "service": "setAgentState", "agent": agent, "requested": "loggedOn", "device": device, "group": "100"})}'
                   for who, (agent, device) in AGENTS.items()]
        with tempfile.TemporaryDirectory() as folder:
            Path(folder, "plan.csv").write_text(PLAN)
            subprocess.run([PROGRAM, "import", "--file", "desk.db", "--plan", "plan.csv"], cwd=folder, check=True, stdout=subprocess.DEVNULL)
            answers = subprocess.run([PROGRAM, "lines", "--file", "desk.db"], cwd=folder, check=True, input="\n".join([*log_ons, *requests]), stdout=subprocess.PIPE, text=True).stdout
            table = subprocess.run([PROGRAM, "export", "--file", "desk.db"], cwd=folder, check=True, stdout=subprocess.PIPE, text=True).stdout
        self.assertEqual([line[:3] for line in answers.splitlines()], ["200"] * 9)
        seen = [(row["event"], row["agent"] or row["device"]) for row in csv.DictReader(table.splitlines())][2:]
        self.assertEqual(seen, events)


if __name__ == "__main__":
    unittest.main()
