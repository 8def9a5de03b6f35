#!/usr/bin/python3
"""Times the snapshot of a full plan, read in lines: 64 groups, 1,000 stations, 1,000 agents who are logged on and ready, 1,800 calls.

usage: bench/snapshot.py [PROGRAM] [--reads N]     (default: release/acd, 100 reads)

Beside it stands how long Python's own json takes to write the same text again from its values, and by how much the desk's memory grows."""
import argparse
import json
import subprocess
import time


def requests():
    """The lines that make the office."""
    asked = [(0, {"service": "addGroup", "device": str(9000 + n), "name": f"Group {n}", "ring": 20, "wrap": 30}) for n in range(64)]
    asked += [(0, {"service": "addStation", "device": str(20000 + n)}) for n in range(1000)]
    asked += [(0, {"service": "addAgent", "agent": str(50000 + n), "name": f"Agent {n}"}) for n in range(1000)]
    log_on = {"service": "setAgentState", "requested": "loggedOn"}
    asked += [(5, {**log_on, "agent": str(50000 + n), "device": str(20000 + n), "group": str(9000 + n % 64)}) for n in range(1000)]
    asked += [(6, {"service": "setAgentState", "requested": "ready", "agent": str(50000 + n)}) for n in range(1000)]
    asked += [(10, {"service": "arriveCall", "caller": f"0301{n:05}", "called": str(9000 + n % 64)}) for n in range(1800)]
    for invoke, (moment, members) in enumerate(asked, 1):
        yield f"{moment} {json.dumps({'requester': 'bench', 'invoke': invoke, **members})}\n".encode()


def memory(desk):
    """What the desk holds, in kilobytes."""
    with open(f"/proc/{desk.pid}/status") as it:
        return next(int(line.split()[1]) for line in it if line.startswith("VmRSS"))


def timed(work, many):
    """The middle of so many times, in milliseconds, and what was made last."""
    times = []
    for _ in range(many):
        start = time.perf_counter()
        made = work()
        times.append((time.perf_counter() - start) * 1000)
    return sorted(times)[many // 2], made


def main():
    parser = argparse.ArgumentParser()
    parser.add_argument("program", nargs="?", default="release/acd")
    parser.add_argument("--reads", type=int, default=100)
    options = parser.parse_args()
    with subprocess.Popen([options.program, "lines", "--reads"], stdin=subprocess.PIPE, stdout=subprocess.PIPE) as desk:
        def ask(line):
            desk.stdin.write(line)
            desk.stdin.flush()
            return desk.stdout.readline()

        refused = [answer for answer in map(ask, requests()) if not answer.startswith(b"200 ")]
        before = memory(desk)
        middle, answer = timed(lambda: ask(b"0 GET /snapshot\n"), options.reads)
        text, grown = answer[len(b"200 "):].rstrip(b"\n"), memory(desk) - before
        desk.stdin.close()
    values = json.loads(text)
    assert not refused and [len(values[name]) for name in ("groups", "stations", "agents", "calls")] == [64, 1000, 1000, 1800], refused[:1]
    ordinary, written = timed(lambda: json.dumps(values, separators=(",", ":")).encode(), options.reads)
    assert written == text
    print(f"a snapshot of {len(text)} bytes: {middle:.2f} ms, json.dumps of its values {ordinary:.2f} ms, ratio {middle / ordinary:.2f}; the desk grew by {grown} kB")


if __name__ == "__main__":
    main()
