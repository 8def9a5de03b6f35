"""The clients of an office, as many as there are threads: calls arrive and end, so many requests a second in all, each sent again until it is answered.

usage: clients.py URL RATE THREADS FILE     (until standard input ends)

FILE gets a line for each answer: requester, invoke, status, body, when it was answered."""
import json
import sys
import threading
import time
from pathlib import Path

sys.path.append(str(Path(__file__).resolve().parents[3] / "client"))
from acd_client import Client, Stopped  # noqa: E402


def work(desk, pause, lines):
    due, call = time.monotonic(), None
    while not desk.stopped.is_set():
        if call:
            request = desk.request("clearConnection", call=call, device="0301234")
        else:
            request = desk.request("arriveCall", caller="0301234", called="900")
        try:
            answer = desk.insist(request)
        except Stopped:
            return
        body = json.dumps(answer.body, separators=(",", ":"), sort_keys=True)
        lines.append([request["requester"], request["invoke"], answer.status, body, time.time()])
        call = None if call else answer.result.get("call")
        due = max(due + pause, time.monotonic() - 1)
        desk.stopped.wait(max(0, due - time.monotonic()))


def main():
    url, rate, threads, file = sys.argv[1], float(sys.argv[2]), int(sys.argv[3]), sys.argv[4]
    # each has another patience, so that they don't all ask again at the same moments
    desks, lines = [Client(url, wait=0.2 + 0.05 * number, pause=0.05) for number in range(threads)], []
    started = [threading.Thread(target=work, args=(desk, threads / rate, lines)) for desk in desks]
    for one in started:
        one.start()
    sys.stdin.read()
    for desk in desks:
        desk.stop()
    for one in started:
        one.join()
    Path(file).write_text("".join(f"{json.dumps(line)}\n" for line in lines))


if __name__ == "__main__":
    main()
