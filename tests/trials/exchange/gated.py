"""The desk by its gate, over TLS: an exchange that may not go that way says why, and goes on once it may."""
from __future__ import annotations

import subprocess
import time
from pathlib import Path

from ground import Ground
from trial import Trial, until

expect = Trial.expect


def run(folder: Path, program: Path, base: int) -> None:
    with Ground(folder, program, base, gate=True) as ground:
        right = dict(ground.reached_by)
        expect("by the gate a phone's agent is logged on", ground.key("201", "*221*100"), 200)
        requesters = {request["request"]["requester"].rpartition("-")[0] for request in (ground.client.requests() or {"requests": []})["requests"]}
        expect("whose requests the desk has", "pbx" in requesters)
        subprocess.run(["openssl", "req", "-x509", "-newkey", "rsa:2048", "-nodes", "-subj", "/CN=other", "-keyout", "other.key", "-out", "other.crt"],
                       cwd=folder, check=True, capture_output=True)
        cases = {"another authority": ({"EXCHANGE_CA": str(folder / "other.crt")}, "the desk's certificate isn't trusted: "),
                 "no authority of its own": ({"EXCHANGE_CA": ""}, "the desk's certificate isn't trusted: "),
                 "a wrong password": ({"EXCHANGE_PASSWORD": "wrong"}, "the desk's gate refuses the login of EXCHANGE_DESK with the password of EXCHANGE_PASSWORD (401)"),
                 "a login that isn't there": ({"EXCHANGE_DESK": right["EXCHANGE_DESK"].replace("pbx@", "nobody@")}, "the desk's gate refuses the login"),
                 "another machine's name": ({"EXCHANGE_DESK": right["EXCHANGE_DESK"].replace("127.0.0.1", "localhost")}, "the desk's certificate isn't trusted: ")}
        for what, (change, wanted) in cases.items():
            ground.end(ground.exchange)
            ground.reached_by = {**right, **change}
            before = len(ground.said("exchange"))
            exchange = ground.start_alone()
            until(lambda: wanted in ground.said("exchange")[before:], 10)
            time.sleep(3)
            told = ground.said("exchange")[before:]
            expect(f"{what}: {told!r}", (told.count(wanted), "following" in told, exchange.poll()), (1, False, None))
            ground.end(exchange)
        ground.reached_by = right
        ground.exchange = ground.start_exchange()
        expect("with the right ones it goes on", ground.key("201", "*24"), 200)
        ground.end(ground.exchange)
