"""What try-standby stands on: two machines and an office, each with a network of its own, the address that is moved between the two, and what runs on them."""
import json
import os
import re
import signal
import sqlite3
import subprocess
import sys
import time
from pathlib import Path

from trial import TOP

OPERATING, CLIENT, BENCH = TOP / "service/bin", TOP / "client", TOP / "bench"

# that of Debian, which the scripts are run by
PYTHON = "/usr/bin/python3"
PORT, DOOR = 8080, 8443
# up to so many requests a file is a day's, and sound
DAY = 16000
NAME, OFFICE = "10.0.0.100", "10.0.0.3"
NGINX = """daemon off; user root; pid {folder}/nginx.pid; error_log {folder}/nginx.log; worker_processes 1;
events {{ worker_connections 512; }}
http {{
    access_log off; client_body_temp_path {folder}/body; proxy_temp_path {folder}/proxy;
    fastcgi_temp_path {folder}/f; uwsgi_temp_path {folder}/u; scgi_temp_path {folder}/s;
    server {{
        listen {door} ssl; listen 80;
        ssl_certificate {crt}; ssl_certificate_key {key};
        location / {{ proxy_pass http://127.0.0.1:{port}; proxy_connect_timeout 1s; }}
        location = /requests {{ proxy_pass http://127.0.0.1:{port}; proxy_connect_timeout 1s; access_log {folder}/asked; }}
    }}
}}
"""
# sends an ARP reply that nobody asked for: who has the address from now on
ARP = """import socket, sys
address, own = socket.inet_aton(sys.argv[1]), bytes.fromhex(open("/sys/class/net/eth0/address").read().strip().replace(":", ""))
sock = socket.socket(socket.AF_PACKET, socket.SOCK_RAW)
sock.bind(("eth0", 0x0806))
for _ in range(3):
    sock.send(b"\\xff" * 6 + own + b"\\x08\\x06" + b"\\0\\1\\x08\\0\\6\\4\\0\\2" + own + address + b"\\xff" * 6 + address)
"""
# passes lines to the desk's program, and writes down when each was answered
NOTING = """#!/usr/bin/python3
import json, subprocess, sys, time
desk = subprocess.Popen([{program!r}, *sys.argv[1:]], stdin=subprocess.PIPE, stdout=subprocess.PIPE)
with open({notes!r}, "a", buffering=1) as notes:
    for line in sys.stdin.buffer:
        desk.stdin.write(line)
        desk.stdin.flush()
        answer = desk.stdout.readline()
        if not answer:
            sys.exit(desk.wait())
        if b" GET " not in line:
            request = json.loads(line.partition(b" ")[2])
            notes.write(f"{{request['requester']}} {{request['invoke']}} {{time.time()}}\\n")
        sys.stdout.buffer.write(answer)
        sys.stdout.flush()
desk.stdin.close()
sys.exit(desk.wait())
"""


def run(*words, **how):
    return subprocess.run([*map(str, words)], check=True, capture_output=True, text=True, **how).stdout


def processes_in(name):
    return [int(word) for word in run("ip", "netns", "pids", name).split()]


class Network:
    """A bridge with a name space for each machine."""

    def __init__(self, names):
        # names of networks lie in /run, which nobody else sees
        run("mount", "-t", "tmpfs", "run", "/run")
        run("ip", "link", "add", "bridge", "type", "bridge")
        run("ip", "link", "set", "bridge", "up")
        for name, address in names.items():
            run("ip", "netns", "add", name)
            run("ip", "link", "add", f"{name}-port", "type", "veth", "peer", "name", "eth0", "netns", name)
            run("ip", "link", "set", f"{name}-port", "master", "bridge", "up")
            for words in (("link", "set", "lo", "up"), ("address", "add", f"{address}/24", "dev", "eth0"), ("link", "set", "eth0", "up")):
                run("ip", "-n", name, *words)


class Machine:
    """A machine with a desk, the proxy before it, and acd-follow."""

    def __init__(self, ground, name, address):
        self.ground, self.name, self.address, self.folder = ground, name, address, ground.folder / name
        self.folder.mkdir()
        self.file, self.said = self.folder / "desk.db", self.folder / "said"
        (self.folder / "nginx.conf").write_text(NGINX.format(folder=self.folder, door=DOOR, port=PORT, crt=ground.crt, key=ground.key))

    def start(self, *words, **how):
        started = subprocess.Popen(["ip", "netns", "exec", self.name, *map(str, words)], env=self.ground.settings(), text=True, **how)
        self.ground.started.append(started)
        return started

    def power_on(self):
        """With its own address alone."""
        run("ip", "-n", self.name, "address", "flush", "dev", "eth0")
        run("ip", "-n", self.name, "address", "add", f"{self.address}/24", "dev", "eth0")
        run("ip", "-n", self.name, "link", "set", "eth0", "up")

    def start_proxy(self):
        self.proxy = self.start("nginx", "-e", self.folder / "nginx.log", "-c", self.folder / "nginx.conf")

    def start_desk(self, program=None):
        """How many seconds it took to open the file and to listen."""
        begun = time.monotonic()
        self.desk = self.start(program or self.ground.program, "serve", "--file", self.file, "--port", PORT, "--endless", stdout=subprocess.PIPE)
        if not self.desk.stdout.readline().startswith("listening"):
            raise ValueError(f"{self.name}: no desk serves")
        return time.monotonic() - begun

    def last(self):
        """The number of the last request that its desk has."""
        return json.loads(run("ip", "netns", "exec", self.name, "curl", "-s", f"http://127.0.0.1:{PORT}/requests?after=999999999999999"))["last"]

    def asked(self):
        """Behind which requests its proxy was asked for more, one page after the other."""
        asked = self.folder / "asked"
        return [int(number) for number in re.findall(r"GET /requests\?after=(\d+) ", asked.read_text() if asked.exists() else "")]

    def start_ticks(self):
        self.ticks = self.start(PYTHON, OPERATING / "acd-tick", "--step", "2", "--file", self.file, stderr=subprocess.DEVNULL)

    def follow(self, address, program):
        with open(self.said, "w") as said:
            words = [PYTHON, OPERATING / "acd-follow", f"https://{address}:{DOOR}", "--ca", self.ground.crt, "--file", self.file, "--desk", program]
            self.follower = self.start(*words, stdout=said, stderr=subprocess.STDOUT)

    def end_following(self):
        """What acd-follow says at its end: up to which request the copy has them, which was the last that it was told of; and how many seconds that took."""
        begun = time.monotonic()
        self.follower.terminate()
        self.follower.wait(60)
        took, said = time.monotonic() - begun, self.said.read_text()
        found = re.search(r"has the requests up to (\d+); the last that the desk told of is (\d+), at", said)
        if not found:
            raise ValueError(f"acd-follow said: {said}")
        return int(found[1]), int(found[2]), took

    def take_address(self):
        run("ip", "-n", self.name, "address", "add", f"{NAME}/24", "dev", "eth0")
        run("ip", "netns", "exec", self.name, sys.executable, "-c", ARP, NAME)

    def leave_address(self):
        run("ip", "-n", self.name, "address", "del", f"{NAME}/24", "dev", "eth0")

    def power_off(self):
        """Its network is gone, and all that ran."""
        run("ip", "-n", self.name, "link", "set", "eth0", "down")
        for process in processes_in(self.name):
            os.kill(process, signal.SIGKILL)

    def stop_desk(self):
        self.desk.terminate()
        self.desk.wait()


class Office:
    """The clients, which know one address; what they were answered, and when."""

    def __init__(self, ground, rate, threads=8):
        self.ground, self.file = ground, ground.folder / "answers"
        words = [PYTHON, Path(__file__).parent / "clients.py", f"http://{NAME}", str(rate), str(threads), self.file]
        self.process = subprocess.Popen(["ip", "netns", "exec", "office", *map(str, words)], stdin=subprocess.PIPE, env=ground.settings())
        ground.started.append(self.process)

    def stop(self):
        """Lists of requester, invoke, status, body, and when it was answered."""
        self.process.stdin.close()
        self.process.wait(120)
        return [json.loads(line) for line in self.file.read_text().splitlines()]


def grown(file, program, count):
    """A file with so many kept requests and their events: a day of bench/busy.py, then the same ones under other keys, as often as that takes."""
    given = run(sys.executable, BENCH / "busy.py", min(count, DAY), "--plan", "small")
    subprocess.run([program, "lines", "--file", file], input=given, stdout=subprocess.DEVNULL, text=True, check=True)
    book = sqlite3.connect(file, isolation_level=None)
    book.execute("PRAGMA journal_mode = DELETE")
    book.execute("BEGIN")
    kept, events = (book.execute(f"SELECT * FROM {table}").fetchall() for table in ("kept", "events"))
    last, moment, last_event = book.execute("SELECT last_stamp, last_moment, last_event FROM meta").fetchone()
    turn = 0
    while last < count:
        turn += 1
        some = kept[:count - last]
        book.executemany("INSERT INTO kept VALUES (?, ?, ?, ?, ?, ?, ?)", (again(row, turn, last, moment) for row in some))
        book.executemany("INSERT INTO events VALUES (?, ?, ?, ?, ?, ?, ?, ?, ?, ?)", ((row[0] + last_event, moment, *row[2:]) for row in events))
        last, last_event = last + len(some), last_event + len(events)
    book.execute("UPDATE meta SET last_stamp = ?, last_event = ?", (last, last_event))
    book.execute("COMMIT")
    book.close()


def again(row, turn, last, moment):
    stamp, requester, invoke, _, request, status, body = row
    old, new = f'"requester":"{requester}"', f'"requester":"{requester}-{turn}"'
    return stamp + last, f"{requester}-{turn}", invoke, moment, request.replace(old, new), status, body.replace(old, new)
