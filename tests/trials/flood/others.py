"""Others, who have a right to be answered: with a session, with a remembered password, and with one that comes anew. Each asks from an address of its
own, and each new one from another."""
import http.client
import itertools
import threading
import time
from base64 import b64encode

from trial import ANY

# how often each asks, and after how many seconds it gives up
EVERY, PATIENCE = 0.2, 20


def percentile(times, share=0.95):
    return sorted(times)[int(share * len(times))] if times else 0.0


class Others:
    """Threads that ask while they are to: each a kind, with the fields of its next request. `told` are kind, seconds and status of each answer since the
    last look."""

    def __init__(self, port, cookie, logins):
        names = itertools.cycle(logins)
        self.port, self.lock, self.told, self.runs, self.ended = port, threading.Lock(), [], threading.Event(), False
        self.kinds = {"a session": lambda: {"Cookie": f"__Host-acd={cookie}"}, "a remembered password": lambda: basic("sup"),
                      "a first right password": lambda: basic(next(names))}
        self.addresses = {"a first right password": itertools.cycle([f"127.0.8.{number}" for number in range(1, 200)])}
        self.threads = [threading.Thread(target=self.ask_on, args=(kind, f"127.0.9.{number}"), daemon=True) for number, kind in enumerate(self.kinds, 1)]
        for thread in self.threads:
            thread.start()

    def ask_on(self, kind, address):
        while not self.ended:
            self.runs.wait()
            begun = time.monotonic()
            status = self.ask(next(self.addresses[kind]) if kind in self.addresses else address, self.kinds[kind]())
            took = time.monotonic() - begun
            with self.lock:
                self.told.append((kind, took, status))
            time.sleep(max(0.0, EVERY - took))

    def ask(self, address, fields):
        """Over a connection of its own."""
        connection = http.client.HTTPSConnection("127.0.0.1", self.port, timeout=PATIENCE, context=ANY, source_address=(address, 0))
        try:
            connection.request("GET", "/who", headers=fields)
            reply = connection.getresponse()
            reply.read()
            return reply.status
        except (OSError, http.client.HTTPException) as fault:
            return type(fault).__name__
        finally:
            connection.close()

    def during(self, seconds):
        """What they are told within so many seconds."""
        with self.lock:
            self.told = []
        self.runs.set()
        time.sleep(seconds)
        with self.lock:
            return self.told

    def pause(self):
        self.runs.clear()


def basic(login):
    return {"Authorization": f"Basic {b64encode(f'{login}:secret'.encode()).decode()}"}
