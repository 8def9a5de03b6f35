#!/usr/bin/python3
"""Tests of the gate's passwords: which are right, who waits for a check, what is counted.   usage: tests/unit/gate/test_passwords.py

Needs python3-aiohttp, python3-passlib and python3-bcrypt (Debian packages)."""
import contextlib
import io
import socket
import threading
import time
import unittest
from base64 import b64encode
from unittest import mock

import bcrypt
from standing import PATIENCE, SECRET, USERS, DoorTest, basic

from acd_service.gate import passwords
from trial import until


# of "sésame öffne dich" by htpasswd with each of its options, and by its -B of the letter x, 72 times
BY_HTPASSWD = {"-B": "$2y$05$zrfGueII0CbeBmJ0MjVHueZ7T2rD/ymt1KVyY0IQdhmT8CnuI.CDO", "-m": "$apr1$/uZqoHTb$ur8Jz8w1/h4e4Y2B.O.5/0", "-s": "{SHA}LFmXm2tzl4PUaUbLEjQaIA5RdwA=",
               "-2": "$5$123Zd4m.V8mGw6iU$yFOHQKWwOYX38BNZZM3jdvQNJ4G3BfTuivRUIWP2YQC",
               "-5": "$6$ky5pj/Y5Rt73g7tZ$gPE.FiGHhYFcaCc8OqepsGFlCgnLxqIl29Ee5zfRVBvfNf5z0ZF7tXoG/Rva.GQoQIu2pLBJe3EgUkbi3GQ/i0"}
OF_72 = "$2y$05$hQ6G4QCK3xt2fTB6R8GhEOvV6ZBPg.oE.U5MKy.nY0VS3BmurhGSG"


class PasswordTest(DoorTest):
    def test_right_and_wrong(self):
        self.assertEqual(self.auth(basic("ana")), self.RIGHT)
        self.assertEqual(self.auth(b"bAsIc  " + basic("ana")[6:]), self.RIGHT)
        for login, password in (("ana", "Secret"), ("ana", ""), ("ana", SECRET), ("ben", "secret"), ("", "secret"), ("Ana", "secret"), ("ana ", "secret"), (" ana", "secret")):
            self.assertEqual(self.auth(basic(login, password)), self.WRONG, (login, password))
        status, reply_fields, body = self.exchange("GET", "/auth", None, {})
        self.assertEqual((status, reply_fields["www-authenticate"], body), (401, 'Basic realm="desk", charset="UTF-8"', b""))

    def test_odd_fields(self):
        right = basic("ana")[6:]
        for odd in (b"", b"Basic", b"Basic ", b"Bearer " + right, b"Basic " + right[:-2], b"Basic =" + right, b"Basic " + right + b"====", b"Basic " + right.replace(b"Y", b"\xff"), b"Basic a b",
                    b"Basic " + b64encode(b"ana"), b"Basic " + right + b",Basic " + right, b"Digest username=ana", b"Basic\t" + right):
            for _ in range(12):
                self.assertEqual(self.auth(odd), self.WRONG, odd)
        self.assertEqual(self.auth(basic("ana")), self.RIGHT)  # none of these was a wrong password

    def test_odd_names_and_passwords(self):
        odd = [("ana\0", "secret"), ("ana", "secret\0"), ("ana", "secret:"), ("ana", b"\xff\xfe"), (b"\xff", "secret"), (b"J\xfcrgen", "secret"), ("ana\r\nX-Login: pbx", "secret"), ("a" * 40000, "secret"),
               ("ana", "s" * 40000)]
        for login, password in odd:
            self.assertEqual(self.auth(basic(login, password), address="odd"), self.WRONG, (login[:9], password[:9]))
        self.assertEqual(self.auth(basic("ana", "s" * 100_000), address="odd")[0], 431)
        self.assertEqual(self.auth(basic("Jürgen")), (204, "Jürgen".encode().decode("latin-1"), None))
        self.users.write_text(f"ana:{SECRET}\nJ\ufffdrgen:{SECRET}\n x:{SECRET}\n:{SECRET}\n")
        with contextlib.redirect_stderr(io.StringIO()):
            for login in (b"J\xfcrgen", "J\ufffdrgen", " x", "x", ""):
                self.assertEqual(self.auth(basic(login), address="odd"), self.WRONG)

    def test_ten_wrong_ones(self):
        looked = self.looks()
        for number in range(10):
            self.assertEqual(self.auth(basic("ana", f"guess{number}")), self.WRONG)
        for password in ("guess", "secret"):  # the right one too
            self.assertEqual(self.auth(basic("ana", password)), self.TOO_MANY)
        self.assertEqual(len(looked), 10)
        self.assertEqual(self.auth(basic("ana"), address="192.0.2.2"), self.RIGHT)
        self.assertEqual(self.auth(basic("pbx")), (204, "pbx", None))
        self.now += 59.9
        self.assertEqual(self.auth(basic("ben", "guess")), self.WRONG)
        self.assertEqual(self.auth(basic("ana", "guess")), self.TOO_MANY)
        self.now += 0.1
        self.assertEqual(self.auth(basic("ana")), self.RIGHT)

    def test_wrong_ones_beside_a_remembered_one(self):
        self.assertEqual(self.auth(basic("ana")), self.RIGHT)
        for _ in range(10):
            self.assertEqual(self.auth(basic("ana", "guess")), self.WRONG)
        self.assertEqual(self.auth(basic("ana", "guess")), self.TOO_MANY)
        for _ in range(3):  # as long as it is used
            self.assertEqual(self.auth(basic("ana")), self.RIGHT)
            self.now += 40
            for _ in range(10):
                self.auth(basic("ana", "guess"))
        self.assertEqual(self.auth(basic("ana"), address="192.0.2.2"), self.RIGHT)
        self.now += 60
        for _ in range(10):
            self.auth(basic("ana", "guess"))
        self.assertEqual(self.auth(basic("ana")), self.TOO_MANY)
        self.assertEqual(self.auth(basic("ana"), address="192.0.2.2"), self.RIGHT)

    def test_unknown_names_are_counted_too(self):
        looked = self.looks()
        for _ in range(10):
            self.assertEqual(self.auth(basic("eve", "guess")), self.WRONG)
        self.assertEqual((self.auth(basic("eve", "guess")), len(looked)), (self.TOO_MANY, 10))

    def test_address_and_login_are_distinguished(self):
        for _ in range(10):
            self.auth(basic("1ana", "guess"), address="192.0.2.")
        self.assertEqual(self.auth(basic("ana"), address="192.0.2.1"), self.RIGHT)

    def test_a_hundred_guesses_at_once(self):
        looked, answers, fits = self.looks(), [], self.gate.passwords.fits
        self.gate.passwords.fits = lambda hashes, attempt: time.sleep(0.02) or fits(hashes, attempt)
        guesses = [threading.Thread(target=lambda number=number: answers.append(self.auth(basic("ana", f"guess{number}")))) for number in range(100)]
        for guess in guesses:
            guess.start()
        for guess in guesses:
            guess.join()
        self.assertEqual((len(looked), answers.count(self.WRONG), answers.count(self.TOO_MANY)), (10, 10, 90))

    def test_a_right_one_is_remembered_for_a_minute(self):
        looked = self.looks()
        for _ in range(20):
            self.assertEqual(self.auth(basic("ana")), self.RIGHT)
        self.assertEqual(looked, [b"ana"])
        for _ in range(3):  # a minute after it was used last
            self.now += 59
            self.auth(basic("ana"))
            self.assertEqual(looked, [b"ana"])
        self.now += 60
        self.auth(basic("ana"))
        self.assertEqual(looked, [b"ana"] * 2)
        self.assertNotIn("secret", repr(vars(self.gate.passwords)))
        self.assertNotEqual(*(passwords.Passwords(self.gate.users).digest(b"given", b"ana:secret") for _ in range(2)))

    def test_a_changed_password_counts_at_once(self):
        self.assertEqual(self.auth(basic("ana")), self.RIGHT)
        self.users.write_text(USERS.replace(f"ana:{SECRET}", f"ana:{bcrypt.hashpw(b'other', bcrypt.gensalt(5)).decode()}"))
        self.assertEqual((self.auth(basic("ana")), self.auth(basic("ana", "other"))), (self.WRONG, self.RIGHT))
        self.users.write_text(USERS.replace(f"ana:{SECRET}\n", ""))
        self.assertEqual(self.auth(basic("ana", "other")), self.WRONG)

    def test_a_users_file_that_disappears(self):
        self.assertEqual(self.auth(basic("ana")), self.RIGHT)
        with contextlib.redirect_stderr(io.StringIO()) as printed:
            self.users.unlink()
            self.assertEqual([self.auth(basic("ana")) for _ in range(3)], [self.WRONG] * 3)
            self.users.write_text(USERS)
            self.assertEqual(self.auth(basic("ana")), self.RIGHT)
        self.assertEqual(printed.getvalue(), f"acd-gate: {self.users} can't be read: No such file or directory\n" + "acd-gate: refused, wrong password: ana at 192.0.2.1\n" * 3)

    def test_forms(self):
        for option, hashed in BY_HTPASSWD.items():
            self.users.write_text(f"ana:{hashed}\n")
            self.assertEqual((self.auth(basic("ana", "sésame öffne dich")), self.auth(basic("ana", "sésame öffne"))), (self.RIGHT, self.WRONG), option)
        # of bcrypt the first 72 bytes count
        self.users.write_text(f"ana:{OF_72}\n")
        self.assertEqual((self.auth(basic("ana", "x" * 71)), self.auth(basic("ana", "x" * 73))), (self.WRONG, self.RIGHT))

    def test_room_for_those_who_wait(self):
        """Twenty of an address, 200 in all; then the address with most gives one up, so that the first of another has room."""
        self.gate.passwords.turns = passwords.Turns(1)
        ends, looked = self.blocked()
        self.meanwhile("first", address="192.0.2.100")
        self.assertTrue(until(lambda: looked == [b"first"], PATIENCE))
        many = [self.meanwhile(f"x{number}") for number in range(30)]
        self.waits(20)
        self.assertTrue(until(lambda: sum(answers == [self.TOO_MANY] for answers in many) == 10, PATIENCE))
        for address in range(2, 11):
            many += [self.meanwhile(f"y{number}", address=f"192.0.2.{address}") for number in range(20)]
            self.waits(20 * address)
        right = self.meanwhile("ana", "secret", "192.0.2.99")
        self.assertTrue(until(lambda: sum(answers == [self.TOO_MANY] for answers in many) == 11, PATIENCE))
        self.waits(200)
        self.assertEqual(right, [])
        ends.release(1000)
        self.assertTrue(until(lambda: right == [self.RIGHT], PATIENCE), right)
        # behind the first of each of the ten addresses
        self.assertEqual(looked.index(b"ana"), 11)
        self.waits(0)

    def test_addresses_take_turns(self):
        self.gate.passwords.turns = passwords.Turns(1)
        ends, looked = self.blocked()
        self.meanwhile("under-way", address="192.0.2.1")
        self.assertTrue(until(lambda: looked == [b"under-way"], PATIENCE))
        order = [("a1", "192.0.2.1"), ("a2", "192.0.2.1"), ("a3", "192.0.2.1"), ("b1", "192.0.2.2"), ("b2", "192.0.2.2"), ("c1", "2001:db8:0:1::1"), ("c2", "2001:db8:0:1:ffff::2"), ("d1", "2001:db8:0:2::1"),
                 ("b3", "::ffff:192.0.2.2")]
        for count, (login, address) in enumerate(order, 1):
            self.meanwhile(login, address=address)
            self.waits(count)
        ends.release(3)
        self.assertTrue(until(lambda: len(looked) == 4, PATIENCE))
        self.meanwhile("e1", address="192.0.2.5")
        self.waits(7)
        ends.release(1000)
        self.waits(0)
        self.assertTrue(until(lambda: len(looked) == 11, PATIENCE))
        # who comes anew waits for nobody but those who are under way
        self.assertEqual(looked[1:], [b"b1", b"c1", b"d1", b"e1", b"a1", b"b2", b"c2", b"a2", b"b3", b"a3"])

    def test_an_address_without_guesses_goes_first(self):
        self.gate.passwords.turns = passwords.Turns(1)
        self.assertEqual([self.auth(basic("x", "guess"), "192.0.2.2"), self.auth(basic("ana"), "192.0.2.1")], [self.WRONG, self.RIGHT])
        ends, looked = self.blocked()
        self.meanwhile("under-way", address="192.0.2.3")
        self.assertTrue(until(lambda: looked == [b"under-way"], PATIENCE))
        for count, (login, address) in enumerate([("b1", "192.0.2.2"), ("a1", "192.0.2.1")], 1):
            self.meanwhile(login, "secret", address)
            self.waits(count)
        ends.release(1000)
        self.assertTrue(until(lambda: len(looked) == 3, PATIENCE))
        self.assertEqual(looked[1:], [b"a1", b"b1"])

    def test_nobody_known_waits(self):
        """A session and a remembered password, of an address of which as many wait as there may."""
        self.assertEqual(self.auth(basic("pbx")), (204, "pbx", None))
        token = self.log_in("ana")[1]["set-cookie"].partition(";")[0]
        self.blocked()
        for number in range(20 + passwords.AT_ONCE):
            self.meanwhile(f"x{number}")
        self.waits(20)
        self.assertEqual(self.auth(basic("pbx")), (204, "pbx", None))
        self.assertEqual(self.auth(None, Cookie=token), self.RIGHT)
        self.assertEqual(self.auth(basic("sup")), self.TOO_MANY)
        self.assertEqual([self.log_in("sup", **fields)[0] for fields in ({}, {"Accept": "text/html"})], [429, 303])
        self.assertEqual(self.log_in("sup", Accept="text/html")[1]["location"], "/board/login/?wait")
        self.waits(20)  # still

    def test_who_has_left_is_not_judged(self):
        ends, looked = self.blocked()
        for number in range(passwords.AT_ONCE):
            self.meanwhile(f"first{number}", address=f"192.0.2.{number}")
        self.assertTrue(until(lambda: len(looked) == passwords.AT_ONCE, PATIENCE))
        asked = [(b"GET /auth", b""), (b"POST /login", b"login=ana&password=guess")]
        for line, body in asked:
            with socket.create_connection(("127.0.0.1", self.port)) as connection:
                connection.sendall(line + b" HTTP/1.1\r\nX-Address: 192.0.2.77\r\nX-Signed: yes\r\nAuthorization: %s\r\nContent-Length: %d\r\n\r\n%s" % (basic("ana", "guess"), len(body), body))
                self.waits(1 + asked.index((line, body)))
        stays = self.meanwhile("ana", "secret", "192.0.2.77")
        self.waits(3)
        ends.release(1000)
        self.assertTrue(until(lambda: stays == [self.RIGHT], PATIENCE))
        self.assertEqual(looked[passwords.AT_ONCE:], [b"ana"])
        self.assertEqual(self.gate.passwords.wrong.keys() & {self.gate.passwords.digest(b"pair", b"192.0.2.77\0ana")}, set())

    def test_a_login_at_which_many_guess_is_told(self):
        with contextlib.redirect_stderr(io.StringIO()) as printed:
            for _ in range(2):
                for login in ("ana", "eve"):  # whom nobody knows
                    for number in range(110):
                        self.auth(basic(login, "guess"), address=f"192.0.2.{number}")
                self.now += 3600
        told = [line for line in printed.getvalue().splitlines() if "refus" not in line]
        self.assertEqual(told, ["acd-gate: ana: over 100 wrong passwords within an hour"] * 2)

    def test_an_unknown_name_takes_as_long(self):
        self.users.write_text(f"ana:{bcrypt.hashpw(b'secret', bcrypt.gensalt(8)).decode()}\n")
        self.auth(basic("ana", "guess"))

        def seconds(login):
            start = time.thread_time()
            self.gate.passwords.fits(self.gate.users.now(), passwords.Attempt(login, b"guess", b"", b""))
            return time.thread_time() - start

        known, unknown = (min(seconds(login) for _ in range(5)) for login in (b"ana", b"eve"))
        self.assertLess(abs(known - unknown), 0.5 * known)

    def test_what_is_counted_is_bounded(self):
        for name in ("MOST_PAIRS", "MOST_KNOWN"):
            self.enterContext(mock.patch.object(passwords, name, 50))
        judged = self.gate.passwords
        for number in range(200):
            self.assertEqual(self.standing.do(judged.judge(b"192.0.2.%d" % number, b"x%d" % number * 1000, b"guess")), passwords.WRONG)
        self.assertEqual((len(judged.wrong), len(judged.turns.last), len(judged.checked), judged.guesses), (50, 50, 0, {}))
        self.assertLess(max(map(len, judged.wrong)), 65)
        self.now += 61
        for number in range(40):
            self.standing.do(judged.judge(b"192.0.2.1", b"y%d" % number, b"guess"))
        self.assertEqual(len(judged.wrong), 50)  # each new one in place of an old one


if __name__ == "__main__":
    unittest.main()
