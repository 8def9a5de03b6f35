"""Messages, addresses and bodies."""
from __future__ import annotations

import unittest

from bridge import sdp
from bridge.message import Message
from exchange_bench import body

HEAD = ("INVITE sip:100@x SIP/2.0\r\nv: SIP/2.0/UDP a;branch=z9hG4bK1, SIP/2.0/UDP b;branch=z2\r\nf: \"A, \\\"B\\\"\" <sip:1@x;tag=no>;tag=yes\r\n"
        "t: <sip:100@x>\r\ni: id\r\nCSeq: 1 INVITE\r\nRoute: <sip:r1;lr>,\r\n  <sip:r2;lr>\r\n")


class Messages(unittest.TestCase):
    def test_reading(self) -> None:
        message = Message.read(HEAD + "l: 3\r\n\r\nabcd")
        self.assertEqual(message.all("via"), ["SIP/2.0/UDP a;branch=z9hG4bK1", "SIP/2.0/UDP b;branch=z2"])
        self.assertEqual(message.all("route"), ["<sip:r1;lr>", "<sip:r2;lr>"])
        self.assertEqual((message.transaction, message.method, message.cseq, message.uri.text, message.body),
                         ("z9hG4bK1 a INVITE", "INVITE", 1, "sip:100@x", "abc"))
        self.assertEqual((message.tag("from"), message.first_of("from").display), ("yes", 'A, "B"'))
        fields = [each for each in message.fields if each[0] != "content-length"]
        self.assertEqual(Message.read(message.text()).fields, fields + [("content-length", "3")])

    def test_what_is_no_message(self) -> None:
        for text in ("", "\r\n\r\n", HEAD, "NOTHING\r\n\r\n", HEAD + "no colon\r\n\r\n", HEAD + "\xffx: 1\r\n\r\n",
                     HEAD + "l: 9\r\n\r\nabc", HEAD + "l: -1\r\n\r\n",
                     HEAD + "A: b\nc\r\n\r\n",
                     HEAD.replace("CSeq: 1 INVITE", "CSeq: x INVITE") + "\r\n", HEAD.replace("CSeq: 1 INVITE", "CSeq: 1 BYE") + "\r\n",
                     HEAD.replace("i: id", "i:") + "\r\n", HEAD.replace("SIP/2.0\r", "SIP/3.0\r", 1) + "\r\n",
                     HEAD.replace("INVITE sip", "SIP/2.0 700 sip") + "\r\n"):
            with self.assertRaises(ValueError, msg=text):
                Message.read(text)

    def test_a_response(self) -> None:
        request = Message.read(HEAD + "Record-Route: <sip:e;lr>\r\n\r\n")
        answer = request.answer(200, "mine", [("contact", "<sip:c>")], "v=0\r\n")
        self.assertEqual((answer.first, answer.status, answer.get("to"), answer.all("via"), answer.all("record-route")),
                         ("SIP/2.0 200 OK", 200, "<sip:100@x>;tag=mine", request.all("via"), ["<sip:e;lr>"]))
        self.assertEqual(request.answer(486, "mine", [], "").all("record-route"), [])

    def test_a_transaction_without_a_cookie(self) -> None:
        """A request with an older branch, or with none, is known by its other fields."""
        plain, other = (Message.read(HEAD.replace(";branch=z9hG4bK1", "").replace("i: id", f"i: {name}") + "\r\n\r\n") for name in ("id", "other"))
        self.assertNotEqual(plain.transaction, other.transaction)
        self.assertEqual(plain.transaction.rpartition(" ")[2], "INVITE")


class Bodies(unittest.TestCase):
    def test_media(self) -> None:
        self.assertEqual(sdp.media(body(7000)), ("127.0.0.1", 7000, (8, 0)))
        for wrong in ("", body(70000), body(7000).replace("IN IP4 127.0.0.1\r\nt", "IN IP4 host\r\nt"), body(7000).replace("audio", "video")):
            self.assertIsNone(sdp.media(wrong))

    def test_holding(self) -> None:
        self.assertEqual([sdp.is_held(body(1, more)) for more in ("a=sendonly\r\n", "a=inactive\r\n", "a=recvonly\r\n", "")], [True, True, False, False])
        self.assertTrue(sdp.is_held(body(1).replace("c=IN IP4 127.0.0.1", "c=IN IP4 0.0.0.0")))

    def test_music(self) -> None:
        self.assertIn("RTP/AVP 8\r\n", sdp.music("h", 1, ""))
        self.assertIn("RTP/AVP 0\r\n", sdp.music("h", 1, body(1).replace("AVP 8 0", "AVP 9 0 8")))
        self.assertEqual(sdp.music("h", 1, body(1).replace("AVP 8 0", "AVP 9 18")), "")


if __name__ == "__main__":
    unittest.main()
