"""Phones and a caller, who ask the edge within the container's network."""
import json
import socket
import sys
from pathlib import Path

TOP = Path(__file__).resolve().parents[3]
sys.path[:0] = [str(TOP / "tests/trials/exchange"), str(TOP / "tests/trials")]
import ground  # noqa: E402
from trial import ANY  # noqa: E402

SDP = "v=0\r\no=- 1 1 IN IP4 127.0.0.1\r\ns=-\r\nc=IN IP4 127.0.0.1\r\nt=0 0\r\nm=audio 6000 RTP/AVP 8\r\n"


def call(asks):
    """A call of the trunk, by its password: the first answer of the exchange after the one that asks for it and that says 'trying'."""
    more = ""
    asks.settimeout(5)
    for cseq in (1, 2):
        asks.sendto((f"INVITE sip:100@127.0.0.1 SIP/2.0\r\nVia: SIP/2.0/UDP 127.0.0.1:{asks.getsockname()[1]};rport;branch=z9hG4bKcall{cseq}\r\n"
                     f"From: <sip:0409876@127.0.0.1>;tag=call\r\nTo: <sip:100@127.0.0.1>\r\nCall-ID: call\r\nCSeq: {cseq} INVITE\r\n{more}"
                     f"Contact: <sip:0409876@127.0.0.1:{asks.getsockname()[1]}>\r\nMax-Forwards: 70\r\nContent-Type: application/sdp\r\n"
                     f"Content-Length: {len(SDP)}\r\n\r\n{SDP}").encode(), ("127.0.0.1", 5060))
        status, text = 100, ""
        while status == 100:
            text = asks.recv(8192).decode("latin-1")
            status = int(text.split(" ")[1])
        if status not in (401, 407):
            break
        more = ground.credentials(text, status, "INVITE", "sip:100@127.0.0.1", "trunk", ground.PASSWORD)
    return status


def main():
    """Asks the edge as phones and a caller do, by hand, and prints the statuses; 182 is that of a caller who waits."""
    with ground.Phone(5060) as asks:
        contact = "Contact: <sip:201@127.0.0.1:5999>;expires=60\r\n"
        statuses = [asks.request("REGISTER", "sip:127.0.0.1", "201", contact)[0], asks.request("REGISTER", "sip:127.0.0.1", "201", contact, password="wrong")[0],
                    asks.request("MESSAGE", "sip:*23@127.0.0.1", "201")[0], call(asks.socket)]
    with socket.create_connection(("127.0.0.1", 5061), timeout=5) as plain, ANY.wrap_socket(plain) as secret:
        secret.sendall(b"OPTIONS sip:127.0.0.1 SIP/2.0\r\nVia: SIP/2.0/TLS 127.0.0.1:5999;branch=z9hG4bKtls;rport\r\nFrom: <sip:201@127.0.0.1>;tag=tls\r\n"
                       b"To: <sip:127.0.0.1>\r\nCall-ID: tls\r\nCSeq: 1 OPTIONS\r\nMax-Forwards: 70\r\nContent-Length: 0\r\n\r\n")
        statuses.append(secret.recv(100).decode().partition(" ")[0])
    print(json.dumps(statuses))


if __name__ == "__main__":
    main()
