"""Descriptions of media (SDP): what is read of them, and the one of the music."""
import re
from functools import lru_cache

from .grammar import IPV4

NAMES = {0: "PCMU", 8: "PCMA"}


@lru_cache(4096)
def media(body: str) -> tuple[str, int, tuple[int, ...]] | None:
    """The address at which a body asks for audio, and the forms; None if it asks for none, or at no address of IPv4."""
    line = re.search(r"^m=audio ([0-9]{1,5}) [!-~]+((?: [0-9]{1,3})+)", body, re.MULTILINE)
    if not line or int(line[1]) > 65535:
        return None
    # the address of the audio counts, else that of all media, which comes before the first of them
    parts = (re.split("^m=", text, 1, re.MULTILINE)[0] for text in (body[line.end():], body))
    host = next(filter(None, (re.search(f"^c=IN IP4 ({IPV4})", part, re.MULTILINE) for part in parts)), None)
    if not host:
        return None
    return host[1], int(line[1]), tuple(map(int, line[2].split()))


def is_held(body: str) -> bool:
    return bool(re.search(r"^a=(?:sendonly|inactive)|^c=IN IP4 0\.0\.0\.0", body, re.MULTILINE))


def music_type(body: str) -> int | None:
    """The form of G.711 that is put first; A-law where nothing is asked for yet, None where there is neither."""
    asked = media(body)
    return next((kind for kind in (asked[2] if asked else (8,)) if kind in NAMES), None)


def music(host: str, port: int, offer: str) -> str:
    """The answer of the music to an offer, or an offer of it; empty where they have no form in common."""
    kind = music_type(offer)
    return (f"v=0\r\no=acd 1 1 IN IP4 {host}\r\ns=acd\r\nc=IN IP4 {host}\r\nt=0 0\r\nm=audio {port} RTP/AVP {kind}\r\n"
            f"a=rtpmap:{kind} {NAMES[kind]}/8000\r\na=sendrecv\r\n") if kind is not None else ""
