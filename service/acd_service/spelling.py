"""The name by which the desk knows whom people write in any script: an ASCII spelling. Tested, not proved.

A letter of the table becomes its letters; of any other sign what Unicode's compatibility decomposition has of ASCII;
and a sign of which that leaves nothing becomes a question mark."""
import unicodedata
from collections.abc import Mapping

# what a name of the desk may have at most, and one that pages show
LONGEST, MOST_SHOWN = 40, 80
# as German spells umlauts where it has none, and letters of Latin alphabets that Unicode doesn't decompose
LETTERS = {"ä": "ae", "ö": "oe", "ü": "ue", "ß": "ss", "æ": "ae", "ø": "oe", "œ": "oe", "đ": "d", "ð": "d", "ł": "l",
           "þ": "th", "ı": "i", "’": "'", "‘": "'", "–": "-", "—": "-", "“": '"', "”": '"'}
# of groups and agents, by their numbers
Names = dict[str, dict[str, str]]
KINDS = ("groups", "agents")


def spelled(name: str) -> str:
    """The ASCII spelling of a name, in the desk's length."""
    return "".join(map(sign, unicodedata.normalize("NFC", name))).strip()[:LONGEST].strip()


def sign(one: str) -> str:
    known = LETTERS.get(one.lower())
    if known is not None:
        return known.capitalize() if one.isupper() else known
    if " " <= one <= "~":
        return one
    parts = "".join(part for part in unicodedata.normalize("NFKD", one) if " " <= part <= "~")
    # a mark that stands by itself belongs to the letter before it
    return parts or ("" if unicodedata.combining(one) else "?")


def is_shown(name: str) -> bool:
    """Whether pages may show this as a name."""
    return 0 < len(name) <= MOST_SHOWN and name.isprintable() and name.strip() == name


def shown(desk: str, name: str | None) -> str:
    """What pages show of the desk's own name: the name in any script, as long as the desk's is the spelling of that.
    Whoever changes the desk's name by another way takes the other one back."""
    return name if name and spelled(name) == desk else desk


def shown_names(desk: Mapping[str, str], names: Mapping[str, str]) -> dict[str, str]:
    """Of the desk's names by their numbers those that have one in another script."""
    return {number: names[number] for number, own in desk.items()
            if number in names and shown(own, names[number]) != own}
