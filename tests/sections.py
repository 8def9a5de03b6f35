"""The parts of a page by their headings, and the lines in them that are to be typed."""
import re


def section(text: str, heading: str) -> str:
    """What is under a heading, up to the next one of its level or of a higher one; nothing where there is no such heading."""
    found = re.search(rf"^(#+) {re.escape(heading)}\n", text, re.MULTILINE)
    if not found:
        return ""
    return re.split(rf"^#{{1,{len(found[1])}}} ", text[found.end():], maxsplit=1, flags=re.MULTILINE)[0]


def typed(text: str) -> str:
    """The lines of the first block that is to be typed."""
    found = re.search(r"^    .*\n(?:    .*\n|\n(?=    ))*", text, re.MULTILINE)
    return re.sub("^    ", "", found[0], flags=re.MULTILINE) if found else ""
