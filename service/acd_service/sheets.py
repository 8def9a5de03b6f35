"""What a spreadsheet would change of a field of CSV. Tested, not proved."""
import re

# by its first sign a spreadsheet knows that a text is UTF-8
MARK = "\ufeff"
# it takes the first for a formula; it drops the 0 of a number, and shows more than eleven digits as 4.9E+11; a name may
# seem a date
FORMULA, LOST, LIKE_NUMBER = re.compile(r"[=+\-@'\t\r\n]"), re.compile(r"0[0-9]+|[0-9]{12,}"), re.compile(r"[0-9]")


def guarded(field: str, is_name: bool) -> str:
    """A number or a name with ' before it, where a spreadsheet would change it."""
    changes = FORMULA.match(field) or (LIKE_NUMBER.match(field) if is_name else LOST.fullmatch(field))
    return f"'{field}" if changes else field
