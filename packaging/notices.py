#!/usr/bin/python3
"""Prints the notices of the toolchain's crates that a program has linked in: proof/release writes them to
release/NOTICES.

usage: packaging/notices.py PROGRAM

Needs the toolchain (`rt doc` says where it is), and nm (Debian package binutils). Which crates these are is read from
crates.txt and from the toolchain's libraries, and has to cover those that the program's symbols name. The second
paragraph of what is printed names all of them."""
import re
import shutil
import subprocess
import sys
import textwrap
from pathlib import Path

TOP = Path(__file__).resolve().parents[1]
APACHE = "/usr/share/common-licenses/Apache-2.0"
RULE = "-" * 78


class Fault(Exception):
    """Why there are no notices, or they aren't the program's."""


def told(*words):
    return subprocess.run([str(word) for word in words], stdout=subprocess.PIPE, text=True, check=True).stdout


def own_crates():
    """The crates of this repository, each with what it stands on."""
    found = {}
    for line in (TOP / "crates.txt").read_text().splitlines():
        name, mark, below = line.partition(":")
        if mark and not name.startswith("#"):
            found[name.strip()] = below.split()
    return found


def linked_crates(kit):
    """The crates of the toolchain that the program stands on, through all others."""
    own, seen, ahead = own_crates(), set(), ["acd", "std"]
    while ahead:
        name = ahead.pop()
        if name in seen:
            continue
        seen.add(name)
        if name in own:
            ahead += own[name]
        else:
            format_text = (kit / "rlibs" / f"{name}.rlib/format").read_text(errors="replace")
            ahead += re.findall(r"^dep (\w+)$", format_text, re.MULTILINE)
    return sorted(seen - set(own))


def check_symbols(program, crates):
    """Refuses crates among which one is missing that the program's symbols name."""
    named = set(re.findall(r"^[0-9a-f]* +\w (\w+)::", told("nm", program), re.MULTILINE))
    missing = sorted(named - set(crates) - set(own_crates()))
    if missing or not named:
        raise Fault(f"{program} has crates linked in that the notices don't name: "
                    f"{', '.join(missing)}" if named else f"the symbols of {program} name no crates")


def filled(words, end):
    return textwrap.fill(", ".join(words) + end, 78, break_on_hyphens=False, break_long_words=False)


def notices(kit, crates, logic):
    """The crates, and then their notices, each text once."""
    texts, apache, silent = {}, [], []
    for crate in crates:
        files = sorted((kit / "rattle" / crate).glob("LICENSE*"))
        if not files:
            silent.append(crate)
        for file in files:
            text = file.read_text().strip("\n")
            if re.match(r"\s*Apache License\s+Version 2\.0", text):
                owners = re.findall(r"^\s*(Copyright (?!\[)[^\n]*[^\n.,])$", text.partition("APPENDIX")[2],
                                    re.MULTILINE)
                apache.append(f"{crate} ({', '.join([file.name] + owners)})")
            else:
                texts.setdefault(text, []).append(f"{crate} ({file.name})")
    lines = [f"The program acd has these crates of its toolchain, {logic}, linked in:", "", filled(crates, "."), "",
             "What follows are their notices, as the toolchain has them, each text once. A crate with several licences "
             "has each of them here.", ""]
    for text, owners in sorted(texts.items(), key=lambda item: item[1]):
        lines += [RULE, filled(owners, ":"), "", text, ""]
    if apache:
        lines += [RULE, filled(apache, ":"), "", "The Apache License, version 2.0, is LICENSE-APACHE of the "
                                                 f"repository, and on Debian {APACHE}.", ""]
    if silent:
        lines += [RULE, "These crates have no notice of their own in the toolchain:", "", filled(silent, ".")]
    return "\n".join(lines).rstrip("\n") + "\n"


def crates_of(text):
    """The crates that notices name."""
    return re.findall(r"\w+", text.split("\n\n")[1])


def main():
    if len(sys.argv) != 2 or sys.argv[1].startswith("-"):
        sys.exit("usage: packaging/notices.py PROGRAM")
    lacking = [name for name in ("rt", "nm") if not shutil.which(name)]
    try:
        if lacking:
            raise Fault(f"there is no {', '.join(lacking)} here")
        kit = Path(told("rt", "doc").strip()).parent
        crates = linked_crates(kit)
        check_symbols(sys.argv[1], crates)
        sys.stdout.write(notices(kit, crates, told("rt", "version").strip().partition(" ")[2]))
    except (Fault, OSError, subprocess.CalledProcessError) as fault:
        sys.exit(f"packaging/notices.py: {fault}")


if __name__ == "__main__":
    main()
