"""What the measuring scripts share: blocks of lines fed to a program, and the instructions of each, counted by callgrind."""
import contextlib
import os
import re
import select
import subprocess
import time
from collections import Counter
from pathlib import Path

PLANS = {"small": (2, 10, 10), "full": (64, 1000, 1)}  # groups, agents and how often the course is gone through
STATEMENTS = {"writing": "sqlite::transaction::Transaction::execute", "reading": "sqlite::connection::Connection::query_near"}


def processor(pid):
    return int(Path(f"/proc/{pid}/schedstat").read_text().split()[0]) / 1e9


def fed(desk, lines, count):
    """Seconds until all are answered, those of the processor, and the answers."""
    start, spent = time.perf_counter(), processor(desk.pid)
    os.set_blocking(desk.stdin.fileno(), False)
    given, answered, told = 0, 0, []
    while answered < count:
        if given < len(lines):
            with contextlib.suppress(BlockingIOError):
                given += os.write(desk.stdin.fileno(), lines[given:given + 65536])
        if given == len(lines) or readable(desk):
            told.append(os.read(desk.stdout.fileno(), 65536))
            if not told[-1]:
                raise SystemExit(f"the program ended behind {answered} of {count} answers")
            answered += told[-1].count(b"\n")
    whole, spent = time.perf_counter() - start, processor(desk.pid) - spent
    return whole, spent, b"".join(told)


def readable(desk):
    return select.select([desk.stdout], [], [], 0.001)[0]


def instructions(words, blocks, folder, tell=None):
    """Those of each block, the answers, and what `tell` says of each block's dump. The counts are dumped while the program waits for its next line."""
    out = Path(folder) / "callgrind"
    for old in Path(folder).glob("callgrind*"):
        old.unlink()
    valgrind = ["valgrind", "-q", "--tool=callgrind", f"--callgrind-out-file={out}", *words]
    told = b""
    with subprocess.Popen(valgrind, stdin=subprocess.PIPE, stdout=subprocess.PIPE, bufsize=0) as desk:
        for _, _, lines in blocks:
            told += fed(desk, "".join(lines).encode(), len(lines))[2]
            subprocess.run(["vgdb", "--max-invoke-ms=1", f"--pid={desk.pid}", "dump"], stdout=subprocess.DEVNULL, stderr=subprocess.DEVNULL, check=True)
        desk.stdin.close()
    dumps = [Path(f"{out}.{n}") for n in range(1, len(blocks) + 1)]
    counts = [int(re.search(r"^totals: (\d+)", dump.read_text(), re.M)[1]) for dump in dumps]
    return counts, told, [tell(dump) for dump in dumps] if tell else None


def totals(words, folder, act=None):
    """Those of a whole run, and what it wrote; `act` is done once the program has written its first line."""
    out = Path(folder) / "callgrind"
    with subprocess.Popen(["valgrind", "-q", "--tool=callgrind", f"--callgrind-out-file={out}", *map(str, words)], stdin=subprocess.DEVNULL, stdout=subprocess.PIPE) as program:
        if act:
            program.stdout.readline()
            act()
        told = program.stdout.read()
    return int(re.search(r"^(?:totals|summary): (\d+)", out.read_text(), re.M)[1]), told


def by_crate(dump):
    """Instructions of a dump by crate, or by file of a library; what was under way all the time (main) is told with all, and left out."""
    words = ["callgrind_annotate", "--threshold=100", "--auto=no", dump]
    told, found = subprocess.run(words, stdout=subprocess.PIPE, text=True, check=True).stdout, Counter()
    for many, share, name, file in re.findall(r"^ *([\d,]+) \(([ \d.]+)%\)\s+\S*?:(\S.*?) \[(.*)\]$", told, re.M):
        if share != "100.0":
            found[name.split("::")[0] if "::" in name and ".so" not in file else Path(file).name.split(".")[0]] += int(many.replace(",", ""))
    return found


def statements(dump):
    """How many writing statements and how many reads a program of ours ran in a dump, by the functions of the store that run them."""
    found, name, called = Counter(), {}, None
    for line in dump.read_text().splitlines():
        if line.startswith("cfn="):
            number, _, text = line[4:].partition(" ")
            called = name.setdefault(number, text)
        elif line.startswith("fn="):
            number, _, text = line[3:].partition(" ")
            name.setdefault(number, text)
        elif line.startswith("calls="):
            found.update({sort: int(line[6:].split()[0]) for sort, text in STATEMENTS.items() if called.startswith(text)})
    return found


def units(blocks, places):
    """How often the kind was asked for in these blocks."""
    return sum(len(blocks[at][2]) // blocks[at][1] for at in places)


def row(*cells):
    print("|", " | ".join(cells), "|", flush=True)
