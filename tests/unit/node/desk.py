#!/usr/bin/python3
"""A desk of the tests. It answers each line with 200 and the line itself, and writes it into its file. At the first `memory` it has no memory, at the first `fault` it ends, `slow` takes a while, and the answer to `odd` is none of a desk."""
import sys
import time
from pathlib import Path

if "--help" in sys.argv:
    sys.exit(print("--reads"))
file = Path(sys.argv[sys.argv.index("--file") + 1])
for line in sys.stdin.buffer:
    word = line.rstrip(b"\n").split(b" ", 1)[-1].decode("latin-1")
    once = file.parent / f"{word[:6]}.once"
    if word in ("memory", "fault") and not once.exists():
        once.touch()
        if word == "fault":
            sys.exit(1)
        sys.stdout.write('503 {"error":{"code":33,"name":"noMemory"}}\n')
    else:
        if not word.startswith("GET "):
            with open(file, "ab") as lines_fed:
                lines_fed.write(line)
        time.sleep(0.05 if word.startswith("slow") else 0)
        sys.stdout.write(f"{'odd' if word == 'odd' else 200} {word}\n")
    sys.stdout.flush()
