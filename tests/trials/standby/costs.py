"""What following takes of a desk, in processor time of the desk's process, with and without it in turns; and how long a page takes behind many requests."""
import os
import statistics
import subprocess

from machines import BENCH, PORT, Machine, grown
from trial import until

RATE, COUNT, ROUNDS = 2000, 6000, 5


def spent(process):
    """Seconds of the processor."""
    fields = open(f"/proc/{process}/stat").read().rpartition(")")[2].split()
    return (int(fields[11]) + int(fields[12])) / os.sysconf("SC_CLK_TCK")


def desk_in(machine):
    """The desk itself: `ip netns exec` becomes it."""
    return machine.desk.pid


def try_costs(ground, machines, kept):
    client = ground.folder / "exchange"
    subprocess.run(["gcc", "-O2", "-o", client, BENCH / "exchange.c"], check=True)
    first, second = (Machine(ground, name, address) for name, address in machines.items())
    grown(first.file, ground.program, kept)
    first.power_on()
    second.power_on()
    first.start_desk()

    def exchanges(*words):
        """Exchanges a second, the middle and p99 in microseconds."""
        told = first.start(client, PORT, *words, stdout=subprocess.PIPE).communicate()[0].split()
        ground.expect(f"exchanges {words}", told[0], told[1])
        return int(told[0]) / float(told[2]), float(told[4]), float(told[5])

    for after in (0, kept // 2, kept - 1000):
        _, middle, high = exchanges(200, "get", f"/requests?after={after}")
        print(f"    a page behind {after} of {kept} kept: p50 {middle / 1000:.2f} ms, p99 {high / 1000:.2f} ms", flush=True)
    first.start_proxy()
    second.file.write_bytes(first.file.read_bytes())
    ratios, pages, calls = [], [], 0
    for _ in range(ROUNDS):
        took = {}
        for follows in (False, True):
            if follows:
                second.follow(first.address, ground.newer)
                had = first.last()
                ground.expect("the copy comes to have all", until(lambda: first.asked()[-1:] >= [had - 1], 120, 0.01))
            begun, before = spent(desk_in(first)), len(first.asked())
            rate, *_ = exchanges(COUNT, "post", "900", RATE, calls)
            calls += COUNT
            took[follows] = spent(desk_in(first)) - begun
        pages.append(len(first.asked()) - before)
        second.end_following()
        ratios.append(took[True] / took[False])
    middle, each = statistics.median(ratios), ", ".join(f"{ratio:.3f}" for ratio in ratios)
    print(f"    at {rate:.0f} requests a second: followed by {min(pages)} pages or more the desk takes {middle:.3f} of its processor time ({each})", flush=True)
    ground.expect("it is followed meanwhile", min(pages) > 5)
    ground.expect("following costs under a tenth", middle < 1.1)
