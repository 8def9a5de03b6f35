"""What a timer does for etcd: it gives back the free bytes of its files, one member after another, and lets a full etcd
take entries again."""
import time

from acd_service.node.journal import Journal
from acd_service.node.log import End, Log, Member
from collections.abc import Sequence

SLOT = 300                                                 # seconds of a machine's turn, as the timer has them
# seconds between two looks at the bytes in use, and for all looks; each commit changes fewer bytes than LEAST
PAUSE, LONGEST, LEAST = 5, 600, 2 ** 16


def has_turn(name: str, machines: Sequence[str], now: float) -> bool:
    """Whether it is this machine's turn: only one at a time may look after the members."""
    return machines[int(now) // SLOT % len(machines)] == name


def least_place(log: Log, machines: Sequence[str]) -> int:
    """The least place that the machines have published; 0 if one of them has published none."""
    places = log.places()
    return min(places[machine].place if machine in places else 0 for machine in (name.encode() for name in machines))


def tidy(log: Log, journal: Journal, member: Member) -> bool:
    """Whether a member could be defragmented."""
    try:
        log.defragment(member.end)
    except OSError as fault:
        journal.report(f"etcd at {':'.join(member.end)} isn't defragmented: {fault}")
        return False
    journal.report(
        f"etcd at {':'.join(member.end)} is defragmented: it had {member.size} bytes, {member.used} of them in use")
    return True


def settle(log: Log) -> None:
    """Waits until no member frees any more bytes: a member goes on to free them after its answer to a compaction, for
    15 s after a million entries, and can give back only free bytes. The difference in use says nothing of the last
    ones: a member counts them only after a later commit."""
    before: dict[End, int] = {}
    until = time.monotonic() + LONGEST
    while time.monotonic() < until:
        used = {member.end: member.used for member in map(log.member, log.ends) if member}
        if before and not any(used[end] + LEAST < before.get(end, 0) for end in used):
            break
        before = used
        time.sleep(PAUSE)


def is_wasteful(member: Member) -> bool:
    """Whether it uses a quarter of its quota, more than half of it for nothing."""
    return 4 * member.size >= member.quota and 2 * member.used < member.size


def once(log: Log, machines: Sequence[str], journal: Journal) -> int:
    """Looks after all members once. Returns the status of the process: 1 if it couldn't do something that is needed."""
    try:
        return 0 if look_after(log, machines, journal) else 1
    except OSError as fault:
        journal.report(f"etcd isn't looked after: {fault}")
        return 1


def look_after(log: Log, machines: Sequence[str], journal: Journal) -> bool:
    """Whether all that was needed was done."""
    full, good = log.is_full(), True
    place = least_place(log, machines) if full else 0
    if place:
        log.compact(log.end_of(place))
    if full:                                               # a machine may have let the log forget more just now
        settle(log)
    members = [log.member(end) for end in log.ends]
    for member in members:
        if member is None or not (full or is_wasteful(member)):
            continue
        if None in members and not full:                   # without this one too there might be no majority
            journal.report("a member of etcd doesn't answer: none is defragmented")
            return False
        good = tidy(log, journal, member) and good
    return allow_again(log, journal) and good if full else good


def allow_again(log: Log, journal: Journal) -> bool:
    """Ends the alarm of a full etcd once there is room, if only for places: nodes refuse requests until the log has
    forgotten the entries that all machines have."""
    for member in filter(None, map(log.member, log.ends)):
        if 64 * member.size > 63 * member.quota:
            journal.report(f"etcd at {':'.join(member.end)} is full, {member.used} of {member.quota} bytes in use: "
                           "start the nodes that lack some of it, or its members with a greater --quota-backend-bytes")
            return False
    log.disarm()
    journal.report("etcd was full, and takes entries again")
    return True
