"""What a machine does for the log besides feeding its desk: it publishes its place and its digests, compares digests,
lets the log forget entries that all machines have, and watches the room in etcd."""
import time
from collections.abc import Callable

from acd_service.node.bridge import PERIOD, Bridge
from acd_service.node.journal import Journal
from acd_service.node.log import Forgotten, Log, Published

MINUTE, HOUR = 60, 3600
# a machine that lags further is compared once it has caught up: a digest covers all earlier replies
KEPT_DIGESTS = 10 * PERIOD


class Keeper:
    def __init__(self, name: str, machines: list[str], gone: float, log: Log, bridge: Bridge, journal: Journal,
                 clock: Callable[[], float] = time.monotonic, minute: float = MINUTE) -> None:
        self.name, self.machines = name.encode(), [machine.encode() for machine in machines]
        self.gone, self.minute = gone * HOUR, minute
        self.log, self.bridge, self.journal, self.clock = log, bridge, journal, clock
        self.published_at: float | None = None
        self.published_count = 0
        self.measured_at: float | None = None              # when etcd's files were looked at
        self.is_large = False                              # whether one of them had half of its quota
        self.seen: dict[bytes, int | None] = {}
        self.silent, self.looked_at = dict.fromkeys(self.machines, 0.0), clock()

    def run(self) -> None:
        while True:
            time.sleep(1)
            self.look()

    def look(self) -> None:
        """One look. It waits for an etcd that is away or full."""
        try:
            self.measure()
            if self.is_due():
                self.look_after()
            self.publish_digests()
            self.compare()
        except OSError as fault:
            self.journal.report(f"etcd isn't looked after: {fault}", "keeper", HOUR)

    def measure(self) -> None:
        """Reports members of etcd that use half of their quota. Near the quota it lets the bridge refuse requests: the
        rest of the room is for places, without which the log can forget nothing. And it lets puts go to the member that
        leads, which the others would ask."""
        if self.measured_at is not None and self.clock() < self.measured_at + (1 if self.is_large else 5):
            return
        members = [member for member in map(self.log.member, self.log.ends) if member]
        for member in members:
            if member.leads:
                self.log.prefer(member.end)
        large = [member for member in members if 2 * member.size >= member.quota]
        held = any(8 * member.size >= 7 * member.quota and 4 * member.used >= 3 * member.quota for member in large)
        self.measured_at, self.is_large, self.bridge.held = self.clock(), bool(large), held
        for member in large:
            self.journal.report(f"etcd at {':'.join(member.end)} has {member.size} bytes of its quota of "
                                f"{member.quota}, {member.used} of them in use", member.end, HOUR)
        if held:
            self.journal.report("etcd is nearly full: requests get 503 until the log can be shortened", "held", HOUR)

    def is_due(self) -> bool:
        """Whether to publish the place: each minute, each so many entries, and all the time while requests are
        refused."""
        if self.published_at is None or self.bridge.held or self.clock() >= self.published_at + self.minute:
            return True
        return self.bridge.reached.count >= self.published_count + PERIOD

    # Digests

    def publish_digests(self) -> None:
        while self.bridge.due:
            count, digest = self.bridge.due[0]
            self.log.publish_digest(count, self.name, digest)
            self.bridge.due.popleft()
            self.log.forget_digests(count - KEPT_DIGESTS, self.name)

    def compare(self) -> None:
        """A machine whose last digest differs from those of two others says so, and answers nothing until another one
        has its digest. It may be the first to publish its digest, so it compares again and again. What others than
        --machines put counts for nothing."""
        count, digest = self.bridge.folder.state.checked
        if not count or not self.machines:
            return
        digests = self.log.digests(count, self.machines)
        others = [other for name, other in digests.items() if name != self.name]
        if any(others.count(other) > 1 and other != digest for other in others):
            self.bridge.differs = True
            self.journal.report(f"the replies up to entry {count} differ from those of two other machines, so all "
                                f"requests and reads get 503: {self.bridge.folder.path} isn't to be used, "
                                "copy another machine's folder", "differs", HOUR)
        elif digest in others and self.bridge.differs:
            self.bridge.differs = False
            self.journal.report(
                f"the replies up to entry {count} are those of another machine: requests and reads are answered again")
        if digests.get(self.name) != digest:
            self.publish_again(count, digest, self.name in digests)

    def publish_again(self, count: int, digest: bytes, is_other: bool) -> None:
        """So what somebody else put in its name doesn't last."""
        if is_other:
            self.journal.report(f"etcd had another digest of this machine after {count} entries, of an earlier folder "
                                "or by somebody else's hand", "digest", HOUR)
        self.log.publish_digest(count, self.name, digest)

    # Places, and the entries before them

    def look_after(self) -> None:
        """Publishes the place, and forgets the entries that all machines have. A full etcd refuses the first and does
        the second, so a fault of the first is raised last."""
        reached, _, seen = self.bridge.folder.durable_state()
        place: int | None = None
        fault: OSError | None = None
        self.published_at, self.published_count = self.clock(), reached.count
        try:
            self.log.begin(reached.place, seen)            # a folder that is too old for the log isn't to be waited for
            place = reached.place
            self.log.publish_place(self.name, place)
        except Forgotten:
            return                                         # the bridge finds it too, and waits for another folder
        except OSError as error:
            fault = error
        if self.machines:
            self.forget(place, self.log.places())
        if fault:
            self.published_at = None                       # again with the next look: others can forget nothing before
            raise fault

    def forget(self, place: int | None, places: dict[bytes, Published]) -> None:
        """Forgets the entries of all machines that it waits for. It knows the place of this machine even if etcd
        refused it, so a machine that comes back to a full etcd makes room there."""
        self.count_silence(places)
        waited = [machine for machine in self.machines if machine == self.name or not self.is_gone(machine)]
        if all(machine in places for machine in waited):
            waited_places = {machine: places[machine].place for machine in waited}
            # if all others seem gone, they may be as silent as this one, and lack entries that it has
            if place is not None and len(waited) > 1:
                waited_places[self.name] = place
            least = min(waited_places.values())
            if least:
                self.log.compact(self.log.end_of(least))

    def count_silence(self, places: dict[bytes, Published]) -> None:
        """For how long each machine has published nothing, as this one saw it. The time in which etcd answered nobody
        doesn't count."""
        now = self.clock()
        passed, self.looked_at = min(now - self.looked_at, 2 * self.minute), now
        for machine in self.machines:
            revision = places[machine].revision if machine in places else None
            if revision != self.seen.get(machine):
                self.seen[machine], self.silent[machine] = revision, 0
            else:
                self.silent[machine] += passed

    def is_gone(self, machine: bytes) -> bool:
        if self.silent[machine] < self.gone:
            return False
        if machine != self.name:
            hours = f"{self.silent[machine] / HOUR:.1f} hours"
            self.journal.report(f"{machine.decode()} has told no place for {hours}: the log isn't kept for it, and it "
                                "copies another machine's folder when it comes back", machine, HOUR)
        return True
