"""Cases of a desk whose file is pruned: by acd-prune.service and its timer, under load, killed and stopped, beside a unit that is down, behind a power cut, and by the names of before."""
import re
import threading
import time

from office import FILE, PLANNED, SETTINGS, STATE, Office
from trial import Requests, lines

DAYS, HOUR = 6, 3600
# of each hour, so that two days are more than the thousand requests that stay in any case
TICKS = 20
RUN = "/run/acd-prune"
BEFORE = "/srv/unpruned"
UNIT = "/usr/lib/systemd/system/acd-prune.service"
CHANGED = "/run/systemd/system/acd-prune.service.d/trial.conf"
# what keeps strace from its work
OPENED = "SystemCallFilter=\nMemoryDenyWriteExecute=no\n"
# a line of the unit, and the call before which it is killed, or held
PLACES = [("ExecCondition", "mkdir", 1), ("ExecCondition", "vfork", 1), ("ExecCondition", "vfork", 2), ("ExecCondition", "link", 1), ("ExecCondition", "rename", 2),
          ("ExecCondition", "exit_group", 1), ("ExecStartPre", "vfork", 1), ("ExecStartPre", "vfork", 2), ("ExecStartPre", "exit_group", 1), ("ExecStart", "vfork", 1),
          ("ExecStart", "pwrite64", 1), ("ExecStart", "pwrite64", 20), ("ExecStart", "exit_group", 1), ("ExecStopPost", "unlink", 1), ("ExecStopPost", "vfork", 1),
          ("ExecStopPost", "unlink", 2), ("ExecStopPost", "exit_group", 1)]
CUTS = [("ExecStartPre", "exit_group", 1), ("ExecStart", "vfork", 1), ("ExecStart", "pwrite64", 20), ("ExecStart", "exit_group", 1), ("ExecStopPost", "unlink", 1)]


def history():
    """Lines of an office with a group, and a caller and ticks each hour for some days."""
    begin = int(time.time()) - DAYS * 24 * HOUR
    request = Requests()
    asked = [(begin, it) for it in request.plan(PLANNED)]
    for number in range(1, DAYS * 24 - 1):
        asked += [(begin + HOUR * number, request.arrive()), (begin + HOUR * number + 10, request.at("clearConnection", number, "0301234"))]
        asked += [(begin + HOUR * number + 60 * tick, {"requester": "ticks", "invoke": TICKS * number + tick, "service": "tick"}) for tick in range(1, TICKS + 1)]
    return lines(asked)


class Pruned(Office):
    def try_days(self):
        """Days that are over, as the desk's user feeds them; two of them stay."""
        self.set("ACD_CARRY_DAYS", "2")
        self.done("systemctl", "stop", "acd")
        self.container.put("/history", history())
        said = self.typed(f"runuser -u acd -- acd lines --file {FILE} </history >/dev/null")
        self.expect("the days are fed", said, (0, ""))
        self.done("systemctl", "start", "acd-copy")
        self.done("cp", "-a", STATE, BEFORE)
        self.restarts("with days that are over")

    def laid(self):
        """All as it was before the first time, with a desk that serves."""
        self.done("systemctl", "stop", "acd")
        self.done("sh", "-c", f"find {STATE} -mindepth 1 -delete && cp -a {BEFORE}/. {STATE}")
        self.restarts("anew")
        # of the file that is there now
        self.done("systemctl", "start", "acd-copy")

    def process(self):
        return self.show("MainPID")[0]

    def archives(self):
        return [name for name in self.names() if re.fullmatch(r"desk\.db-\d{4}-\d\d-\d\d-\d+", name)]

    def prunes(self, what, wanted=(0, "")):
        """By the unit, which ends within a time; what it has said since."""
        mark, begun = self.mark(), time.monotonic()
        self.expect(what, self.ran("systemctl", "start", "acd-prune"), wanted)
        self.expect(f"{what}: soon", time.monotonic() - begun < 60)
        return self.said_since(mark, "prune")

    def is_back(self, what):
        self.serves(what)
        self.expect(f"{what}: nothing keeps the desk down", self.inside(RUN).exists(), False)

    def is_whole(self, what):
        """Whether it is pruned; else it is as it was."""
        count = len(self.kept("pbx"))
        self.expect(f"{what}: the one or the other", (count == 2 * (DAYS * 24 - 2), count < 100), (count > 100, count <= 100))
        return count < 100

    def try_off(self):
        """Its timer is off as the package comes, and nothing of it runs."""
        self.expect("its timer", self.ran("systemctl", "is-enabled", "acd-prune.timer")[1], "disabled\n")
        self.expect("its units", self.show("ActiveState", unit="acd-prune.timer") + self.show("ActiveState", unit="acd-prune"), ["inactive"] * 2)

    def try_under_load(self):
        """A client sends again until it is answered: each request acts once, and the file without the old ones has them all."""
        before = self.kept("pbx")
        with self.loaded("loaded"):
            process = self.process()
            self.expect("it says nothing of faults", self.prunes("pruned under load"), [])
            self.is_back("behind it")
            self.expect("another process serves", self.process() not in (process, "0"))
            time.sleep(1)
        self.expect("each answered request is there, once", self.kept("loaded")[:len(self.answered)], self.answered)
        self.expect("old ones aren't", len(self.kept("pbx")) < 100 < len(before))
        self.expect("its archive and its note", (len(self.archives()), f"archive {self.archives()[0]}\n" in self.inside(f"{FILE}.archive").read_text()), (1, True))
        self.expect("whose all is", self.done("find", STATE, "!", "-user", "acd"), "")
        self.expect("nobody else reads it", self.done("find", STATE, "-mindepth", "1", "-perm", "/077"), "")
        self.expect("the unit", self.show("Result", "ActiveState", unit="acd-prune"), ["success", "inactive"])
        self.done("systemctl", "start", "acd-copy")
        self.expect_in("a copy behind it", self.journal("acd-copy"), "sound: ")

    def try_nothing(self):
        """A second time there is nothing to prune: the desk isn't stopped, and nothing has failed."""
        process = self.process()
        self.expect("it says nothing of faults", self.prunes("with nothing to prune"), [])
        self.expect_in("it says so", self.journal("acd-prune"), "(?m)^nothing to prune$")
        self.expect("the desk wasn't stopped", self.process(), process)
        self.expect("nothing has failed", "acd-prune" in self.ran("systemctl", "--failed", "--no-legend", "--plain")[1], False)

    def try_down(self):
        """A desk that was down stays down."""
        self.laid()
        self.done("systemctl", "stop", "acd")
        self.prunes("beside a desk that is down")
        self.expect("it stays down", (self.show("ActiveState"), self.inside(RUN).exists(), len(self.archives())), (["inactive"], False, 1))
        self.restarts("started by hand")
        self.laid()
        self.done("systemctl", "stop", "acd")
        self.change("ExecStart", "vfork", 1, "delay_enter=3000000")
        self.done("systemctl", "start", "--no-block", "acd-prune")
        self.expect("it is kept down", self.eventually(lambda: self.inside(f"{RUN}/down").exists(), True), True)
        time.sleep(1)
        self.done("systemctl", "start", "acd")
        self.expect("a start meanwhile does nothing yet", self.show("ActiveState"), ["inactive"])
        self.expect("it ends", self.eventually(lambda: self.show("ActiveState", unit="acd-prune")[0], "inactive"), "inactive")
        self.is_back("and is done then")
        self.unchange()

    # what it is told to run

    def change(self, line, call, number, how):
        """One line of the unit is run with this done before a call of its; the first one where there are two."""
        commands = re.findall(rf"^{line}=(.*)$", self.inside(UNIT).read_text(), re.MULTILINE)
        mark, command = re.fullmatch(r"([+-]*)(.*)", commands[0]).groups()
        # the program that prunes is a child
        traced = f"{line}={mark}/usr/bin/strace {'-f ' if call == 'pwrite64' else ''}-qq -o /dev/null -e trace={call} -e inject={call}:{how}:when={number} {command}"
        self.container.run("mkdir", "-p", CHANGED.rpartition("/")[0])
        self.inside(CHANGED).write_text("[Service]\n" + OPENED + "\n".join([f"{line}=", traced, *(f"{line}={other}" for other in commands[1:])]) + "\n")
        self.done("systemctl", "daemon-reload")

    def unchange(self):
        self.inside(CHANGED).unlink(missing_ok=True)
        self.done("systemctl", "daemon-reload")

    def try_meanwhile(self):
        """Who starts the desk meanwhile starts nothing; a second prune waits for the first one's end; and one by hand is refused."""
        self.laid()
        self.change("ExecStart", "vfork", 1, "delay_enter=4000000")
        results = []
        pruning = threading.Thread(target=lambda: results.append(self.ran("systemctl", "start", "acd-prune")))
        pruning.start()
        self.expect("it is down", self.eventually(lambda: self.inside(f"{RUN}/down").exists() and self.show("ActiveState")[0], "inactive"), "inactive")
        second = threading.Thread(target=lambda: results.append(self.ran("systemctl", "start", "acd-prune")))
        second.start()
        for act in ("start", "restart"):
            self.expect(f"a {act} meanwhile", (self.ran("systemctl", act, "acd"), self.show("ActiveState")), ((0, ""), ["inactive"]))
        # by what the first one is at just then: its desk's program has the file open, or it waits to put the new one in its place
        self.expect_in("by hand meanwhile", self.ran("runuser", "-u", "acd", "--", "acdctl", "prune")[1],
                       r"just now; nothing was changed|is open elsewhere|is open in process \d+ \(/usr/bin/acd .*\): systemctl stop acd-prune; nothing was touched")
        pruning.join()
        second.join()
        self.expect("both", results, [(0, "")] * 2)
        self.is_back("behind both")
        self.expect("it was pruned once", len(self.archives()), 1)
        self.unchange()

    def try_refused(self):
        """What has to be mended first is told, and the desk isn't even stopped; where the prune itself fails, it goes on over the file as it was."""
        self.laid()
        process = self.process()
        failed = (1, 'Job for acd-prune.service failed because the control process exited with error code.\nSee "systemctl status acd-prune.service" and '
                  '"journalctl -xeu acd-prune.service" for details.\n')
        self.done("chown", "root:", STATE)
        said = self.prunes("a folder without rights", failed)
        self.done("chown", "acd:", STATE)
        self.expect(f"it is told: {said}", (len(said), "Permission denied" in said[0] or "nothing was changed" in said[0]), (1, True))
        self.expect("the desk wasn't stopped", self.process(), process)
        stamp = 3 + (2 + TICKS) * (DAYS * 24 - 2)
        day = time.strftime("%Y-%m-%d", time.gmtime(int(self.done("tail", "-n", "1", "/history").split()[0])))
        self.done("touch", f"{STATE}/desk.db-{day}-{stamp}")
        said = self.prunes("a name that is taken", failed)
        self.expect(f"it is told: {said}", ["is there already; nothing was changed" in line for line in said], [True])
        self.expect("nor was it stopped for that", self.process(), process)
        self.expect_in("it is named", self.ran("systemctl", "--failed", "--no-legend", "--plain")[1], "acd-prune.service")
        self.done("rm", f"{STATE}/desk.db-{day}-{stamp}")
        self.done("mv", f"{STATE}/copies", "/srv/copies")
        said = self.prunes("without a copy", failed)
        self.expect(f"it is told: {said}", ["there is no good copy of" in line for line in said], [True])
        self.expect("nor was it stopped for that", self.process(), process)
        self.done("mv", "/srv/copies", f"{STATE}/copies")
        self.change("ExecStart", "vfork", 1, "error=ENOMEM")
        status, _ = self.ran("systemctl", "start", "acd-prune")
        self.is_back("behind it")
        self.expect("it is the file as it was", (status, self.is_whole("behind it"), self.process() != process), (1, False, True))
        self.unchange()
        self.prunes("with that mended")
        self.is_back("with that mended")

    def try_timer(self):
        """Each night, here each few seconds."""
        self.laid()
        timer = self.inside("/etc/systemd/system/acd-prune.timer.d/trial.conf")
        timer.parent.mkdir()
        timer.write_text("[Timer]\nOnCalendar=\nOnCalendar=*:*:0/3\nAccuracySec=1s\n")
        self.done("systemctl", "daemon-reload")
        self.done("systemctl", "start", "acd-prune.timer")
        self.expect("it is pruned", self.eventually(lambda: len(self.archives()), 1), 1)
        self.done("systemctl", "stop", "acd-prune.timer")
        self.expect("it ends", self.eventually(lambda: self.show("ActiveState", unit="acd-prune")[0], "inactive"), "inactive")
        timer.unlink()
        timer.parent.rmdir()
        self.done("systemctl", "daemon-reload")
        self.is_back("by its timer")
        self.expect("it is pruned", self.is_whole("by its timer"), True)

    def try_names_of_before(self):
        """A cron line of each name, of a stopped desk, without a file's default; a second time it has the status of before."""
        for name in ("acd-carry", "acdctl carry"):
            self.laid()
            self.done("systemctl", "stop", "acd")
            whole = self.done("runuser", "-u", "acd", "--", "acd", "export", "--file", FILE)
            program = f"/usr/sbin/{name}" if " " not in name else f"/usr/bin/{name}"
            line = f"runuser -u acd -- {program} --file {FILE} --days 2"
            said = self.by_cron(line)
            self.expect_in(f"{name}: {said}", said[1], "pruned up to request")
            self.expect(f"{name} ends", (said[0], self.is_whole(name), len(self.archives())), (0, True, 1))
            self.expect(f"{name} again", self.by_cron(line), (3, "nothing to prune\n"))
            archive = f"{STATE}/{self.archives()[0]}"
            for export in ("acd-export", "acdctl export"):
                said = self.by_cron(f"runuser -u acd -- /usr/bin/{export} --file {FILE} --archive {archive}")
                self.expect(f"{export}: {said[1][-200:]}", (said[0], said[1] == whole), (0, True))
            self.restarts(name)

    def by_cron(self, line):
        """As cron runs a line."""
        return self.ran("env", "-i", "HOME=/root", "LOGNAME=root", "PATH=/usr/bin:/bin", "SHELL=/bin/sh", "/bin/sh", "-c", line)

    def try_settings(self):
        """How many days, by acd.env; what is none has failed before the desk is stopped."""
        self.laid()
        settings, process = self.inside(SETTINGS).read_text(), self.process()
        self.set("ACD_CARRY_DAYS", "many")
        self.expect("days that are none", self.ran("systemctl", "start", "acd-prune")[0], 1)
        self.expect("the desk wasn't stopped", self.process(), process)
        self.set("ACD_CARRY_DAYS", "4")
        self.prunes("four days")
        self.expect("what is kept", 150 < len(self.kept("pbx")) < 200)
        self.inside(SETTINGS).write_text(settings)

    def try_killed(self):
        """Each line of the unit, killed at some of its calls: the desk is back over the file as it was or pruned, and the next one does the rest."""
        seen = set()
        for line, call, number in PLACES:
            what = f"{line} killed at {call} {number}"
            self.laid()
            self.change(line, call, number, "signal=KILL")
            status, _ = self.ran("systemctl", "start", "acd-prune")
            # of the last line there are two
            self.expect(f"{what}: it has failed", status != 0, line != "ExecStopPost")
            self.is_back(what)
            seen.add(self.is_whole(what))
            self.unchange()
            self.ends(what)
        self.expect("over the file as it was, and pruned", seen, {True, False})

    def ends(self, what):
        """The next one does the rest, or finds it done."""
        self.prunes(f"{what}, the next one")
        self.is_back(f"{what}, the next one")
        self.expect(f"{what}, the next one", (self.is_whole(what), len(self.archives()), [name for name in self.names() if name.startswith(".prune")]), (True, 1, []))

    def try_stopped(self):
        """The unit is stopped, and all of it is killed at once, at some moments."""
        for words in (("stop", "acd-prune"), ("kill", "--signal=KILL", "acd-prune")):
            for wait in (0.1, 0.3, 0.5, 0.8, 1.2):
                what = f"systemctl {words[0]} behind {wait} s"
                self.laid()
                self.done("systemctl", "start", "--no-block", "acd-prune")
                time.sleep(wait)
                begun = time.monotonic()
                # one that waited for itself would be ended by systemd behind three minutes
                self.ran("timeout", "30", "systemctl", *words)
                self.expect(f"{what}: soon", time.monotonic() - begun < 20)
                self.expect(f"{what}: it ends", self.eventually(lambda: self.show("ActiveState", unit="acd-prune")[0] in ("inactive", "failed"), True), True)
                self.is_back(what)
                self.ends(what)

    def try_power_cut(self):
        """The machine goes off, and on: it starts the desk over the file as it was or pruned, and the next one does the rest."""
        for line, call, number in CUTS:
            what = f"off at {call} {number} of {line}"
            self.laid()
            self.change(line, call, number, "delay_enter=60000000")
            self.done("systemctl", "start", "--no-block", "acd-prune")
            self.expect(f"{what}: the desk is down", self.eventually(lambda: self.show("ActiveState")[0], "inactive"), "inactive")
            time.sleep(1.5)
            self.container.end()
            self.container.boot()
            self.is_back(what)
            self.is_whole(what)
            self.ends(what)
