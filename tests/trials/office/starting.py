"""Cases of starting: a file that isn't there, a port that is taken, settings that are wrong, a full disk; done wrong first, and then right."""
import subprocess
import time

from office import FILE, HOME, SETTINGS, STATE, Office

LOG, NOTE, ROUNDS, KILLS, OPENING = f"{FILE}-wal", f"{FILE}-pair", 50, 20, 5
# a desk that is played, in the place of the program: it listens behind so many seconds
PLAYED = """#!/usr/bin/python3
import os, socket, sys, time
time.sleep({seconds})
if not {listens}:
    sys.exit(1)
path, listener = sys.argv[sys.argv.index("--socket") + 1], socket.socket(socket.AF_UNIX)
if os.path.exists(path):
    os.unlink(path)
listener.bind(path)
listener.listen()
while True:
    asks = listener.accept()[0]
    asks.recv(4096)
    asks.sendall(b"HTTP/1.1 200 OK\\r\\nContent-Length: 0\\r\\n\\r\\n")
    asks.close()
"""
SOCKET = "/run/acd/desk.sock"
# listens there for as long as nobody ends it
LISTENS = f"import os, socket, time; os.path.exists({SOCKET!r}) and os.unlink({SOCKET!r}); s = socket.socket(socket.AF_UNIX); s.bind({SOCKET!r}); s.listen(); time.sleep(9999)"


class Starting(Office):
    def try_installed(self):
        """The package makes the first file, and says so; nothing has failed."""
        self.expect_in("what dpkg says", self.said, f"(?m)^made {FILE}$")
        self.serves("as it is installed")
        self.expect("its file is nobody else's", self.done("stat", "-c", "%U %a", FILE, NOTE), "acd 600\nacd 600\n")
        self.expect("nothing has failed", self.ran("systemctl", "--failed", "--quiet"), (0, ""))
        self.expect("what runs is the program", self.done("cat", f"/proc/{self.show('MainPID')[0]}/comm"), "acd\n")
        after, wants, order = self.show("After", "Wants", "StartLimitIntervalUSec")
        self.expect("it comes behind a clock that is set, and is started again without an end", ("time-sync.target" in after.split(), "time-sync.target" in wants.split(), order), (True, True, "0"))

    def try_killed_make(self):
        """The making of a new desk is killed again and again: there is a whole one or none, and the same command makes it. Over none no start makes one."""
        self.done("systemctl", "stop", "acd")
        self.done("sh", "-c", f"mkdir {HOME}/first && mv {FILE}* {HOME}/first")
        self.fails("before a desk is made", f"{FILE} isn't there", f"acdctl ready --make --file {FILE}")
        for number in range(KILLS):
            self.ran("timeout", "--signal=KILL", f"{0.02 + 0.01 * number:.2f}", "acd-ready", "--make", "--file", FILE)
            said = self.ran("acd-ready", "--make", "--file", FILE)
            self.expect(f"made behind kill {number}", said in ((0, f"made {FILE}\n"), (0, f"{FILE} is there already\n")))
            self.expect(f"it is whole, and alone, behind kill {number}", (self.ran("acd", "audit", "--file", FILE, user="acd"), [name for name in self.names() if "new-desk" in name]), ((0, "sound\n"), []))
            self.done("sh", "-c", f"rm {FILE}*")
        self.done("sh", "-c", f"mv {HOME}/first/* {STATE}")
        self.restarts("with the first one")

    def try_plan(self):
        self.plan()

    def try_moved_file(self):
        """The file is moved away under load. It goes on; a restart makes no other one, and the log stays: with the file back all is there."""
        with self.loaded("moved"):
            self.done("mv", FILE, f"{STATE}/x")
            time.sleep(1)
            answered = self.inside(f"{HOME}/moved").read_text().count("\n")
            time.sleep(1)
            self.expect("the desk goes on over the moved file", self.inside(f"{HOME}/moved").read_text().count("\n") > answered)
            self.done("sh", "-c", 'kill -KILL "$(systemctl show --value --property=MainPID acd)"')
            self.eventually(lambda: self.show("ActiveState")[0], "failed", 10)
            self.fails("a file that was moved away", f"{FILE} isn't there, but its log {LOG} is there", "put desk.db or a copy back", "don't remove it", before=(LOG, f"{STATE}/x"))
            self.expect("no other file is made", self.inside().exists(), False)
            self.done("mv", f"{STATE}/x", FILE)
            self.restarts("with the file back")
        self.done("systemctl", "stop", "acd")
        self.expect("each answered request is there, once", set(self.answered) <= set(self.kept("moved")) and len(self.answered) > 20)
        self.expect("and the audit says so", self.ran("acd", "audit", "--file", FILE, user="acd"), (0, "sound\n"))

    def try_lone_log(self):
        """A file of no bytes beside a log that holds something, as a restore that ends half-way leaves it."""
        self.restarts("before it")
        self.sent("lone", 5)
        self.kill()
        file = self.held(FILE)[0]
        self.inside().write_bytes(b"")
        self.fails("a file of no bytes", f"{FILE} has no bytes, but its log", before=(FILE, LOG))
        self.inside().write_bytes(file)
        self.restarts("with the file back")
        self.done("systemctl", "stop", "acd")
        self.expect("what was answered is there", self.kept("lone"), [1, 2, 3, 4, 5])

    def try_mistyped_file(self):
        """A typing mistake in acd.env makes no new desk; nor does a folder's name."""
        self.set("ACD_FILE", f"{STATE}/dsek.db")
        self.fails("a mistyped file", f"{STATE}/dsek.db isn't there: is ACD_FILE in {SETTINGS} spelt right?", f"acdctl ready --make --file {STATE}/dsek.db")
        self.set("ACD_FILE", STATE)
        self.fails("a folder", f"{STATE} is no file")
        self.set("ACD_FILE", "")
        self.fails("no file", "the file has no name", status="2")
        self.expect("nothing is made", "dsek.db" in self.names(), False)
        self.set("ACD_FILE", FILE)
        self.restarts("with its own file")

    def try_mistyped_name(self):
        """Nor does one in a setting's name; one of an earlier version does no harm."""
        settings = self.inside(SETTINGS)
        before = settings.read_text()
        settings.write_text(before.replace("ACD_FILE=", "ACD_FLIE="))
        self.fails("a mistyped name", "no setting is called ACD_FLIE: ACD_FILE is the nearest", before=(FILE,))
        settings.write_text(f"{before}ACD_CONNECTIONS=64\n")
        mark = self.mark()
        self.done("systemctl", "restart", "acd")
        self.serves("with a setting of an earlier version")
        self.expect("which is told", [("ACD_CONNECTIONS" in line, "is ignored: remove it" in line) for line in self.said_since(mark)], [(True, True)])
        settings.write_text(before)
        self.restarts("with the settings as they were")

    def try_homes(self):
        """No unit sees a home: that is told, once, and nobody is advised to give one away."""
        self.done("sh", "-c", f"install -d -m 700 /home/joe && ln -s /root/desk.db {STATE}/linked.db")
        for file in ("/root/desk.db", "/home/joe/desk.db", f"{STATE}/linked.db"):
            self.set("ACD_FILE", file)
            mark = self.mark()
            self.fails(file, f"no unit sees a home: move the file under {STATE}")
            self.expect("no folder is to be given away", [line for line in self.said_since(mark) if "chown" in line], [])
        self.done("rm", f"{STATE}/linked.db")
        self.set("ACD_FILE", FILE)
        self.restarts("with its own file")

    def try_slow_opening(self):
        """The start returns when the desk answers, however long that takes, and fails where the desk ends before."""
        self.done("systemctl", "stop", "acd")
        for listens in (True, False):
            self.container.put("/usr/local/bin/acd", PLAYED.format(seconds=OPENING, listens=listens), 0o755)
            began = time.monotonic()
            status = self.ran("systemctl", "start", "acd", wait=OPENING + 120)[0]
            found = status, self.curl(self.at("/")), time.monotonic() - began > OPENING, self.show("ActiveState") == ["active"]
            self.expect(f"a desk that {'listens' if listens else 'ends'} behind {OPENING} s", found, (0, 200, True, True) if listens else (1, 0, True, False))
            self.done("systemctl", "stop", "acd")
            self.expect("nobody goes on asking", "acdctl ready --serve" in self.done("ps", "-eo", "args"), False)
        self.done("rm", "/usr/local/bin/acd")
        self.restarts("with the program")

    def try_timer(self):
        """Within its limits the unit may ask systemd whether the timer of copies is active."""
        drop, asked = "/etc/systemd/system/acd.service.d/asked.conf", f"{STATE}/asked"
        self.container.put(drop, f"[Service]\nExecStartPre=-/bin/sh -c 'systemctl is-active acd-copy.timer > {asked} 2>&1'\n")
        self.done("systemctl", "daemon-reload")
        for verb, answer in (("stop", "inactive\n"), ("start", "active\n")):
            self.done("systemctl", verb, "acd-copy.timer")
            self.restarts(f"with a timer behind {verb}")
            self.expect(f"systemd's answer behind {verb}", self.inside(asked).read_text(), answer)
        self.done("rm", drop, asked)
        self.done("systemctl", "daemon-reload")

    def try_disk_that_is_away(self):
        """A desk on a disk of its own, which isn't mounted at a start."""
        place = "/srv/desk"
        self.done("systemctl", "stop", "acd")
        self.done("install", "-d", place)
        self.container.put("/etc/systemd/system/acd.service.d/disk.conf", f"[Service]\nReadWritePaths={place}\n")
        self.done("systemctl", "daemon-reload")
        self.set("ACD_FILE", f"{place}/desk.db")
        self.fails("a disk that is away", f"{place}/desk.db isn't there")
        status, said = self.ran("acd-ready", "--make", "--file", f"{place}/desk.db", user="acd")
        self.expect("nor is a new desk made there by its user", (status, said.count("\n"), f"may not write in {place}" in said), (64, 1, True))
        self.done("mount", "-t", "tmpfs", "none", place)
        self.done("chown", "acd:acd", place)
        self.fails("a disk with no desk", f"{place}/desk.db isn't there", "acdctl ready --make")
        self.expect("made as the line says", self.ran("acd-ready", "--make", "--file", f"{place}/desk.db"), (0, f"made {place}/desk.db\n"))
        self.expect("by root, for the folder's owner", self.done("stat", "-c", "%U:%G %a", f"{place}/desk.db"), "acd:acd 600\n")
        self.restarts("on its own disk")
        self.done("rm", "/etc/systemd/system/acd.service.d/disk.conf")
        self.done("systemctl", "daemon-reload")
        self.fails("a folder that isn't named to the unit", f"{place} is read-only", f"ReadWritePaths={place}", before=(f"{place}/desk.db",))
        self.set("ACD_FILE", FILE)
        self.restarts("with its own file")
        self.done("umount", place)

    def try_rights(self):
        """Whose the file is, and who may write in its folder."""
        self.done("systemctl", "stop", "acd")
        for what, wrong, right, *words in (
                ("root's file", ("chown", "root", FILE), ("chown", "acd", FILE), f"{FILE} is the user root's and not acd's: chown acd {FILE}"),
                ("root's log", ("chown", "root", LOG), ("chown", "acd", LOG), f"{LOG} is the user root's and not acd's: chown acd {LOG}"),
                ("a file to be read only", ("chmod", "400", FILE), ("chmod", "600", FILE), f"the user acd may not read and write {FILE}: chmod 600 {FILE}"),
                ("a second name", ("ln", FILE, f"{STATE}/second"), ("rm", f"{STATE}/second"), "has 2 names", "-samefile"),
                ("root's folder", ("chown", "root:root", STATE), ("chown", "acd:acd", STATE), f"the user acd may not look into {STATE}"),
                ("a folder to be read only", ("chmod", "550", STATE), ("chmod", "750", STATE), f"the user acd may not write in {STATE}")):
            self.done(*wrong)
            self.fails(what, *words)
            self.done(*right)
            self.restarts(f"without {what}")
            self.done("systemctl", "stop", "acd")
        self.done("mv", FILE, f"{STATE}/x")
        self.done("rm", LOG)
        self.expect("root makes the first file by an import", self.ran("acd", "import", "--file", FILE, "--plan", "/plan.csv")[0], 0)
        self.fails("a file that root made", f"{FILE} is the user root's")
        self.done("rm", FILE, LOG)
        self.done("mv", f"{STATE}/x", FILE)
        self.restarts("with its own file")

    def stranger(self, port=8080):
        """Another program that listens."""
        self.done("systemd-run", "--quiet", "--collect", "--unit=stranger", "--uid=www-data", "python3", "-m", "http.server", str(port), "--bind", "127.0.0.1", "--directory", "/srv")
        self.expect("a stranger listens", self.eventually(lambda: f":{port} " in self.ran("ss", "-Hltn")[1], True), True)

    def try_taken_socket(self):
        """Another program of the same user listens at the socket, or something else is there: told at once, and left."""
        self.done("systemctl", "stop", "acd")
        self.done("systemd-run", "--quiet", "--collect", "--unit=stranger", "--uid=acd", "python3", "-c", LISTENS)
        self.expect("a stranger listens", self.eventually(lambda: SOCKET in self.ran("ss", "-Hlx")[1], True), True)
        self.fails("a taken socket", f"{SOCKET} is taken", f"ss -lxp src unix:{SOCKET}", "ACD_SOCKET in /etc/acd/acd.env")
        self.expect_in("the line's own advice names who has it", self.done("ss", "-lxp", "src", f"unix:{SOCKET}"), "python3")
        status, said = self.ran("dpkg", "--install", *[f"{HOME}/{path.name}" for path in self.inside(HOME).glob("acd_*.deb")])
        self.expect("an installation goes on", status, 0)
        self.expect_in("and says it", said, f"(?m)^acd: the desk isn't served: {SOCKET} is taken: end who listens there")
        self.done("systemctl", "stop", "stranger")
        self.restarts("without the stranger, whose socket is left over")
        self.done("systemctl", "stop", "acd")
        self.done("rm", SOCKET)
        self.done("touch", SOCKET)
        self.fails("a file in its place", f"{SOCKET} is there, and is no socket of the user acd: move it away")
        self.done("rm", SOCKET)
        self.done("mv", "/run/acd", "/run/away")
        self.fails("a folder that isn't there", "the folder /run/acd isn't there: make it (systemd-tmpfiles --create acd.conf)")
        self.done("systemd-tmpfiles", "--create", "acd.conf")
        self.restarts("with its folder, as the line says")
        self.done("rm", "-r", "/run/away")

    def try_taken_port(self):
        """The same of a desk that has a port."""
        self.done("systemctl", "stop", "acd")
        self.set("ACD_PORT", "8080")
        self.stranger()
        self.fails("a taken port", "port 8080 is taken", "ss -ltnp sport = :8080", "ACD_PORT in /etc/acd/acd.env")
        self.expect_in("the line's own advice names who has it", self.done("ss", "-ltnp", "sport = :8080"), "python3")
        self.done("systemctl", "stop", "stranger")
        self.done("systemctl", "restart", "acd")
        self.serves("without the stranger", 8080)
        self.set("ACD_PORT", None)
        self.restarts("at its socket again")

    def try_long_start(self):
        """A desk whose start takes minutes, as an opening of a large file does: an installation goes on within half a minute, and says how to look. The start goes on too."""
        self.container.put("/etc/systemd/system/acd.service.d/long.conf", "[Service]\nType=notify\nTimeoutStartSec=infinity\nExecStart=\nExecStart=/bin/sleep infinity\n")
        began = time.monotonic()
        status, said = self.ran("timeout", "70", "dpkg", "--install", *[f"{HOME}/{path.name}" for path in self.inside(HOME).glob("acd_*.deb")])
        self.expect(f"an installation goes on ({time.monotonic() - began:.0f} s)", status, 0)
        self.expect_in("and says it", said, r"(?m)^acd: the desk hasn't started yet. To look at it: systemctl status acd; journalctl -u acd$")
        self.expect("the start goes on", self.show("ActiveState", "SubState"), ["activating", "start"])
        self.done("rm", "/etc/systemd/system/acd.service.d/long.conf")
        self.done("systemctl", "daemon-reload")
        self.restarts("with its own start")

    def try_wrong_port(self):
        for value, status, word in (("80", "64", "the user acd may not use port 80"), ("abc", "2", "the port 'abc' isn't a whole number from 1 to 65535"), ("99999", "2", "the port '99999' isn't")):
            self.set("ACD_PORT", value)
            self.fails(f"port '{value}'", word, status=status)
        self.set("ACD_PORT", "")
        self.restarts("without a value, at its socket")
        self.set("ACD_PORT", None)
        self.done("systemctl", "restart", "acd-local")
        self.restarts("without the setting")

    def try_settings(self):
        """A step or a patience that is none: the desk has failed, for good, and is named. What another system's editor or somebody's quotes make of the file is taken."""
        settings = self.inside(SETTINGS)
        before = settings.read_text()
        for name in ("ACD_STEP", "ACD_PATIENCE"):
            self.set(name, "0")
            self.fails(f"{name} of no second", "'0' isn't a whole number from 1 to 3600", status="2")
            settings.write_text(before)
        settings.write_bytes(before.replace(f"ACD_FILE={FILE}", f'ACD_FILE="{FILE}"').replace("\n", "\r\n").encode())
        self.restarts("with quotes, and lines of another system")
        self.expect("a copy by the unit", self.ran("systemctl", "start", "acd-copy"), (0, ""))
        self.expect("and by hand", self.ran("acd-copy", user="acd")[0], 0)
        settings.write_text(before)
        self.restarts("with the settings as they were")

    def try_rounds(self):
        """Restarts under load: none fails, and nothing that was answered is lost."""
        mark, failed = self.mark(), []
        with self.loaded("rounds"):
            for number in range(ROUNDS):
                status, said = self.ran("systemctl", "restart", "acd")
                if status or self.eventually(lambda: self.curl(self.at("/snapshot")), 200) != 200:
                    failed.append((number, said))
        self.expect(f"of {ROUNDS} restarts under load failed", failed, [])
        self.expect("none was started again by itself, none told anything", (self.show("NRestarts", "ActiveState"), self.said_since(mark)), (["0", "active"], []))
        self.done("systemctl", "stop", "acd")
        self.expect("each answered request is there, once", self.kept("rounds")[:len(self.answered)], self.answered)
        self.expect(f"under load: {len(self.answered)}", len(self.answered) > 4 * ROUNDS)
        self.restarts("later")

    def try_full_disk(self):
        """A full disk: started again until there is room, and then it serves, with all that was answered."""
        self.done("systemctl", "stop", "acd")
        held = self.held(FILE)[0]
        size = (len(held) + 600000) // 4096
        self.done("mount", "-t", "tmpfs", "-o", f"size={4 * size}k,mode=750,uid={self.done('id', '-u', 'acd').strip()},gid={self.done('id', '-g', 'acd').strip()}", "none", STATE)
        self.inside().write_bytes(held)
        self.done("chown", "acd:acd", FILE)
        self.done("systemctl", "start", "acd")
        self.serves("on a small disk")
        with self.loaded("full"):
            self.expect("it is full, and started again", self.eventually(lambda: int(self.show("NRestarts")[0]) >= 3, True, 90), True)
            self.inside(f"{STATE}/filler").touch()
            self.ran("sh", "-c", f"cat /dev/zero > {STATE}/filler")
            self.expect("it hasn't failed for good", [state for state in (self.show("ActiveState")[0] for _ in range(10) if not time.sleep(0.5)) if state == "failed"], [])
            answered = self.inside(f"{HOME}/full").read_text().count("\n")
            self.done("mount", "-o", f"remount,size={4 * size + 40000}k", STATE)
            self.expect("there is room, and it answers again", self.eventually(lambda: self.inside(f"{HOME}/full").read_text().count("\n") > answered + 20, True, 30), True)
        self.done("systemctl", "stop", "acd")
        self.expect("each answered request is there, once", self.kept("full")[:len(self.answered)], self.answered)
        self.done("umount", STATE)
        self.restarts("on its own disk")

    def try_opened_first(self):
        """What is told is told before anything opens the file: by the calls of the kernel, up to the one by which it becomes the program."""
        self.done("systemctl", "stop", "acd")
        words = ["strace", "-f", "-qq", "-e", "trace=open,openat,execve", "-o", "/tmp/calls", "acd-ready", "--serve", "--file", FILE, "--port", "8079"]
        process = subprocess.Popen(self.container.words(words, user="acd"), stdout=subprocess.DEVNULL, stderr=subprocess.DEVNULL)
        self.serves("by hand", 8079)
        before, mark, later = self.done("cat", "/tmp/calls").partition('execve("/usr/bin/acd", ["acd", "serve", "--file"')
        self.done("kill", before.splitlines()[-1].split()[0])
        process.wait()
        opened = [[line for line in part.splitlines() if "open" in line and f'"{FILE}"' in line] for part in (before, later)]
        self.expect(f"it opens the file as the program alone: {opened}", list(map(bool, opened)), [False, True])
        self.restarts("by the service")

    def try_upgrade(self):
        """A package that is installed again over a desk whose file and log are away: nothing is made in their place."""
        self.done("systemctl", "stop", "acd")
        self.done("sh", "-c", f"mkdir {HOME}/away && mv {FILE} {LOG} {HOME}/away")
        status, said = self.ran("dpkg", "--install", *[f"{HOME}/{path.name}" for path in self.inside(HOME).glob("acd_*.deb")])
        self.expect("it is installed", status, 0)
        self.expect_in("and says it", said, f"(?m)^acd: the desk isn't served: {FILE} isn't there")
        self.expect("nothing is made", self.inside().exists(), False)
        self.done("sh", "-c", f"mv {HOME}/away/* {STATE}")
        self.restarts("with both back")
