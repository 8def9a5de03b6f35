"""Cases of a new installation: who of the machine's users reaches the desk and the gate at their sockets, and that neither has a port."""
from edges import Edges

FOLDERS = {"desk": ("/run/acd", "acd"), "gate": ("/run/acd-gate", "acd-gate")}
PATHS = {"desk": "/run/acd/desk.sock", "gate": "/run/acd-gate/gate.sock"}
# the users of whoever listens at a TCP port of this machine, which any user may read
LISTENING = """import pathlib
for name in ("tcp", "tcp6"):
    for line in pathlib.Path("/proc/net", name).read_text().splitlines()[1:]:
        words = line.split()
        if words[3] == "0A":
            print(words[7])
"""
# why somebody isn't let in
CONNECTS = """import socket, sys
try:
    socket.socket(socket.AF_UNIX).connect(sys.argv[1])
    print("connected")
except OSError as fault:
    print(type(fault).__name__)
"""
# asks for the socket each fifth of a second, with the groups with which it began
LASTS = "while ! [ -e /srv/end ]; do curl -s -o /dev/null -w '%{http_code}\\n' --unix-socket /run/acd/desk.sock http://desk/; sleep 0.2; done"


class Sockets(Edges):
    def reached(self, user):
        """What a user reaches: the statuses of the desk and of the gate."""
        return self.curl(self.at("/"), user=user), self.curl(self.at("/who", "gate"), "-H", "X-Login: pbx", user=user)

    def try_no_port(self):
        """A stranger sees nobody of ours listen at a TCP port, and the table of nftables isn't there."""
        self.container.put("/srv/listening.py", LISTENING)
        listening = set(self.ran("python3", "/srv/listening.py", user="ben")[1].split())
        self.expect("somebody listens, etcd say", self.done("id", "-u", "etcd").strip() in listening, True)
        self.expect("of ours nobody", listening & {self.done("id", "-u", user).strip() for user in ("acd", "acd-gate")}, set())
        self.expect("nor at the ports of before", [self.curl(f"http://127.0.0.1:{port}/", user=user) for port in (8080, 8081) for user in ("ben", "root")], [0] * 4)
        self.expect("acd-local is passed over", self.done("systemctl", "show", "acd-local", "--value", "-p", "ActiveState", "-p", "Result").split(), ["exec-condition", "inactive"])
        self.expect("and has no table", self.ran("nft", "list", "table", "inet", "acd")[0], 1)
        self.expect("nothing has failed", self.ran("systemctl", "--failed", "--quiet"), (0, ""))

    def try_users(self):
        """The services' users, root and the group, and nobody else: the edge of the telephone exchange neither."""
        for user in ("root", "acd-gate", "acd-exchange", "www-data"):
            self.expect(f"{user} reaches", self.eventually(lambda: self.reached(user), (404, 200)), (404, 200))
        self.expect("the desk's own user", self.curl(self.at("/"), user="acd"), 404)
        self.container.put("/srv/connects.py", CONNECTS)
        for user in ("ben", "nobody", "games", "acd-edge"):
            self.expect(f"{user} is refused", (self.reached(user), [self.ran("python3", "/srv/connects.py", path, user=user)[1] for path in PATHS.values()]), ((0, 0), ["PermissionError\n"] * 2))
            for folder, _ in FOLDERS.values():
                self.expect(f"{user} sees nothing of {folder}, and makes nothing there", [self.ran(*words, user=user)[0] == 0 for words in (("ls", folder), ("touch", f"{folder}/x"))], [False] * 2)
        self.expect("by the group itself", self.curl(self.at("/"), user="ben", group="acd-local"), 404)

    def try_members(self):
        """Who comes into the group reaches the desk with what is started from then on, and who leaves it doesn't any more."""
        self.done("useradd", "--create-home", "cem")
        self.expect("not yet", self.reached("cem"), (0, 0))
        self.done("adduser", "--quiet", "cem", "acd-local")
        self.expect("in the group", self.reached("cem"), (404, 200))
        self.done("systemd-run", "--quiet", "--collect", "--unit=lasts", "--uid=cem", "sh", "-c", LASTS)
        self.expect("it asks", self.eventually(lambda: "404" in self.journal("lasts"), True), True)
        self.done("deluser", "--quiet", "cem", "acd-local")
        self.expect("out of the group", self.reached("cem"), (0, 0))
        count = self.journal("lasts").count("404")
        self.expect("what runs keeps the groups with which it began", self.eventually(lambda: self.journal("lasts").count("404") > count, True), True)
        self.container.put("/srv/end", "")

    def try_folders(self):
        """They outlive a stop, and the socket that is made in them has their group."""
        for unit, what in (("acd-gate", "gate"), ("acd", "desk")):
            (folder, user), path = FOLDERS[what], PATHS[what]
            for turn in ("stop", "start"):
                self.done("systemctl", turn, unit)
                self.expect(f"{folder} behind a {turn}", self.done("stat", "-c", "%U %G %a", folder), f"{user} acd-local 2750\n")
                self.expect(f"{path} behind a {turn}", self.eventually(lambda: self.done("stat", "-c", "%U %G %A", path), f"{user} acd-local srw-rw----\n"), f"{user} acd-local srw-rw----\n")
        self.expect("they answer", self.eventually(lambda: self.reached("www-data"), (404, 200)), (404, 200))

    def try_ports(self):
        """A setting that names a port brings the table; without it the table goes, and the socket is there again."""
        settings = self.container.inside("/etc/acd/acd.env")
        before = settings.read_text()
        settings.write_text(f"{before}ACD_PORT=8080\n")
        self.done("systemctl", "restart", "acd-local", "acd", "acd-gate")
        self.expect("at the port, for root alone", (self.curl("http://127.0.0.1:8080/"), self.curl("http://127.0.0.1:8080/", user="ben")), (404, 0))
        self.expect("the table has it alone", "dport 8080 " in self.done("nft", "list", "table", "inet", "acd").replace("{ 8080 }", "8080"), True)
        self.expect("the gate asks it there", self.service("pbx", 70, "tick", "gate", ("-H", "X-Login: pbx")).get("result"), {})
        settings.write_text(before)
        self.expect("the table goes by itself", self.eventually(lambda: self.ran("nft", "list", "table", "inet", "acd")[0], 1), 1)
        self.done("systemctl", "restart", "acd", "acd-gate")
        self.expect("and back", self.eventually(lambda: self.reached("www-data"), (404, 200)), (404, 200))
        self.expect("the gate too", self.service("pbx", 71, "tick", "gate", ("-H", "X-Login: pbx")).get("result"), {})
        self.expect("nothing has failed", self.ran("systemctl", "--failed", "--quiet"), (0, ""))
