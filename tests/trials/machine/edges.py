"""What the cases of try-edges stand on: both packages, a user who has nothing to do with them, and a standby that takes over; the step of the desk's own ticks is that of this trial."""
import json
import re

from booted import AT_SOCKETS, Booted
from sections import section, typed

FIRST, FOLLOWING = "http://127.0.0.1:8095", "/usr/share/doc/acd/examples/follow.env"


class Edges(Booted):
    included = ("etcd-client", "etcd-server", "kamailio", "kamailio-tls-modules", "nginx-light", "strace")
    places = {**AT_SOCKETS, "first": (FIRST,)}

    @classmethod
    def prepare(cls):
        settings, roles = cls.container.inside("/etc/acd/acd.env"), cls.container.inside("/etc/acd/roles")
        settings.write_text(settings.read_text().replace("ACD_STEP=10", "ACD_STEP=2"))
        roles.write_text(roles.read_text() + "pbx exchange\n")
        cls.container.put("/etc/acd/users", "")
        cls.container.shell("useradd --create-home ben; chown root:acd-gate /etc/acd/users; chmod 640 /etc/acd/users; systemctl restart acd etcd")

    # a standby, by its unit, of a desk that another unit serves in the place of another machine's

    def stand_by(self, desk, follow, settings, folder, of="desk"):
        """The desk's file goes to `first`, and it is followed from there, by the example's options with a socket."""
        self.done("systemctl", "disable", "--now", desk)
        self.done("sh", "-c", f"install -d -o acd /srv/first && cp -a {folder}/desk.db* /srv/first")
        self.done("systemd-run", "--quiet", "--unit=first", "--uid=acd", "acd", "serve", "--file", "/srv/first/desk.db", "--port", FIRST[-4:], "--endless")
        self.expect("the first desk answers", self.eventually(lambda: self.curl(self.at("/snapshot", "first")), 200), 200)
        options = re.search(r'^#ACD_FOLLOW_OPTIONS=".* (--socket .*)"$', self.container.inside(FOLLOWING).read_text(), re.MULTILINE)[1]
        options = options.replace("/run/acd/desk.sock", self.places[of][1]).replace("--tick 10", "--tick 2")
        self.container.put(settings, f'ACD_FOLLOW={FIRST}\nACD_FOLLOW_OPTIONS="{options}"\n')
        self.done("systemctl", "enable", "--now", follow)

    def serve_by_order(self, desk, follow, file, of="desk"):
        """Whoever asks at its socket waits until it is told to serve, whether the first desk is there or not, and is answered then. The desk goes on with its file."""
        for invoke, (service, members) in enumerate([("addGroup", {"device": "300", "name": "Sales", "ring": 3, "wrap": 0}), ("addStation", {"device": "301"}), ("addAgent", {"agent": "31", "name": "Cleo"})], 300):
            self.expect(f"{service} is taken", "result" in self.service("plan", invoke, service, "first", **members))
        last = json.loads(self.ran("curl", "-s", *self.at("/requests?after=0", "first"))[1])["last"]
        self.expect(f"it follows up to {last}", self.eventually(lambda: f" has the requests up to {last}; " in self.ran("acdctl", "follow", "--last", "--file", file)[1], True), True)
        self.expect("the desk is off", self.ran("systemctl", "is-active", desk)[1], "inactive\n")
        waits = ("curl", "-s", "--max-time", "2", *self.at("/snapshot", of))
        self.expect("who asks waits", self.ran(*waits), (28, ""))
        self.done("systemctl", "stop", "first")
        self.expect("without the first desk too", self.ran(*waits), (28, ""))
        self.done("systemd-run", "--quiet", "--unit=waits", "--property=StandardOutput=truncate:/run/waited", "curl", "-s", "--max-time", "60", *self.at("/snapshot", of))
        order = typed(section(self.container.inside("/usr/share/doc/acd/COPIES.md").read_text(), "Take over at once")).splitlines()[0]
        self.done("sh", "-c", order.replace("acd-follow", follow))
        self.expect("who waits is answered", self.eventually(lambda: '"Sales"' in self.ran("cat", "/run/waited")[1], True), True)
        self.expect_in("it says so", self.journal(follow), rf"\n{file} serves from request {last} on: listening on {self.places[of][1]}\n")
        self.expect("whose the socket is", self.done("stat", "-c", "%U %G %a", self.places[of][1]), "acd acd-local 660\n")
        self.expect("other users are kept from it", self.curl(self.at("/", of), user="ben"), 0)
        for invoke, (service, members) in enumerate([("setAgentState", {"agent": "31", "requested": "loggedOn", "device": "301", "group": "300"}),
                                                     ("setAgentState", {"agent": "31", "requested": "ready"}), ("arriveCall", {"caller": "0301237", "called": "300"})], 300):
            self.expect(f"{service} is taken", "result" in self.service("pbx", invoke, service, of, **members))
        self.expect("it ticks", self.eventually(lambda: '"service":"tick"' in self.read(f"/requests?after={last}", of), True), True)
        self.done("systemctl", "disable", "--now", follow)
        self.done("systemctl", "enable", "--now", desk)
        self.expect("the desk goes on", self.eventually(lambda: '"Sales"' in self.read("/snapshot", of), True), True)
        self.expect("nothing has failed", self.ran("systemctl", "--failed", "--quiet"), (0, ""))
