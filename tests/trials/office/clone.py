"""Cases of who takes this repository to a Debian without the toolchain: what is lacking is told first, in one line; done wrong first, and then right."""
import re
import subprocess
import time
from pathlib import Path

from office import HOME, Office
from trial import TOP, Requests, line

CLONE, AWAY = "/opt/acd", f"{HOME}/away"
FIRST = line(5, Requests()("addStation", device="201")).rstrip()


class Clone(Office):
    included = (*Office.included, "binutils", "dpkg-dev", "nginx-light", "nodejs", "openssl", "python3-yaml")

    def try_taken(self):
        """What git has here is taken there, where no toolchain is."""
        self.done("systemctl", "stop", "acd-gate", "acd")
        self.done("install", "-d", CLONE)
        files = subprocess.run(["git", "-C", TOP, "ls-files", "-z"], stdout=subprocess.PIPE, check=True).stdout.decode().split("\0")[:-1]
        subprocess.run(["tar", "-C", TOP, "-cf", self.inside(f"{HOME}/acd.tar"), *files], check=True)
        self.done("tar", "-C", CLONE, "--no-same-owner", "-xf", f"{HOME}/acd.tar")
        self.expect("no toolchain is here", self.ran("sh", "-c", "command -v rt")[0] != 0)

    def without(self, *paths):
        """These are away, until they are put back."""
        self.done("install", "-d", AWAY)
        for path in paths:
            self.done("mv", path, AWAY)

    def with_it(self, *paths):
        for path in paths:
            self.done("mv", f"{AWAY}/{Path(path).name}", path)

    def try_link(self):
        self.done("ln", "-s", f"{CLONE}/acd", "/usr/local/bin/desk")
        self.expect("./acd by a link, from another folder", self.container.shell(f"cd /tmp && echo '{FIRST}' | desk lines"), (0, '200 {"invoke":1,"requester":"plan","result":{}}\n'))

    def try_editors_file(self):
        """What an editor leaves beside a source makes the program older than its sources: the file is named."""
        left = "crates/acd_desk/src/main.rt~"
        self.container.put(f"{CLONE}/{left}", "left")
        status, said = self.container.shell(f"echo '{FIRST}' | {CLONE}/acd lines")
        self.expect(f"an editor's file: {said}", (status, said.count("\n"), left in said), (1, 1, True))
        self.done("rm", f"{CLONE}/{left}")
        self.expect("without it", self.container.shell(f"echo '{FIRST}' | {CLONE}/acd lines")[0], 0)

    def try_package(self):
        """All that is lacking is said at once, with the command that brings it, and nothing is made; then with it."""
        tools = ("/usr/bin/python3", "/usr/bin/nm", "/usr/bin/strip", "/usr/bin/dpkg-shlibdeps")
        self.without(*tools)
        self.expect("without them", self.ran(f"{CLONE}/packaging/package"),
                    (1, "packaging/package: not found: python3, nm, strip, dpkg-shlibdeps. As root: apt-get install --no-install-recommends python3 binutils dpkg-dev\n"))
        self.expect("nothing is made", self.inside(f"{CLONE}/out").exists(), False)
        self.with_it(*tools)
        status, said = self.ran(f"{CLONE}/packaging/package")
        self.expect(f"with them ({said[-300:]})", status, 0)
        version = re.search(r"^# acd (\S+) ", (TOP / "CHANGELOG.md").read_text(), re.MULTILINE)[1]
        self.expect("what is made", self.names(f"{CLONE}/out"), [f"acd-exchange_{version}_all.deb", f"acd_{version}_amd64.deb"])
        self.expect("it can be installed", self.container.shell(f"dpkg --install {CLONE}/out/acd_*.deb")[0], 0)
        pages = "".join(self.inside(f"{CLONE}/docs/{name}.md").read_text() for name in ("FIRST-HOUR", "MACHINES"))
        self.expect_in("the pages say what it takes", pages, "apt-get install --no-install-recommends binutils dpkg-dev python3 ")
        self.expect("what it installs is what is made", set(re.findall(r"apt-get install \S*/(\S+\.deb)", pages)), {f"acd_{version}_amd64.deb"})
        for name in ("README.md", "/usr/share/doc/acd/copyright"):
            self.expect_in(f"{name} names the licence", self.inside(Path(CLONE) / name).read_text(), "MIT OR Apache-2.0")

    def try_types(self):
        yaml = "/usr/lib/python3/dist-packages/yaml"
        self.without(yaml)
        status, said = self.container.shell(f"cd {HOME} && {CLONE}/tests/trials/api/typescript.py > desk.d.ts")
        self.expect(f"without Python's yaml: {said}", (status, said.count("\n"), "apt-get install python3-yaml" in said, self.inside(f"{HOME}/desk.d.ts").exists()), (1, 1, True, False))
        self.with_it(yaml)
        self.expect("with it", self.container.shell(f"cd {HOME} && {CLONE}/tests/trials/api/typescript.py > desk.d.ts && grep -q '^export type' desk.d.ts"), (0, ""))

    def try_board(self):
        """The demonstration where its port is taken, as by the proxy of the desk: told at once, with the option that takes another; where nginx fails by something
        else: its own line; and as it should be."""
        self.done("systemd-run", "--quiet", "--collect", "--unit=stranger", "--uid=www-data", "python3", "-m", "http.server", "8443", "--bind", "0.0.0.0", "--directory", "/srv")
        self.expect("a stranger listens", self.eventually(lambda: ":8443 " in self.ran("ss", "-Hltn")[1], True), True)
        began = time.monotonic()
        self.expect("its port is taken", self.ran(f"{CLONE}/tests/trials/show-board"), (1, "tests/trials/show-board: port 8443 is taken: take another one by --port P\n"))
        self.expect("it is told within some seconds", time.monotonic() - began < 5)
        types = "/etc/nginx/mime.types"
        self.without(types)
        status, said = self.ran(f"{CLONE}/tests/trials/show-board", "--port", "8444", wait=300)
        self.expect(f"nginx says why it doesn't start: {said[-300:]}", (status, bool(re.search(rf"\ntests/trials/show-board: .*\[emerg\].*{types}.*\n\Z", said))), (1, True))
        self.with_it(types)
        self.done("systemd-run", "--quiet", "--collect", "--unit=board", "--uid=www-data", f"{CLONE}/tests/trials/show-board", "--port", "8444")
        self.expect("with another one it is there", self.eventually(lambda: self.curl("https://127.0.0.1:8444/board/", "-k", "-u", "sup:secret"), 200, 150), 200)
        self.done("systemctl", "stop", "board", "stranger")
