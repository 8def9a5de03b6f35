"""Cases of a desk that is set up without the package, by the lines of REFERENCE.md."""
import shutil

from office import FILE, HOME, Office
from sections import section, typed
from trial import TOP

NEEDED = ("board", "client", "docs", "release", "service")


class ByHand(Office):
    def try_by_hand(self):
        self.done("env", "ACD_PURGE_DESK=yes", "dpkg", "--purge", "acd")
        for name in NEEDED:
            shutil.copytree(TOP / name, self.inside(f"{HOME}/acd/{name}"))
        lines = typed(section(self.inside(f"{HOME}/acd/docs/REFERENCE.md").read_text(), "Install without the package"))
        self.expect_in("the lines of the page", lines, r"\Auseradd --system acd .*\n(.*\n)+.*systemctl enable --now acd-local acd .*\n\Z")
        status, said = self.container.shell(f"cd {HOME}/acd && set -eux\n{lines}")
        self.expect(f"they work ({said[-300:]})", status, 0)
        self.serves("by hand")
        self.expect_in("they make the first file", said, f"(?m)^made {FILE}$")
        self.expect("the file and the note are the desk's user's alone", self.done("stat", "-c", "%U %a", FILE, f"{FILE}-pair"), "acd 600\nacd 600\n")
        self.expect("nothing has failed", self.ran("systemctl", "--failed", "--quiet"), (0, ""))
        self.restarts("again")
        self.done("rm", f"{FILE}-wal")
        self.done("mv", FILE, f"{HOME}/x")
        self.fails("a file that was moved away", f"{FILE} isn't there", f"acdctl ready --make --file {FILE}")
        self.expect("a new one, as the line says", self.ran("acd-ready", "--make", "--file", FILE), (0, f"made {FILE}\n"))
        self.restarts("over a new one")
